//! Links the proved crate `van`.

include!("../link.rs");

fn main() {
    link(&["van"]);
}
