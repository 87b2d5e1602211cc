//! Links the proved crates of exports.

include!("../link.rs");

fn main() {
    link(&[
        "curve_exports",
        "sight_exports",
        "engine_exports",
        "marks_exports",
        "passing_exports",
        "file_exports",
        "road_exports",
        "preview_exports",
        "listing_exports",
        "conversion_exports",
        "mirror_exports",
    ]);
}
