//! The purposes that a distance is needed for, by number and by name.

/// The purpose of stopping.
pub const STOPPING: u32 = 0;

/// How many purposes there are.
const MANY: usize = 6;

/// The names of purposes 0 to 5.
pub const NAMES: [&str; MANY] = ["stopping", "decision A", "decision B", "decision C", "decision D", "decision E"];

/// Their short names.
pub const SHORT: [&str; MANY] = ["stop", "A", "B", "C", "D", "E"];

/// A purpose by its number or its name: `stopping` or `stop`, `decision-A` or `A`, in small letters too. A number is handed over as
/// it is.
pub fn read(text: &str) -> Result<u32, String> {
    if text.starts_with(|letter: char| letter.is_ascii_digit()) {
        return crate::arguments::WHOLE.read(text);
    }
    let wanted = text.replace('-', " ");
    let is_named = |names: [&str; 2]| names.iter().any(|name| name.eq_ignore_ascii_case(&wanted));
    match (0..).zip(NAMES.into_iter().zip(SHORT)).find(|&(_, (name, short))| is_named([name, short])) {
        Some((purpose, _)) => Ok(purpose),
        None => Err(format!("{text:?} is no purpose: 0 to 5, stopping, or A to E")),
    }
}

/// The name of an accepted purpose.
pub fn name(purpose: u32) -> &'static str {
    NAMES.get(purpose as usize).copied().unwrap_or_default()
}
