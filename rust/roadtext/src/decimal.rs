//! Decimal numbers, counted in units of their last decimal: read digit by digit and written exactly, with no float.

/// A word between quotes, of a long one the beginning.
pub(crate) fn quoted(text: &str) -> String {
    const MOST: usize = 60;
    match text.char_indices().nth(MOST) {
        Some((end, _)) => format!("{:?}...", &text[..end]),
        None => format!("{text:?}"),
    }
}

/// Reads a number with at most so many decimals behind a point, after a minus if it is negative. One that does not fit 64 bits
/// is read as the last that does, which is beyond every range that is asked for.
///
/// # Errors
/// What is wrong with it.
///
/// ```
/// assert_eq!(roadtext::decimal::read("-1.5", 4), Ok(-15_000));
/// assert_eq!(roadtext::decimal::read("1.55", 1), Err("\"1.55\" has more than 1 decimal".to_string()));
/// ```
pub fn read(text: &str, decimals: usize) -> Result<i64, String> {
    if text.is_empty() {
        return Err("the number is missing".to_string());
    }
    let size = text.strip_prefix('-').unwrap_or(text);
    let (whole, behind) = size.split_once('.').map_or((size, None), |(whole, behind)| (whole, Some(behind)));
    let digits = |part: &str| !part.is_empty() && part.bytes().all(|letter| letter.is_ascii_digit());
    if !digits(whole) || !behind.is_none_or(digits) {
        return Err(format!("{} is no number", quoted(text)));
    }
    let behind = behind.unwrap_or_default();
    if behind.len() > decimals {
        return Err(match decimals {
            0 => format!("{} is not whole", quoted(text)),
            1 => format!("{} has more than 1 decimal", quoted(text)),
            most => format!("{} has more than {most} decimals", quoted(text)),
        });
    }
    let negative = text.starts_with('-');
    let last = if negative { i64::MIN } else { i64::MAX };
    let sign = if negative { "-" } else { "" };
    Ok(format!("{sign}{whole}{behind:0<decimals$}").parse().unwrap_or(last))
}

/// A number with so many decimals, of which zeros at the end are left out down to `least`.
///
/// ```
/// assert_eq!(roadtext::decimal::write(-15_000, 4, 2), "-1.50");
/// assert_eq!(roadtext::decimal::write(-15_000, 4, 4), "-1.5000");
/// ```
pub fn write(number: i64, decimals: usize, least: usize) -> String {
    let digits = format!("{:0>width$}", number.unsigned_abs(), width = decimals + 1);
    let (whole, behind) = digits.split_at(digits.len() - decimals);
    let kept = behind.trim_end_matches('0').len().max(least.min(decimals));
    let sign = if number < 0 { "-" } else { "" };
    let point = if kept > 0 { "." } else { "" };
    format!("{sign}{whole}{point}{}", &behind[..kept])
}
