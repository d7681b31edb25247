//! Numbers on the command lines of the demo and of the sheet printer.

use std::ffi::OsString;
use std::ops::RangeInclusive;

/// The number after an option, one of those that it takes.
pub fn number(option: &str, word: Option<OsString>, taken: RangeInclusive<usize>) -> Result<usize, String> {
    let asked = format!("{option} takes a number from {} to {}", taken.start(), taken.end());
    let word = word.ok_or_else(|| asked.clone())?;
    let number = word.to_str().and_then(|word| word.parse().ok()).filter(|number| taken.contains(number));
    number.ok_or_else(|| format!("{asked}, not {}", word.to_string_lossy()))
}
