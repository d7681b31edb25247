//! Numbers of things, as the sheet printer and the printer of reports say them.

/// A number of things: 1 tag, 2 tags.
pub fn counted(number: usize, thing: &str) -> String {
    format!("{number} {thing}{}", if number == 1 { "" } else { "s" })
}
