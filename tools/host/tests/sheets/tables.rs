//! Tables of one's own that pass the likeness check.

use crate::numbers::Numbers;
use muosleap::{Table, c};

/// So many codes that look random.
pub fn many(edge: u32, count: usize) -> Vec<u64> {
    let mut numbers = Numbers(0x2545_f491_4f6c_dd1d);
    (0..count).map(|_| numbers.next() >> (64 - edge * edge)).collect()
}

/// The table, which has to pass the check.
pub fn passing(table: Table) -> Table {
    assert_eq!(c::check_likeness(table.edge, table.border, table.hamming_distance, table.codes), 0, "{table:?}");
    table
}

/// As many codes as pass the check together, up to `most`: of edges 2 and 3 all words are tried, of the others some.
pub fn made(edge: u8, hamming_distance: u8, most: usize) -> Vec<u64> {
    let words = if edge < 4 { (0..1 << (edge * edge)).collect() } else { many(edge as u32, 2_000) };
    let mut codes = Vec::new();
    for word in words {
        codes.push(word);
        if codes.len() > most || c::check_likeness(edge, 1, hamming_distance, &codes) != 0 {
            codes.pop();
        }
    }
    codes
}
