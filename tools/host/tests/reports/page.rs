//! docs/REPORTS.md: the report that it takes apart is what the library writes of its three rows.

use crate::report_of;

const PAGE: &str = include_str!("../../../../docs/REPORTS.md");

/// What stands between two texts, the first of which stands once only.
fn between<'a>(start: &str, end: &str) -> &'a str {
    let [_, after] = PAGE.split(start).collect::<Vec<_>>()[..] else { panic!("{start:?} does not stand once") };
    after.split(end).next().unwrap()
}

/// The bytes of a text of hexadecimal numbers.
fn bytes(text: &str) -> Vec<u8> {
    text.split_whitespace().map(|byte| u8::from_str_radix(byte, 16).unwrap()).collect()
}

/// The three rows, from the page's table of the reading.
fn rows() -> Vec<([u64; 4], [u32; 8])> {
    let table = between("### The reading\n", "\n### ").lines().filter(|line| line.starts_with("| ")).skip(1);
    let row = |line: &str| {
        let cells: Vec<&str> = line.trim_matches('|').split('|').map(str::trim).collect();
        let numbers = [1, 2, 3, 4].map(|cell| cells[cell].parse::<u64>().unwrap());
        let corners: Vec<f32> = cells[5].split([' ', ',', '(', ')']).filter_map(|number| number.parse().ok()).collect();
        (numbers, <[f32; 8]>::try_from(corners).unwrap().map(f32::to_bits))
    };
    table.map(row).collect()
}

#[test]
fn the_pages_report_is_the_librarys() {
    let rows = rows();
    let report = report_of(&rows);
    assert_eq!([2, 37, 74].map(|place: usize| report[place]), [9, 15, 16], "the page's three maps");
    assert_eq!(bytes(between("### The bytes\n\n```text\n", "```")), report);
    // Byte by byte: each line has its place, and the places have no gap.
    let mut taken = Vec::new();
    for line in between("### Byte by byte\n", "\n## ").lines().filter(|line| line.starts_with("| ")).skip(1) {
        let cells: Vec<&str> = line.trim_matches('|').split('|').map(str::trim).collect();
        assert_eq!(cells[0].parse(), Ok(taken.len()), "{line}");
        taken.extend(bytes(cells[1]));
    }
    assert_eq!(taken, report);
}
