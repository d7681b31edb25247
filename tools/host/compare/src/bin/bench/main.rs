//! Measures the original and Muosleap in one run, on the same inputs, and prints a Markdown report.

#[cfg(original)]
mod codes;
#[cfg(original)]
mod measure;
#[cfg(original)]
mod painting;
#[cfg(original)]
mod planes;
#[cfg(original)]
mod report;
#[cfg(original)]
mod reporting;

#[cfg(not(original))]
fn main() {
    println!("benchmark: {}", muosleap_compare::SKIPPED);
}

#[cfg(original)]
fn main() {
    println!("# Benchmarks\n\n{HEAD}\n\nMeasured on: {}.", report::machine());
    let sides = ["original", "Muosleap"];
    report::table("Words", WORDS, sides, &codes::words());
    report::table("Levels and quads", QUADS, sides, &codes::quads());
    report::table("Padded lines", PADDED, ["without filler", "pitch 2,048"], &codes::padded());
    report::table("Reports", REPORTS, ["plain Rust", "Muosleap"], &reporting::reports());
    report::table("Likeness check", LIKENESS, sides, &codes::likeness());
    report::table("Painting a tag", PAINTING, ["plain fill", "Muosleap"], &painting::tags());
    report::table("Painting a sheet", SHEETS, ["two plain fills", "Muosleap"], &painting::sheets());
    for (width, height) in [(640, 480), (1920, 1080)] {
        let rows = planes::Planes::new(width, height).entries();
        report::table(&format!("Planes of {width} × {height}"), PLANES, sides, &rows);
    }
    let sizes = [(640, 480), (1280, 960), (1920, 1080), (2592, 1944), (4096, 3072), (4096, 4096)];
    let rows = sizes.map(|(width, height)| ((width, height), planes::Planes::new(width, height).chain()));
    report::growth(GROWTH, &rows);
    println!("\nLoad average at the end: {}.", report::load());
}

#[cfg(original)]
const HEAD: &str = "Written by `cargo run --release --bin bench` in tools/host, with ORIGINAL set. The original functions are built from \
an unmodified copy of their files. Both sides are release builds, ours for x86-64-v2 and the original for plain x86-64, and run in turns in one process on the same inputs; \
before a row is measured, both sides' answers are held to be the same, where both give one. A time is the median of 15 rounds of about 20 ms.";

#[cfg(original)]
const WORDS: &str = "T36H11, 587 codes of 6 × 6 bits; a turn takes these words at each edge. Time for one word.";

#[cfg(original)]
const QUADS: &str = "Tags of T36H11 on a picture of 1920 × 1080 with noise, at turn 0. The original's times are those of its `bit_code` and \
`best_tag` at places that are given to it: its solver for the places, faer, could not be had, so its `decode_positions` is left out. \
Muosleap's readings include the corner tests and the places. In the row of `bit_code` the original also fetches the levels from the picture.";

#[cfg(original)]
const PADDED: &str = "A plane of 1920 × 1080 whose lines begin 2,048 bytes after one another, (noise as filler in the plane that is read), against the same plane without filler: \
the quads and the print of the other tables, our side alone. The last column is below 1 where filler costs time.";

#[cfg(original)]
const REPORTS: &str = "The original has no reports. The left column is a writer and a reader of the same format by hand in plain Rust, with the same \
tests, which has to leave the same bytes and numbers (compare/src/bin/bench/reporting.rs).";

#[cfg(original)]
const LIKENESS: &str = "The original has no such check. The tables pass it, which is its longest way.";

#[cfg(original)]
const PAINTING: &str = "The original has no painter. The left column is the least that one has to do: a plane of the same size filled with \
light in plain Rust, `plane.fill(light)`. The last column is the part of the painter's time that this takes.";

#[cfg(original)]
const SHEETS: &str = "12 × 12 tags of T36H11 on a plane of 1920 × 1080, which cover 1,071 lines of it with a cell of 7 pixels and 1,048 with one of 8. \
The left column is the time of filling the plane twice, in plain Rust as above. A sheet is to take at most twice as long: the last column is to be 0.50 or more.";

#[cfg(original)]
const PLANES: &str = "A sheet of tags with noise. Muosleap's buffers are lent and were written before; the original makes its planes anew in \
each call, as it does in use. Clusters: each call of either side gets a fresh copy of the response, made outside the time. In the last row \
the response goes into the plane that the blur had between, which is free by then.";

#[cfg(original)]
const GROWTH: &str = "Blur, response, threshold and clusters one after the other, as above.";
