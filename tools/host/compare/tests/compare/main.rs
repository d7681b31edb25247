//! Compares every entry that ports a function of the original with that function, bit for bit, and prints how many answers were
//! compared. Run it with `ORIGINAL=FOLDER cargo test --release`, where FOLDER holds the original's files. A name after `--` picks
//! the comparisons whose names hold it.

#[cfg(original)]
mod levels;
#[cfg(original)]
mod planes;
#[cfg(original)]
mod quads;
#[cfg(original)]
mod tally;
#[cfg(original)]
mod words;

mod untouched;

#[cfg(not(original))]
fn main() {
    println!("comparison with the original: {}", muosleap_compare::SKIPPED);
    untouched::main();
}

#[cfg(original)]
fn main() {
    untouched::main();
    let wanted = std::env::args().skip(1).find(|word| !word.starts_with('-')).unwrap_or_default();
    let jobs = [words::jobs(), levels::jobs(), planes::jobs(), quads::jobs()];
    let jobs = jobs.into_iter().flatten().filter(|job| job.name.contains(&wanted)).collect();
    std::process::exit(tally::run(jobs));
}
