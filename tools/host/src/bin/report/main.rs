//! Prints a report: reads a file that holds a list reading, and prints a table of its rows.

#[path = "../shared/counted.rs"]
mod counted;

use counted::counted;
use muosleap::reports::LONGEST;
use muosleap::{Refusal, Report, Tag};
use std::collections::BTreeSet;
use std::ffi::OsString;
use std::fs::File;
use std::io::{self, Read, Write};
use std::path::{Path, PathBuf};
use std::process::ExitCode;

const USAGE: &str = "usage: report FILE";

fn main() -> ExitCode {
    let (status, wrong) = match file(std::env::args_os().skip(1)) {
        Ok(file) => match run(&file) {
            Ok(()) => return ExitCode::SUCCESS,
            Err(wrong) => (1, wrong),
        },
        Err(wrong) => (2, format!("{wrong}\n{USAGE}")),
    };
    // Where not even this can be said, the status says it.
    let _ = writeln!(io::stderr(), "report: {wrong}");
    ExitCode::from(status)
}

/// The file that the command line names, and nothing else.
fn file(mut words: impl Iterator<Item = OsString>) -> Result<PathBuf, String> {
    let file = words.next().filter(|file| !file.is_empty()).ok_or("the file's name is missing")?;
    if file.as_encoded_bytes().starts_with(b"-") {
        return Err(format!("there is no option {}", file.display()));
    }
    match words.next() {
        Some(word) => Err(format!("{} is one too many", word.display())),
        None => Ok(file.into()),
    }
}

fn run(file: &Path) -> Result<(), String> {
    let name = file.display();
    let bytes = read(file).map_err(|error| format!("cannot read {name}: {error}"))?;
    let report = Report::read(bytes).map_err(|refusal| format!("{name} is not a report, {refusal:?}: {refusal}"))?;
    let mut output = io::stdout().lock();
    let told = write!(output, "{name}: {}", table(&report)).and_then(|()| output.flush());
    told.map_err(|error| format!("{name} is a report, but its rows cannot be told: {error}"))
}

/// The bytes of a file, or of a longer one the first that are too many for a report: these are refused as the whole is.
fn read(file: &Path) -> io::Result<Vec<u8>> {
    let mut bytes = Vec::new();
    File::open(file)?.take(LONGEST as u64 + 1).read_to_end(&mut bytes)?;
    Ok(bytes)
}

/// How much it is, a line for each row, and what to do about the refusals.
fn table(report: &Report) -> String {
    let rows = report.rows();
    let read = rows.iter().filter(|row| row.is_ok()).count();
    let refusals: BTreeSet<Refusal> = rows.iter().filter_map(|row| row.err()).collect();
    let lines = rows.iter().enumerate().map(|(place, row)| line(place, row));
    let advice = refusals.iter().map(|refusal| format!("  About refusal {}: {}.\n", refusal.number(), refusal.advice()));
    format!(
        "{} in {} bytes: {} and {}.\n
   row |  tag | turn | differing | corners in print order: fourth, third, second, first (x, y)
       |      |      | modules   |
  -----|------|------|-----------|{}\n{}{}",
        counted(rows.len(), "row"),
        report.bytes().len(),
        counted(read, "tag"),
        counted(rows.len() - read, "refusal"),
        "-".repeat(86),
        lines.collect::<String>(),
        advice.collect::<String>()
    )
}

fn line(place: usize, row: &Result<Tag, Refusal>) -> String {
    match row {
        Ok(Tag { id, turn, differing, corners, .. }) => {
            let corners = corners.corners.map(|corner| format!("({:8.2}, {:8.2})", corner.x, corner.y)).join(" ");
            format!("  {place:>4} | {id:>4} | {turn:>4} | {differing:>9} | {corners}\n")
        }
        Err(refusal) => {
            format!("  {place:>4} |    - |    - |         - | refusal {}: {}\n", refusal.number(), refusal.reason())
        }
    }
}
