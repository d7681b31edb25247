//! The sheet printer: paints a sheet of tags, reads every tag of it, and writes it as a file that is ready for printing.

#[path = "../shared/counted.rs"]
mod counted;
#[path = "../shared/number.rs"]
mod number;
mod options;
mod report;

use counted::counted;
use muosleap::files::{pgm, png};
use muosleap::{Picture, Quad, Refusal, Shape, Table, Tag};
use options::{Format, Options, Tags, USAGE};
use report::report;
use std::fs::{self, File};
use std::io::{self, Write};
use std::path::Path;
use std::process::{self, ExitCode};

/// The most pixels along a side of a picture.
const LONGEST: usize = 4_096;

fn main() -> ExitCode {
    let (status, wrong) = match Options::read(std::env::args_os().skip(1)) {
        Ok(options) => match run(&options) {
            Ok(()) => return ExitCode::SUCCESS,
            Err(wrong) => (1, wrong),
        },
        Err(wrong) => (2, format!("{wrong}\n{USAGE}")),
    };
    // Where not even this can be said, the status says it.
    let _ = writeln!(io::stderr(), "sheet: {wrong}");
    ExitCode::from(status)
}

fn run(options: &Options) -> Result<(), String> {
    let codes = codes(&options.tags)?;
    let table = match options.tags {
        Tags::Family(family) => family.table(),
        Tags::List { edge, border, hamming_distance, .. } => Table { edge, border, hamming_distance, codes: &codes },
    };
    table.check_likeness().map_err(|refusal| format!("these codes make no sheet: {refusal}"))?;
    let (picture, quads) = paint(&table, options)?;
    check(&table, &picture, &quads)?;
    let bytes = match options.format {
        Format::Pgm => pgm(picture.width, picture.height, &picture.bytes),
        Format::Png => png(picture.width, picture.height, picture.bytes.as_chunks::<1>().0, Some(options.dpi)),
    };
    let file = options.file.display();
    write(&options.file, &bytes).map_err(|error| format!("cannot write {file}: {error}"))?;
    let mut output = io::stdout().lock();
    let told = write!(output, "{}", report(&table, options, picture.shape())).and_then(|()| output.flush());
    told.map_err(|error| format!("{file} is written, but what it holds cannot be told: {error}"))
}

/// The codes of a list's file, one on each line that is not empty. A family has its own.
fn codes(tags: &Tags) -> Result<Vec<u64>, String> {
    let Tags::List { codes: file, .. } = tags else { return Ok(Vec::new()) };
    let text = fs::read_to_string(file).map_err(|error| format!("cannot read {}: {error}", file.display()))?;
    let lines = text.lines().enumerate().filter(|(_, line)| !line.trim().is_empty());
    lines.map(|(place, line)| code(line.trim()).ok_or_else(|| no_code(file, place, line))).collect()
}

fn code(line: &str) -> Option<u64> {
    let digits = line.strip_prefix("0x").unwrap_or(line);
    let hexadecimal = digits.len() <= 16 && digits.bytes().all(|digit| digit.is_ascii_hexdigit());
    u64::from_str_radix(digits, 16).ok().filter(|_| hexadecimal)
}

fn no_code(file: &Path, place: usize, line: &str) -> String {
    format!("{}, line {}: a code is a hexadecimal number of up to 16 digits, not {}", file.display(), place + 1, line.trim())
}

/// The sheet with its margin, and the tags' quads.
fn paint(table: &Table, options: &Options) -> Result<(Picture<Vec<u8>>, Vec<Quad>), String> {
    let Options { grid, print, .. } = options;
    let Shape { width, height } = grid.shape(table, print.cell);
    let (width, height) = (width + 2 * print.x, height + 2 * print.y);
    let pixels = format!("{width} x {height} pixels, margin included");
    if width.max(height) > LONGEST {
        return Err(format!("a picture has at most {LONGEST} pixels a side, and this one would have {pixels}"));
    }
    let mut picture = Picture::packed(vec![0; width * height], width, height);
    let painted = table.paint_sheet(&mut picture, grid, print);
    let (tags, codes) = (counted(grid.tags(), "tag"), counted(table.codes.len(), "code"));
    let quads = painted.map_err(|refusal| format!("cannot paint {tags} of {codes} on {pixels}: {refusal}"))?;
    Ok((picture, quads))
}

/// Reads every tag from all four starts: each has to be read under its own number, with no module that differs.
fn check(table: &Table, picture: &Picture<Vec<u8>>, quads: &[Quad]) -> Result<(), String> {
    for start in 0..4 {
        let list: Vec<Quad> = quads.iter().map(|quad| quad.started(start)).collect();
        let rows = table.try_decode_quads(picture, &list).map_err(|refusal| format!("the sheet is not read: {refusal}"))?;
        let own = |(id, row): &(usize, &Result<Tag, Refusal>)| row.is_ok_and(|tag| tag.id == *id && tag.differing == 0);
        if let Some((id, row)) = rows.iter().enumerate().find(|row| !own(row)) {
            return Err(format!("tag {id} of the sheet, from start {start}, is not read as such: {row:?}"));
        }
    }
    Ok(())
}

/// Writes a file under another name beside its place, and only when it is whole gives it its own name. Where this fails, a file that
/// had this name before has not changed.
fn write(file: &Path, bytes: &[u8]) -> io::Result<()> {
    let beside = file.with_file_name(format!("sheet-{}.part", process::id()));
    let mut part = File::create_new(&beside)?;
    let written = part.write_all(bytes).and_then(|()| part.sync_all()).and_then(|()| fs::rename(&beside, file));
    written.inspect_err(|_| {
        let _ = fs::remove_file(&beside);
    })
}
