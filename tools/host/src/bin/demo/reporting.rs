//! The list reading of the sheet as a report.

use muosleap::{Refusal, Report, Tag};
use std::fs;
use std::path::Path;

/// Writes the list from start 0 as a report, reads the file back, and says that it is the same reading. A report holds one list, and
/// the other starts give the same ids again.
pub fn write(rows: &[Result<Tag, Refusal>], file: &Path) -> Result<(), String> {
    let (list, name): (Vec<Result<Tag, Refusal>>, _) = (rows.iter().copied().step_by(4).collect(), file.display());
    let report = Report::write(&list).map_err(|refusal| format!("the list has no report: {refusal}"))?;
    fs::write(file, report.bytes()).map_err(|error| format!("cannot write {name}: {error}"))?;
    let bytes = fs::read(file).map_err(|error| format!("cannot read {name}: {error}"))?;
    let read = Report::read(&bytes).map_err(|refusal| format!("{name} is not what was written: {refusal}"))?;
    if read != report || bits(read.rows()) != bits(&list) {
        return Err(format!("{name} is not what was written: it is another reading"));
    }
    println!("Written: {name}, the list from start 0 as a report: {} rows in {} bytes", list.len(), bytes.len());
    println!("Read back from there: the same reading, every bit of its corners included. The program `report` prints it");
    Ok(())
}

/// A row, and the bits of its corners.
type Bits = Result<(usize, u8, u8, [u32; 8]), Refusal>;

fn bits(rows: &[Result<Tag, Refusal>]) -> Vec<Bits> {
    let tag = |tag: Tag| (tag.id, tag.turn, tag.differing, <[f32; 8]>::from(tag.corners).map(f32::to_bits));
    rows.iter().map(|row| row.map(tag)).collect()
}
