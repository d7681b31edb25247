//! Reports: what a list reading said, as bytes for a file or a line, and read again.
//!
//! One reading has one report and one report one reading, each bit of its corners included. So two readings are the same where their
//! reports are the same bytes. docs/REPORTS.md has the format, and one report byte by byte.
//!
//! A report does not say which sheet, table or picture it came from, and it has no checksum: bytes that were damaged into another
//! report are not noticed.

use crate::refusal::accepted;
use crate::{Refusal, Tag, c, detector};
use std::borrow::Cow;

/// The most rows of a report.
pub const MOST_ROWS: usize = 1_024;

/// The most bytes of a row: its map, two of the id, turn, differing modules, and eight corner numbers of four.
const LONGEST_ROW: usize = 1 + 2 + 1 + 1 + 8 * 4;

/// The most bytes of a report. No longer file is one.
pub const LONGEST: usize = 2 + MOST_ROWS * LONGEST_ROW;

/// The report of a list reading: its bytes, which may be borrowed or owned, and its rows.
///
/// ```
/// use muosleap::{Family, Grid, Picture, Print, Quad, Refusal, Report};
///
/// // A sheet of two tags, read as a list with a quad that is outside the picture.
/// let family = Family::T36H11;
/// let mut picture = Picture::packed(vec![0; 60 * 30], 60, 30);
/// let print = Print { x: 2, y: 2, cell: 2, turn: 0, light: 255, dark: 0 };
/// let quads = family.paint_sheet(&mut picture, &Grid { rows: 1, columns: 2, gap: 3 }, &print)?;
/// let list = [quads[0], Quad::from([60.0; 8]), quads[1].started(1)];
/// let rows = family.try_decode_quads(&picture, &list)?;
///
/// // Tag 0 as it was begun at its first corner, a refusal, tag 1 with a turn: 35, 2 and 36 bytes.
/// let report = Report::write(&rows)?;
/// assert_eq!(report.bytes().len(), 2 + 35 + 2 + 36);
/// assert_eq!(report.bytes()[..5], [3, 0, 9, 0, 0]);
///
/// // In the van.
/// let read = Report::read(report.bytes())?;
/// assert_eq!(read.rows(), rows);
/// assert_eq!(read.rows()[1], Err(Refusal::CornerOutside));
///
/// // A report that lost its last byte.
/// assert_eq!(Report::read(&report.bytes()[..74]), Err(Refusal::BadReport));
/// # Ok::<(), Refusal>(())
/// ```
#[derive(Clone, Debug)]
pub struct Report<'a> {
    bytes: Cow<'a, [u8]>,
    rows: Vec<Result<Tag, Refusal>>,
}

impl Report<'static> {
    /// Writes the rows of a list reading, as [`Family::try_decode_quads`](crate::Family::try_decode_quads) and
    /// [`Table::try_decode_quads`](crate::Table::try_decode_quads) give them: each of these lists has a report. No row at all is a
    /// reading too.
    ///
    /// Refusals 19 for more than 1,024 rows; 20 for rows that no list reading has: two tags with the same id, a refusal other than 8 to
    /// 13 and 18, or a number of a tag that was changed to one that does not fit.
    ///
    /// ```
    /// use muosleap::{Refusal, Report};
    ///
    /// assert_eq!(Report::write(&[])?.bytes(), [0, 0]);
    /// assert_eq!(Report::write(&[Err(Refusal::NoCode)])?.bytes(), [1, 0, 16, 13]);
    /// assert_eq!(Report::write(&[Err(Refusal::BadTable)]), Err(Refusal::BadReport));
    /// assert_eq!(Report::write(&[Err(Refusal::NoCode); 1_025]), Err(Refusal::ReportLength));
    /// # Ok::<(), Refusal>(())
    /// ```
    pub fn write(rows: &[Result<Tag, Refusal>]) -> Result<Report<'static>, Refusal> {
        // More rows than a report can have are refused whatever they hold: one more than that is enough of them.
        let rows = &rows[..rows.len().min(MOST_ROWS + 1)];
        let (numbers, corners): (Vec<[u64; 4]>, Vec<[f32; 8]>) = rows.iter().map(numbers).unzip();
        let (mut bytes, mut written) = (vec![0; 2 + LONGEST_ROW * rows.len()], 0);
        accepted(c::write_report(numbers.as_flattened(), corners.as_flattened(), &mut bytes, &mut written))?;
        bytes.truncate(written);
        Ok(Report { bytes: bytes.into(), rows: rows.into() })
    }
}

impl<'a> Report<'a> {
    /// Reads a report from its bytes, all of them and no more: `&[u8]`, which stay borrowed, or `Vec<u8>`. What
    /// [`Report::write`] never writes is refused.
    ///
    /// Refusals 19 where the first two bytes say more than 1,024 rows, 20 for anything else that is no report.
    ///
    /// ```
    /// use muosleap::{Refusal, Report};
    ///
    /// assert_eq!(Report::read(vec![1, 0, 16, 13])?.rows(), [Err(Refusal::NoCode)]);
    /// assert_eq!(Report::read(&[0, 4][..]), Err(Refusal::BadReport));
    /// assert_eq!(Report::read(&[1, 4][..]), Err(Refusal::ReportLength));
    /// # Ok::<(), Refusal>(())
    /// ```
    pub fn read(bytes: impl Into<Cow<'a, [u8]>>) -> Result<Report<'a>, Refusal> {
        let bytes = bytes.into();
        // Outputs for as many rows as the first two bytes say. Where that is too many, any length will do.
        let said = bytes.first_chunk().map_or(0, |&two| u16::from_le_bytes(two) as usize).min(MOST_ROWS);
        let (mut rows, mut corners, mut count) = (vec![[0u64; 4]; said], vec![[0f32; 8]; said], 0);
        accepted(c::read_report(&bytes, rows.as_flattened_mut(), corners.as_flattened_mut(), &mut count))?;
        let rows = rows.into_iter().zip(corners).take(count).map(detector::said).collect();
        Ok(Report { bytes, rows })
    }

    /// The bytes, as they go into a file.
    pub fn bytes(&self) -> &[u8] {
        &self.bytes
    }

    /// The rows, as the list was read: for each quad its tag, or why it was refused.
    pub fn rows(&self) -> &[Result<Tag, Refusal>] {
        &self.rows
    }

    /// The same report with bytes of its own.
    pub fn into_owned(self) -> Report<'static> {
        Report { bytes: self.bytes.into_owned().into(), rows: self.rows }
    }

    /// The bytes alone, copied only where they are borrowed.
    pub fn into_bytes(self) -> Vec<u8> {
        self.bytes.into_owned()
    }
}

/// The same bytes, and so the same reading in every bit: a corner at -0.0 is not one at 0.0.
impl PartialEq<Report<'_>> for Report<'_> {
    fn eq(&self, other: &Report<'_>) -> bool {
        self.bytes == other.bytes
    }
}

impl Eq for Report<'_> {}

/// A row as numbers, and its corner numbers.
fn numbers(row: &Result<Tag, Refusal>) -> ([u64; 4], [f32; 8]) {
    match *row {
        Ok(tag) => ([0, tag.id as u64, tag.turn.into(), tag.differing.into()], tag.corners.into()),
        Err(refusal) => ([refusal.number().into(), 0, 0, 0], [0.0; 8]),
    }
}
