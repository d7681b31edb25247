//! The library's writer and reader, held to the definition. Each output lies between other numbers, which have to stay as they were, and so
//! has what lies beyond the answer in it, and after a refusal all of it: NaN payloads included.

use crate::definition::{self, Row};
use crate::numbers::Numbers;
use crate::readings::Reading;
use muosleap::c;
use std::fmt::Debug;
use std::ops::Range;

/// The numbers before and behind an output.
const AROUND: usize = 5;

/// An output in the midst of other numbers.
struct Output<T> {
    numbers: Vec<T>,
    before: Vec<T>,
}

impl<T: Clone + PartialEq + Debug> Output<T> {
    fn new(room: usize, number: impl FnMut() -> T) -> Output<T> {
        let numbers: Vec<T> = std::iter::repeat_with(number).take(room + 2 * AROUND).collect();
        Output { before: numbers.clone(), numbers }
    }

    fn place(&self) -> Range<usize> {
        AROUND..self.numbers.len() - AROUND
    }

    /// What was written, which is so many numbers: all others are as they were.
    fn written(&self, count: usize) -> &[T] {
        let (start, end) = (AROUND, AROUND + count);
        assert!(end <= self.place().end, "{count} numbers are too many for the output");
        assert_eq!(self.numbers[..start], self.before[..start], "a number before the output changed");
        assert_eq!(self.numbers[end..], self.before[end..], "a number behind the answer changed");
        &self.numbers[start..end]
    }
}

/// The bytes that the library writes into an output of so many.
fn write(Reading { rows, corners }: &Reading, room: usize) -> Result<Vec<u8>, u32> {
    let mut numbers = Numbers(0x9e37_79b9 + room as u64);
    let (mut output, mut written) = (Output::new(room, || (numbers.next() >> 32) as u8), usize::MAX - 6);
    let place = output.place();
    match c::write_report(rows, corners, &mut output.numbers[place], &mut written) {
        0 => Ok(output.written(written).to_vec()),
        refusal => {
            assert_eq!((output.written(0).len(), written), (0, usize::MAX - 6));
            Err(refusal)
        }
    }
}

/// The rows that the library reads into outputs of so many numbers and corner numbers.
fn read(report: &[u8], [rows_room, corners_room]: [usize; 2]) -> Result<Vec<Row>, u32> {
    let mut numbers = Numbers(0x2545_f491 + rows_room as u64);
    let mut rows = Output::new(rows_room, || numbers.next());
    // NaN with a payload in half of the places, quiet and signalling. Their bits are what is compared.
    let bits = Output::new(corners_room, || numbers.next() as u32 | [0, 0x7f80_0001][(numbers.next() >> 40) as usize % 2]);
    let mut corners: Vec<f32> = bits.numbers.iter().map(|&bits| f32::from_bits(bits)).collect();
    let (place, corners_place, mut count) = (rows.place(), bits.place(), usize::MAX - 6);
    let answer = c::read_report(report, &mut rows.numbers[place], &mut corners[corners_place], &mut count);
    let corners = Output { numbers: corners.into_iter().map(f32::to_bits).collect(), ..bits };
    if answer != 0 {
        assert_eq!((rows.written(0).len(), corners.written(0).len(), count), (0, 0, usize::MAX - 6));
        return Err(answer);
    }
    let (rows, corners) = (rows.written(4 * count).as_chunks().0, corners.written(8 * count).as_chunks().0);
    Ok(rows.iter().copied().zip(corners.iter().copied()).collect())
}

/// What both say about a call of the writer. What is written has to be read again as the same rows, bit for bit.
pub fn written(reading: &Reading, room: usize) -> Result<Vec<u8>, u32> {
    let ours = write(reading, room);
    assert_eq!(ours, definition::write(&reading.rows, &reading.corners, room));
    if let Ok(report) = &ours {
        let (rows, corners) = (reading.rows.len(), reading.corners.len());
        let said = Ok(reading.said());
        assert!(read(report, [rows, corners]) == said && read(report, [rows + 3, corners + 9]) == said);
    }
    ours
}

/// What both say about a call of the reader. What is read has to be written again as the same bytes.
pub fn reread(report: &[u8], rooms: [usize; 2]) -> Result<Vec<Row>, u32> {
    let ours = read(report, rooms);
    assert_eq!(ours, definition::read(report, rooms), "{report:02x?}");
    if let Ok(rows) = &ours {
        let reading = Reading::from(&rows[..]);
        let same = Ok(report.to_vec());
        assert!(write(&reading, report.len()) == same && write(&reading, report.len() + 4) == same);
    }
    ours
}

/// Outputs that are long enough for every report.
pub const ENOUGH: [usize; 2] = [4 * 1_024, 8 * 1_024];

/// Outputs that are long enough for these bytes, if they are a report: a row has two bytes at least.
pub fn enough(report: &[u8]) -> [usize; 2] {
    [4, 8].map(|each| each * (report.len() / 2).min(1_024))
}
