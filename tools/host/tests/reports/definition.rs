//! Reports by the sentences of document 02's ticket 7, a second time: a writer, and a reader that takes nothing else. Nothing of the
//! library is used here.

use std::collections::BTreeSet;
use std::ops::RangeInclusive;

/// A row: refusal, id, turn, differing modules; and the bits of its eight corner numbers.
pub type Row = ([u64; 4], [u32; 8]);

/// "more than 1,024 whole rows"
const MOST: usize = 1_024;

/// "corners that 8 lets through": no NaN, and a magnitude below 16,384, which is 0x46800000. Of floats of one sign the larger one has
/// the larger bits, and NaN the largest.
fn passes(corner: &u32) -> bool {
    corner & 0x7fff_ffff < 0x4680_0000
}

/// "refusals 8 to 13 or 18"
fn stands_in_rows(refusal: u64) -> bool {
    [8, 9, 10, 11, 12, 13, 18].contains(&refusal)
}

/// Whether a row may stand in a reading behind those that have these ids.
fn stands(([refusal, id, turn, differing], corners): &Row, ids: &mut BTreeSet<u64>) -> bool {
    if *refusal == 0 {
        *id < 1_024 && ids.insert(*id) && *turn <= 3 && *differing <= 63 && corners.iter().all(passes)
    } else {
        stands_in_rows(*refusal) && (*id, *turn, *differing, *corners) == (0, 0, 0, [0; 8])
    }
}

/// "Only fields whose bit is set follow, in that order: id two bytes low first, the others one byte, corners as eight f32 of four bytes low
/// first. Turn and differing modules are left out when 0."
fn put(([refusal, id, turn, differing], corners): &Row, report: &mut Vec<u8>) {
    if *refusal != 0 {
        report.extend([16, *refusal as u8]);
        return;
    }
    report.push(1 + if *turn > 0 { 2 } else { 0 } + if *differing > 0 { 4 } else { 0 } + 8);
    report.extend([(id % 256) as u8, (id / 256) as u8]);
    report.extend([*turn, *differing].iter().filter(|field| **field > 0).map(|field| *field as u8));
    report.extend(corners.iter().flat_map(|corner| [0, 8, 16, 24].map(|bits| (corner >> bits) as u8)));
}

/// The report of rows and their corner numbers, for an output of so many bytes; or the refusal.
pub fn write(rows: &[u64], corners: &[f32], room: usize) -> Result<Vec<u8>, u32> {
    let count = rows.len() / 4;
    if count > MOST {
        return Err(19);
    }
    if rows.len() != 4 * count || corners.len() != 8 * count {
        return Err(20);
    }
    // "First come two bytes with the number of rows, low byte first."
    let (mut report, mut ids) = (vec![(count % 256) as u8, (count / 256) as u8], BTreeSet::new());
    for (row, corners) in rows.as_chunks().0.iter().zip(corners.as_chunks().0) {
        let row = (*row, corners.map(f32::to_bits));
        if !stands(&row, &mut ids) {
            return Err(20);
        }
        put(&row, &mut report);
    }
    if report.len() > room { Err(19) } else { Ok(report) }
}

/// The next bytes, where there are so many.
fn next<const N: usize>(bytes: &mut &[u8]) -> Option<[u8; N]> {
    let (next, rest) = bytes.split_first_chunk()?;
    *bytes = rest;
    Some(*next)
}

/// A field of one byte where its bit is set: then it is not 0.
fn field(bytes: &mut &[u8], is_set: bool, taken: RangeInclusive<u8>) -> Option<u64> {
    if !is_set {
        return Some(0);
    }
    let [field] = next(bytes)?;
    taken.contains(&field).then_some(field.into())
}

/// The next row. "So the maps are 9, 11, 13, 15 and 16."
fn row(bytes: &mut &[u8], ids: &mut BTreeSet<u64>) -> Option<Row> {
    let [map] = next(bytes)?;
    let row = match map {
        16 => {
            let [refusal] = next(bytes)?;
            ([refusal.into(), 0, 0, 0], [0; 8])
        }
        9 | 11 | 13 | 15 => {
            let [low, high] = next(bytes)?;
            let turn = field(bytes, map == 11 || map == 15, 1..=3)?;
            let differing = field(bytes, map >= 13, 1..=63)?;
            let mut corners = [0; 8];
            for corner in &mut corners {
                let [a, b, c, d] = next(bytes)?.map(u32::from);
                *corner = a + 256 * (b + 256 * (c + 256 * d));
            }
            ([0, low as u64 + 256 * high as u64, turn, differing], corners)
        }
        _ => return None,
    };
    (row.0[0] != 0 || map != 16).then_some(row).filter(|row| stands(row, ids))
}

/// The rows of a report, for outputs of so many numbers and corner numbers; or the refusal.
pub fn read(report: &[u8], [rows_room, corners_room]: [usize; 2]) -> Result<Vec<Row>, u32> {
    let [low, high, bytes @ ..] = report else { return Err(20) };
    let count = *low as usize + 256 * *high as usize;
    if count > MOST {
        return Err(19);
    }
    let (mut bytes, mut ids) = (bytes, BTreeSet::new());
    let rows: Vec<Row> = (0..count).map(|_| row(&mut bytes, &mut ids)).collect::<Option<_>>().ok_or(20u32)?;
    if !bytes.is_empty() {
        return Err(20);
    }
    if rows_room < 4 * count || corners_room < 8 * count { Err(19) } else { Ok(rows) }
}
