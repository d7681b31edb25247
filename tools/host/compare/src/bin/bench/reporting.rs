//! Reports: the writer and the reader against plain Rust, which makes the same tests and leaves the same bytes and numbers.

use crate::measure::{Times, both, timed};
use muosleap::{Family, Shape, c};
use muosleap_compare::{Numbers, SEED, pictures};
use std::hint::black_box;
use std::mem::replace;

/// The numbers of a reading.
struct Reading {
    rows: Vec<u64>,
    corners: Vec<f32>,
}

impl Reading {
    /// 1,024 tags in a mixed order, each with a turn and differing modules: the longest report.
    fn longest(numbers: &mut Numbers) -> Reading {
        let mut rows: Vec<[u64; 4]> = (0..1_024).map(|id| [0, id, 1 + id % 3, 1 + id % 63]).collect();
        (0..1_024).for_each(|place| rows.swap(place, numbers.below(1_024)));
        Reading { rows: rows.concat(), corners: (0..8 * 1_024).map(|_| numbers.below(65_536) as f32 / 16.0).collect() }
    }

    /// The same with a quarter of the rows refused, and of the others half without a turn and half without differing modules.
    fn mixed(numbers: &mut Numbers) -> Reading {
        let mut reading = Reading::longest(numbers);
        for (row, corners) in reading.rows.as_chunks_mut::<4>().0.iter_mut().zip(reading.corners.chunks_mut(8)) {
            row[2..].iter_mut().for_each(|field| *field *= numbers.below(2) as u64);
            if numbers.below(4) == 0 {
                *row = [8 + numbers.below(6) as u64, 0, 0, 0];
                corners.fill(0.0);
            }
        }
        reading
    }

    /// What a list of a sheet's 144 tags is read as.
    fn sheet(numbers: &mut Numbers) -> Reading {
        let (picture, quads) = pictures::sheet(Shape { width: 1920, height: 1080 }, 6, numbers);
        let quads: Vec<f32> = quads[..144].iter().flat_map(|&quad| <[f32; 8]>::from(quad)).collect();
        let (mut rows, mut corners) = (vec![1; 4 * 144], vec![1.0; 8 * 144]);
        let (bytes, number) = (&picture.bytes, Family::T36H11.number());
        assert_eq!(c::try_decode_quads_in(bytes, 1920, 1080, 1920, number, &quads, &mut rows, &mut corners), 0);
        assert!(rows.as_chunks().0.iter().enumerate().all(|(id, row)| *row == [0, id as u64, 0, 0]));
        Reading { rows, corners }
    }
}

fn passes(corner: &f32) -> bool {
    corner.abs() < 16_384.0
}

/// The number of bytes of a row behind rows that have these ids, where it may stand there.
fn size([refusal, id, turn, differing]: [u64; 4], corners: &[f32; 8], met: &mut [bool; 1_024]) -> Option<usize> {
    match refusal {
        0 if id < 1_024 && turn <= 3 && differing <= 63 && corners.iter().all(passes) => {
            let is_new = !replace(&mut met[id as usize], true);
            is_new.then_some(35 + (turn > 0) as usize + (differing > 0) as usize)
        }
        8..=13 | 18 if id | turn | differing == 0 && corners.iter().all(|corner| corner.to_bits() == 0) => Some(2),
        _ => None,
    }
}

/// Writes a report in plain Rust.
fn write(rows: &[u64], corners: &[f32], report: &mut [u8], written: &mut usize) -> u32 {
    let count = rows.len() / 4;
    if count > 1_024 {
        return 19;
    }
    if rows.len() != 4 * count || corners.len() != 8 * count {
        return 20;
    }
    let rows = || rows.as_chunks::<4>().0.iter().zip(corners.as_chunks::<8>().0);
    let mut met = [false; 1_024];
    let Some(length) = rows().map(|(row, corners)| size(*row, corners, &mut met)).sum::<Option<usize>>() else { return 20 };
    if report.len() < 2 + length {
        return 19;
    }
    report[..2].copy_from_slice(&(count as u16).to_le_bytes());
    let mut rest = &mut report[2..];
    let mut put = |bytes: &[u8]| {
        let (front, behind) = std::mem::take(&mut rest).split_at_mut(bytes.len());
        front.copy_from_slice(bytes);
        rest = behind;
    };
    for (&[refusal, id, turn, differing], corners) in rows() {
        if refusal > 0 {
            put(&[16, refusal as u8]);
            continue;
        }
        put(&[9 + 2 * (turn > 0) as u8 + 4 * (differing > 0) as u8, id as u8, (id >> 8) as u8]);
        [turn, differing].iter().filter(|field| **field > 0).for_each(|field| put(&[*field as u8]));
        corners.iter().for_each(|corner| put(&corner.to_le_bytes()));
    }
    *written = 2 + length;
    0
}

/// The first row of some bytes, and how many of them it is.
fn row(bytes: &[u8]) -> Option<([u64; 4], [f32; 8], usize)> {
    let map = *bytes.first()?;
    if map == 16 {
        let refusal = *bytes.get(1).filter(|refusal| **refusal > 0)?;
        return Some(([refusal.into(), 0, 0, 0], [0.0; 8], 2));
    }
    if ![9, 11, 13, 15].contains(&map) {
        return None;
    }
    let (turned, differs) = ((map >> 1 & 1) as usize, (map >> 2 & 1) as usize);
    let (fields, behind) = bytes.split_at_checked(3 + turned + differs)?;
    let turn = if turned == 1 { fields[3] } else { 0 };
    let differing = if differs == 1 { fields[3 + turned] } else { 0 };
    if turned == 1 && turn == 0 || differs == 1 && differing == 0 {
        return None;
    }
    let corners = behind.first_chunk::<32>()?.as_chunks().0;
    let corners = [0, 1, 2, 3, 4, 5, 6, 7].map(|k| f32::from_le_bytes(corners[k]));
    let id = u16::from_le_bytes([fields[1], fields[2]]);
    Some(([0, id.into(), turn.into(), differing.into()], corners, fields.len() + 32))
}

/// Reads a report in plain Rust.
fn read(report: &[u8], rows: &mut [u64], corners: &mut [f32], count: &mut usize) -> u32 {
    let Some((two, bytes)) = report.split_first_chunk() else { return 20 };
    let said = u16::from_le_bytes(*two) as usize;
    if said > 1_024 {
        return 19;
    }
    let (mut met, mut rest) = ([false; 1_024], bytes);
    for _ in 0..said {
        match row(rest) {
            Some((numbers, corners, length)) if size(numbers, &corners, &mut met).is_some() => rest = &rest[length..],
            _ => return 20,
        }
    }
    if !rest.is_empty() {
        return 20;
    }
    if rows.len() < 4 * said || corners.len() < 8 * said {
        return 19;
    }
    rest = bytes;
    for (to, corners_to) in rows.as_chunks_mut().0.iter_mut().zip(corners.as_chunks_mut().0).take(said) {
        let Some((numbers, corners, length)) = row(rest) else { return 20 };
        (*to, *corners_to, rest) = (numbers, corners, &rest[length..]);
    }
    *count = said;
    0
}

/// Both sides over one reading: the writer, and the reader of what it wrote.
fn measured(name: &str, Reading { rows, corners }: &Reading) -> [(String, Times); 2] {
    let (mut plain, mut ours, [mut length, mut written]) = (vec![1; 37_890], vec![1; 37_890], [0; 2]);
    assert_eq!(write(rows, corners, &mut plain, &mut length), 0);
    assert_eq!(c::write_report(rows, corners, &mut ours, &mut written), 0);
    assert!(plain == ours && length == written);
    let report = ours[..written].to_vec();
    let outputs = || (vec![1; rows.len()], vec![1.0; corners.len()], 0);
    let [mut left, mut right] = [outputs(), outputs()];
    assert_eq!(read(&report, &mut left.0, &mut left.1, &mut left.2), 0);
    assert_eq!(c::read_report(&report, &mut right.0, &mut right.1, &mut right.2), 0);
    assert!(left == right && (&left.0, &left.1) == (rows, corners));
    let writing = both(
        1,
        || timed(|| write(black_box(rows), black_box(corners), &mut plain, &mut length)),
        || timed(|| c::write_report(black_box(rows), black_box(corners), &mut ours, &mut written)),
    );
    let reading = both(
        1,
        || timed(|| read(black_box(&report), &mut left.0, &mut left.1, &mut left.2)),
        || timed(|| c::read_report(black_box(&report), &mut right.0, &mut right.1, &mut right.2)),
    );
    [(format!("`write_report`, {name}"), writing), (format!("`read_report`, {name}"), reading)]
}

/// Reports of three readings, written and read.
pub fn reports() -> Vec<(String, Times)> {
    let mut numbers = Numbers::from(SEED + 6_500);
    let readings = [
        ("1,024 tags, the longest report", Reading::longest(&mut numbers)),
        ("1,024 rows of all kinds", Reading::mixed(&mut numbers)),
        ("a sheet's 144 tags", Reading::sheet(&mut numbers)),
    ];
    readings.iter().flat_map(|(name, reading)| measured(name, reading)).collect()
}
