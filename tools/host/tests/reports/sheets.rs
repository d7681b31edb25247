//! Every accepted list reading has a report, which is read again as the same rows and corner bits. What the list reader writes into
//! its outputs is lent to the writer as it is.

use crate::lists::{Eight, below, painted, random_list, started};
use crate::numbers::Numbers;
use crate::readings::{CORNERS, Reading};
use crate::reported;
use crate::tables::{made, many, passing};
use muosleap::{FAMILIES, Family, Grid, Picture, Print, Refusal, Report, Shape, Table, c};
use std::collections::BTreeSet;

/// Reads a list with the table, or by the family's number, and holds its report. Answers the rows' numbers.
fn listed(picture: &Picture<Vec<u8>>, table: &Table, family: Option<Family>, quads: &[Eight]) -> Vec<[u64; 4]> {
    let &Picture { ref bytes, width: w, height: h, stride } = picture;
    let (mut rows, mut corners, quads) = (vec![77; 4 * quads.len()], vec![f32::NAN; 8 * quads.len()], quads.as_flattened());
    let Table { edge, border, hamming_distance: most, codes } = *table;
    let answer = match family {
        Some(family) => c::try_decode_quads_in(bytes, w, h, stride, family.number(), quads, &mut rows, &mut corners),
        None => c::try_decode_quads(bytes, w, h, stride, edge, border, most, codes, quads, &mut rows, &mut corners),
    };
    assert_eq!(answer, 0);
    let reading = Reading { rows, corners };
    reported(&reading);
    reading.rows.as_chunks().0.to_vec()
}

/// What was met in many lists: refusals, turns, differing modules.
#[derive(Default)]
struct Met([BTreeSet<u64>; 3]);

impl Met {
    fn add(&mut self, rows: &[[u64; 4]]) {
        for [refusal, _, turn, differing] in rows {
            [refusal, turn, differing].iter().zip(&mut self.0).for_each(|(number, met)| _ = met.insert(**number));
        }
    }
}

#[test]
fn random_lists() {
    let own = made(5, 3, 40);
    let private = passing(Table { edge: 5, border: 3, hamming_distance: 3, codes: &own });
    // Tables that fail the likeness check: one that has words and the same turned, and one that reads nearly everything.
    let alike = Table { edge: 4, border: 1, hamming_distance: 5, codes: &[0x231B, 0x7D01, 0x2EA5, 0x346A] };
    let tables = FAMILIES.map(|family| (family.table(), Some(family))).into_iter().chain([(private, None), (alike, None)]);
    for (table, family) in tables {
        let (mut numbers, mut met) = (Numbers(0x5851_f42d_4c95_7f2d), Met::default());
        for _ in 0..150 {
            let (picture, list) = random_list(&table, &mut numbers);
            met.add(&listed(&picture, &table, family, &list));
        }
        assert!([0, 8, 9, 10, 11, 12, 18].iter().all(|refusal| met.0[0].contains(refusal)), "{:?}", met.0);
        assert!(family.is_none() || met.0[0].contains(&13), "{:?}", met.0);
        assert_eq!(met.0[1].len(), 4);
    }
}

/// Any eight numbers as a quad, in noise, with tables that read nearly every word: ids, turns and differing modules of every kind.
#[test]
fn random_quads_in_noise() {
    let (mut numbers, mut met) = (Numbers(0x2545_f491_4f6c_dd1d), Met::default());
    let codes = many(8, 1_024);
    for round in 0..300 {
        let (width, height) = (2 + below(60, &mut numbers), 2 + below(60, &mut numbers));
        let picture = Picture::packed(numbers.bytes(width * height), width, height);
        // Dark code words are far from every word that is read as one of them.
        let dark: Vec<u64> = (0..1_024).map(|id| codes[id] & codes[(id + 1) % 1_024] & codes[(id + 7) % 1_024] & 0xff).collect();
        let codes = if round % 2 == 0 { &codes } else { &dark };
        let hamming_distance = [20, 28, 64][round % 3];
        let table = Table { edge: 8, border: 1, hamming_distance, codes: &codes[..1 + below(1_024, &mut numbers)] };
        let mut corner = |side: usize| match below(12, &mut numbers) {
            0 => f32::from_bits(CORNERS[below(CORNERS.len(), &mut numbers)]),
            1 => f32::from_bits(numbers.next() as u32),
            _ => below(64 * side, &mut numbers) as f32 / 64.0 - 0.49,
        };
        let count = [5, 60, 200][round % 3];
        let quads: Vec<Eight> =
            (0..count).map(|_| [0, 1, 2, 3, 4, 5, 6, 7].map(|k: usize| corner([width, height][k % 2]))).collect();
        met.add(&listed(&picture, &table, None, &quads));
    }
    let Met([refusals, turns, differing]) = met;
    assert!([0, 8, 9, 12, 18].iter().all(|refusal| refusals.contains(refusal)), "{refusals:?}");
    assert_eq!(turns.into_iter().collect::<Vec<_>>(), [0, 1, 2, 3]);
    assert!(differing.len() > 20, "{differing:?}");
}

#[test]
fn lists_of_1_024_quads() {
    let codes = many(8, 1_024);
    let table = passing(Table { edge: 8, border: 1, hamming_distance: 3, codes: &codes });
    let (picture, quads) = painted(&table, &codes);
    for start in 0..4 {
        let list: Vec<Eight> = quads.iter().map(|&quad| started(quad, start)).collect();
        let rows = listed(&picture, &table, None, &list);
        assert!(rows.iter().enumerate().all(|(id, row)| row[..2] == [0, id as u64]));
        assert!(listed(&picture, &table, None, &[list[start]; 1_024]).iter().all(|row| *row == [18, 0, 0, 0]));
    }
}

/// Painted sheets of every family at every turn and from every start, with misprinted modules, by the crate's own types.
#[test]
fn painted_sheets() {
    for (family, turn) in FAMILIES.into_iter().flat_map(|family| (0..4).map(move |turn| (family, turn))) {
        let table = family.table();
        let words: Vec<u64> = (0..12).map(|id| table.codes[id] ^ ((1 << (id % table.hamming_distance as usize)) - 1)).collect();
        let grid = Grid { rows: 3, columns: 4, gap: 2 };
        let Shape { width, height } = grid.shape(&table, 3);
        let (width, height) = (width + 9, height + 8);
        let mut picture = Picture::packed(vec![0; width * height], width, height);
        let print = Print { x: 3, y: 4, cell: 3, turn, light: 210, dark: 40 };
        let quads = Table { codes: &words, ..table }.paint_sheet(&mut picture, &grid, &print).unwrap();
        for start in 0..4 {
            let list: Vec<_> = quads.iter().map(|quad| quad.started(start)).collect();
            let rows = family.try_decode_quads(&picture, &list).unwrap();
            assert!(rows.iter().map(|row| row.unwrap().id).eq(0..12));
            let report = Report::write(&rows).unwrap();
            let read = Report::read(report.bytes()).unwrap();
            assert_eq!((read.rows(), &read), (&rows[..], &report));
            // 35 bytes a row, one more for a turn, one more for differing modules.
            let more = rows.iter().map(|row| (row.unwrap().turn > 0) as usize + (row.unwrap().differing > 0) as usize);
            assert_eq!(report.bytes().len(), 2 + 12 * 35 + more.sum::<usize>());
        }
    }
}

/// Corners at -0.0 and at the smallest numbers are read as they are, and stay so.
#[test]
fn corners_with_bits_that_are_easily_lost() {
    let family = Family::T16H5;
    let mut picture = Picture::packed(vec![0; 400], 20, 20);
    let print = Print { x: 1, y: 1, cell: 2, turn: 0, light: 200, dark: 20 };
    let mut quad = Eight::from(family.paint_tag(&mut picture, family.codes()[3], &print).unwrap());
    for bits in CORNERS.into_iter().filter(|bits| f32::from_bits(*bits).abs() <= 1.0) {
        (quad[0], quad[3]) = (f32::from_bits(bits), f32::from_bits(bits));
        assert_eq!(listed(&picture, &family.table(), Some(family), &[quad]), [[0, 3, 0, 0]]);
        let rows = family.try_decode_quads(&picture, &[quad.into()]).unwrap();
        let report = Report::write(&rows).unwrap().into_bytes();
        let kept = Eight::from(Report::read(report).unwrap().rows()[0].unwrap().corners).map(f32::to_bits);
        assert_eq!((kept[6], kept[5]), (bits, bits));
    }
    assert_eq!(family.try_decode_quads(&picture, &[[16_384.0; 8].into()]), Ok(vec![Err(Refusal::CornerRange)]));
}
