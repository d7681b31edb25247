//! Reports: the library's writer and reader held to the definition of document 02's ticket 7, which stands here a second time, on readings
//! of every kind, on damaged reports, and on every list reading that was tried.

mod calls;
mod damaged;
mod definition;
#[path = "../lists/mod.rs"]
mod lists;
#[path = "../numbers/mod.rs"]
mod numbers;
mod page;
mod readings;
mod refused;
mod sheets;
#[path = "../sheets/tables.rs"]
mod tables;
mod wrapper;

use calls::{ENOUGH, enough, reread, written};
use definition::Row;
use lists::below;
use numbers::Numbers;
use readings::{CORNERS, Reading, any_corner};

/// The report of a reading that has one, written into outputs of several lengths, and read again.
fn reported(reading: &Reading) -> Vec<u8> {
    let report = written(reading, 2 + 37 * 1_024).expect("a reading has a report");
    assert_eq!(written(reading, report.len()).as_ref(), Ok(&report));
    assert_eq!(written(reading, report.len() + 1).as_ref(), Ok(&report));
    assert_eq!(written(reading, report.len() - 1), Err(19));
    assert_eq!(reread(&report, ENOUGH), Ok(reading.said()));
    report
}

/// The report of these rows.
fn report_of(rows: &[Row]) -> Vec<u8> {
    reported(&Reading::from(rows))
}

/// Eight corner numbers, all different.
const EIGHT: [u32; 8] = [0x42c8_0000, 0x4314_0000, 0x4314_0001, 0x4314_0002, 0x4315_0000, 0x42c9_0000, 0xbf00_0000, 0x8000_0000];

#[test]
fn random_readings() {
    let mut numbers = Numbers(0x5851_f42d_4c95_7f2d);
    let mut maps = [0; 17];
    for round in 0..4_000 {
        let count = if round % 50 == 0 { below(1_025, &mut numbers) } else { below(40, &mut numbers) };
        let reading = Reading::random(count, &mut numbers);
        let report = reported(&reading);
        assert_eq!(report[..2], [(count % 256) as u8, (count / 256) as u8]);
        for [refusal, _, turn, differing] in reading.rows.as_chunks().0 {
            maps[if *refusal > 0 { 16 } else { 9 + 2 * (*turn > 0) as usize + 4 * (*differing > 0) as usize }] += 1;
        }
    }
    assert!([9, 11, 13, 15, 16].iter().all(|&map| maps[map] > 10_000), "{maps:?}");
}

#[test]
fn every_id_turn_number_of_modules_and_refusal() {
    let corners = EIGHT.map(u32::to_le_bytes).concat();
    for id in 0..1_024u16 {
        let report = report_of(&[([0, id.into(), 0, 0], EIGHT)]);
        assert_eq!(report, [&[1, 0, 9][..], &id.to_le_bytes(), &corners].concat());
    }
    for (turn, differing) in (0..4).flat_map(|turn| (0..64).map(move |differing| (turn, differing))) {
        let report = report_of(&[([0, 300, turn.into(), differing.into()], EIGHT)]);
        let fields = match (turn, differing) {
            (0, 0) => vec![9, 44, 1],
            (_, 0) => vec![11, 44, 1, turn],
            (0, _) => vec![13, 44, 1, differing],
            _ => vec![15, 44, 1, turn, differing],
        };
        assert_eq!(report, [&[1, 0], &fields[..], &corners].concat());
    }
    for refusal in [8, 9, 10, 11, 12, 13, 18] {
        assert_eq!(report_of(&[([refusal, 0, 0, 0], [0; 8])]), [1, 0, 16, refusal as u8]);
    }
}

#[test]
fn every_bit_of_a_corner_is_kept() {
    let mut numbers = Numbers(7_000);
    for (place, corner) in (0..8).flat_map(|place| CORNERS.map(|corner| (place, corner))) {
        for map in 0..4 {
            let mut corners = EIGHT;
            corners[place] = corner;
            let report = report_of(&[([0, 5, map & 1, map & 2], corners)]);
            let start = report.len() - 32 + 4 * place;
            assert_eq!(report[start..start + 4], corner.to_le_bytes());
        }
    }
    for _ in 0..20_000 {
        let corners = [0; 8].map(|_: u32| any_corner(&mut numbers));
        report_of(&[([0, 1_023, 0, 0], corners)]);
    }
}

#[test]
fn from_no_row_to_1_024() {
    let mut numbers = Numbers(7_100);
    assert_eq!(report_of(&[]), [0, 0]);
    for count in [1, 2, 3, 7, 8, 255, 256, 257, 511, 512, 513, 1_000, 1_023, 1_024] {
        let tags: Vec<Row> = (0..count).map(|id| ([0, id as u64, 3, 63], EIGHT)).collect();
        assert_eq!(report_of(&tags).len(), 2 + 37 * count);
        let backward: Vec<Row> = (0..count).map(|id| ([0, 1_023 - id as u64, 0, 0], EIGHT)).collect();
        assert_eq!(report_of(&backward).len(), 2 + 35 * count);
        let refused = vec![([18, 0, 0, 0], [0; 8]); count];
        assert_eq!(report_of(&refused).len(), 2 + 2 * count);
        reported(&Reading::random(count, &mut numbers));
    }
}

/// More whole rows than 1,024 are 19, whatever they hold and however many corner numbers there are; so is such a number in a report.
#[test]
fn more_than_1_024_rows() {
    let tags: Vec<Row> = (0..1_024).map(|id| ([0, id, 0, 0], EIGHT)).collect();
    let good = Reading::from(&tags[..]);
    for (row, more) in [[18, 0, 0, 0], [0, 0, 0, 0], [7, 7, 7, 7]].into_iter().flat_map(|row| (0..9).map(move |more| (row, more)))
    {
        let mut reading = good.clone();
        reading.rows.extend(row.iter().cycle().take(more));
        for corners in [8_192, 8_193, 8_192 + 2 * more, 8_192 + 8 * (more / 4), 0] {
            reading.corners.resize(corners, 0.0);
            let refusal = if more >= 4 { 19 } else { 20 };
            let expected = if more == 0 && corners == 8_192 { 0 } else { refusal };
            for room in [0, 2, 37_890] {
                let expected = if expected == 0 && room < 35_842 { 19 } else { expected };
                assert_eq!(written(&reading, room).err().unwrap_or(0), expected);
            }
        }
    }
    let rest = reported(&good)[2..].to_vec();
    for count in 1_025..=u16::MAX {
        let mut report = count.to_le_bytes().to_vec();
        assert_eq!(reread(&report, [0, 0]), Err(19));
        if count % 997 == 0 || count < 1_030 {
            report.extend(&rest);
            assert_eq!(reread(&report, ENOUGH), Err(19));
            report.resize(2 + 2 * count as usize, 16);
            assert_eq!(reread(&report, enough(&report)), Err(19));
        }
    }
}
