//! Damaged reports: what the definition refuses the library refuses, with the same number, and what is still a report it reads.

use crate::calls::{ENOUGH, enough, reread};
use crate::definition::Row;
use crate::lists::below;
use crate::numbers::Numbers;
use crate::readings::Reading;
use crate::{EIGHT, report_of};

/// A report of each kind of row, alone and beside others.
fn small() -> Vec<Vec<u8>> {
    let tag = |id: u64, turn: u64, differing: u64| ([0, id, turn, differing], EIGHT);
    let refused = |number: u64| ([number, 0, 0, 0], [0; 8]);
    let readings: [&[Row]; 12] = [
        &[],
        &[tag(5, 0, 0)],
        &[tag(1_023, 2, 0)],
        &[tag(256, 0, 63)],
        &[tag(0, 3, 1)],
        &[refused(8)],
        &[refused(18), refused(18)],
        &[tag(0, 0, 0), tag(1, 0, 0)],
        &[tag(257, 1, 0), tag(1, 1, 0), refused(13)],
        &[refused(12), tag(9, 0, 2), tag(265, 1, 2)],
        &[tag(9, 0, 0), refused(9), tag(11, 0, 11), tag(16, 1, 9)],
        &[refused(8), refused(9), refused(10), refused(11), refused(12), refused(13), refused(18)],
    ];
    readings.map(report_of).into()
}

/// How many were refused with 19, refused with 20, and read.
#[derive(Default)]
struct Tally([usize; 3]);

impl Tally {
    fn try_to_read(&mut self, report: &[u8]) {
        let answer = reread(report, enough(report));
        self.0[match answer {
            Err(19) => 0,
            Err(20) => 1,
            Err(other) => panic!("refusal {other}"),
            Ok(_) => 2,
        }] += 1;
    }

    fn has(&self, at_least: [usize; 3]) {
        assert!(self.0.iter().zip(at_least).all(|(met, least)| *met >= least), "{:?}, expected {at_least:?}", self.0);
    }
}

#[test]
fn each_byte_to_each_value() {
    let mut tally = Tally::default();
    for report in small() {
        for (place, byte) in (0..report.len()).flat_map(|place| (0..=255).map(move |byte| (place, byte))) {
            let mut damaged = report.clone();
            damaged[place] = byte;
            tally.try_to_read(&damaged);
        }
    }
    tally.has([2_000, 10_000, 10_000]);
}

/// The first two bytes, and the bytes of the first row's map, id, turn and differing modules, two at a time.
#[test]
fn two_bytes_to_each_value() {
    let mut tally = Tally::default();
    for report in small() {
        for (place, other) in (0..report.len().min(7)).flat_map(|other| (0..other).map(move |place| (place, other))) {
            // All values of one byte, and of the other those near to something.
            for byte in 0..=255 {
                for near in [0, 1, 2, 3, 4, 7, 8, 9, 11, 13, 15, 16, 18, 63, 64, 128, 255] {
                    let mut damaged = report.clone();
                    (damaged[place], damaged[other]) = (byte, near);
                    tally.try_to_read(&damaged);
                    (damaged[place], damaged[other]) = (near, byte);
                    tally.try_to_read(&damaged);
                }
            }
        }
    }
    tally.has([100_000, 100_000, 2_000]);
}

#[test]
fn cuts_and_additions() {
    let mut tally = Tally::default();
    for report in small() {
        for place in 0..=report.len() {
            // Cut behind, cut in front, a byte taken out, a byte twice.
            tally.try_to_read(&report[..place]);
            tally.try_to_read(&report[place..]);
            tally.try_to_read(&[&report[..place], &report[(place + 1).min(report.len())..]].concat());
            tally.try_to_read(&[&report[..place], &report[place.saturating_sub(1)..]].concat());
            for byte in 0..=255 {
                tally.try_to_read(&[&report[..place], &[byte], &report[place..]].concat());
            }
        }
        // Bytes behind it: any of them are spare.
        for byte in 0..=255 {
            assert_eq!(reread(&[&report[..], &[byte]].concat(), ENOUGH), Err(20));
        }
        for other in small() {
            assert_eq!(reread(&[&report[..], &other].concat(), ENOUGH), Err(20));
            assert_eq!(reread(&[&report[..], &other[2..]].concat(), ENOUGH).is_ok(), other.len() == 2);
        }
    }
    tally.has([2_000, 30_000, 20]);
}

/// The rows of two reports in one, which is one where no id repeats.
#[test]
fn reports_put_together() {
    let mut joined = [0, 0];
    for (one, other) in small().iter().flat_map(|one| small().into_iter().map(move |other| (one.clone(), other))) {
        let both = [&[one[0] + other[0], 0], &one[2..], &other[2..]].concat();
        joined[reread(&both, ENOUGH).is_ok() as usize] += 1;
    }
    assert!(joined.iter().all(|count| *count > 10), "{joined:?}");
}

fn damage(report: &mut Vec<u8>, numbers: &mut Numbers) {
    let place = below(report.len(), numbers);
    let value = [9, 11, 13, 15, 16, 0, below(64, numbers) as u8, (numbers.next() >> 32) as u8][below(8, numbers)];
    match below(8, numbers) {
        0 => report[place] = value,
        1 => report[place] ^= 1 << below(8, numbers),
        2 => report.truncate(place + 1),
        3 => report.push(value),
        4 => report.insert(place, value),
        5 => _ = report.remove(place),
        6 => report.rotate_left(place),
        _ => {
            let from = below(report.len(), numbers);
            let count = below(80, numbers).min(report.len() - from.max(place));
            report.copy_within(from..from + count, place);
        }
    }
}

#[test]
fn large_reports_damaged_at_random() {
    let (mut numbers, mut tally) = (Numbers(0x1234_5678_9abc_def1), Tally::default());
    for round in 0..400 {
        let count = [1_024, 1_023, 300, 144, 36, 5][round % 6];
        let reading = Reading::random(count, &mut numbers);
        let report = report_of(&reading.said());
        for _ in 0..20 {
            let mut damaged = report.clone();
            for _ in 0..1 + below(3, &mut numbers) {
                damage(&mut damaged, &mut numbers);
                if damaged.is_empty() {
                    break;
                }
            }
            tally.try_to_read(&damaged);
        }
    }
    tally.has([500, 3_000, 500]);
}

/// Bytes that nobody wrote, with numbers of rows that are not refused by themselves.
#[test]
fn random_bytes() {
    let (mut numbers, mut tally) = (Numbers(0xfeed_beef_1234_5677), Tally::default());
    for _ in 0..200_000 {
        let length = below(90, &mut numbers);
        let mut bytes = numbers.bytes(length);
        for byte in &mut bytes {
            *byte = [*byte, [9, 11, 13, 15, 16][below(5, &mut numbers)], 0, 8 + *byte % 11][below(4, &mut numbers)];
        }
        if length > 1 {
            (bytes[0], bytes[1]) = (below(4, &mut numbers) as u8, 0);
        }
        tally.try_to_read(&bytes);
    }
    tally.has([0, 100_000, 100]);
}
