//! Levels to bits.

use crate::tally::{Job, Tally, parts};
use muosleap::detector::bit_code;
use muosleap_compare::{Numbers, SEED};
use oracle::levels::read;

pub fn jobs() -> Vec<Job> {
    [
        parts("bit_code: least, greatest and one more level, all of them", 16, three_levels),
        parts("bit_code: 1 to 64 random levels, any band, any allowed", 8, random_levels),
    ]
    .concat()
}

fn compare(levels: &[u8], band: u8, allowed: u32, tally: &mut Tally) {
    let ours = match bit_code(levels, band, allowed) {
        Ok(word) => (0, word),
        Err(refusal) => (refusal.number() as u8, 0),
    };
    tally.same(ours, read(levels, band, allowed), || format!("{levels:?}, band {band}, allowed {allowed}"));
}

/// Every least and greatest level with every third, so that each middle meets each level; the reader's band with none allowed.
fn three_levels(part: u64, tally: &mut Tally) {
    for least in part as u8 * 16..=part as u8 * 16 + 15 {
        for greatest in least..=255 {
            (0..=255).for_each(|level| compare(&[least, greatest, level], 10, 0, tally));
        }
    }
}

fn random_levels(part: u64, tally: &mut Tally) {
    let mut numbers = Numbers::from(SEED + 700 + part);
    for _ in 0..150_000 {
        let length = 1 + numbers.below(64);
        let least = numbers.below(256);
        let range = [256 - least, 49, 50, 51, 52, 80][numbers.below(6)].clamp(1, 256 - least);
        let levels: Vec<u8> = (0..length).map(|_| (least + numbers.below(range)) as u8).collect();
        compare(&levels, 10, 3, tally);
        let band = [numbers.below(32), numbers.below(256)][numbers.below(2)] as u8;
        compare(&levels, band, numbers.below(length + 2) as u32, tally);
    }
}
