//! Turns, the search, the families' tables, and the likeness check against a few lines that follow document 01.

use crate::tally::{Job, Tally, job, parts};
use muosleap::{FAMILIES, Family, NotFound, Refusal, Table, detector::rotate_bits};
use muosleap_compare::{Numbers, SEED};
use oracle::original::detector::{TagDetector, best_tag, best_tag_differing, turned};
use oracle::original::tag_families::TagFamily;
use oracle::words::{is_unlike, square};

pub fn jobs() -> Vec<Job> {
    [
        job("families: edge, border, threshold, codes", families),
        job("rotate_bits: edges 1 to 8, random words", turns),
        job("turning: each place of the printed tables", printed_tables),
        job("best_tag: all 65,536 words of T16H5", |tally| sweep(Family::T16H5, 0..1 << 16, tally)),
        parts("best_tag: all 2^25 words of T25H7", 64, |k, tally| sweep(Family::T25H7, k << 19..(k + 1) << 19, tally)),
        parts("best_tag: all 2^25 words of T25H9", 64, |k, tally| sweep(Family::T25H9, k << 19..(k + 1) << 19, tally)),
        parts("best_tag: T36H11, random words of 36 bits", 8, |k, tally| random_words(k, square(6), tally)),
        parts("best_tag: T36H11, random words of 64 bits", 4, |k, tally| random_words(k + 8, u64::MAX, tally)),
        parts("best_tag: T36H11, codes with 0 to 5 flips, turned", 8, near_words),
        parts("best_tag: T36H11, codes with 0 to 5 flips and high bits", 4, high_bits),
        parts("best_tag: T36H11, codes damaged in a quarter of the bits", 4, damaged_words),
        parts("best_tag: lent tables, edges 1 to 8, 1 to 1,024 codes", 8, lent_tables),
        parts("check_likeness: lent tables, against 01's sentence", 4, likeness),
    ]
    .concat()
}

fn families(tally: &mut Tally) {
    let originals = [TagFamily::T16H5, TagFamily::T25H7, TagFamily::T25H9, TagFamily::T36H11, TagFamily::T36H11B1];
    for (family, original) in FAMILIES.into_iter().zip(originals) {
        let (table, detector) = (family.table(), TagDetector::new(&original, None));
        let small = (detector.edge(), detector.border(), detector.hamming_distance(), detector.code_list().len());
        tally.same((table.edge, table.border, table.hamming_distance, table.codes.len()), small, || format!("{family:?}"));
        for (id, (ours, original)) in table.codes.iter().zip(detector.code_list()).enumerate() {
            tally.same(ours, original, || format!("{family:?}, code {id}"));
        }
    }
}

fn turns(tally: &mut Tally) {
    let mut numbers = Numbers::from(SEED + 1);
    for edge in 1..=8 {
        let words = (0..64).map(|place| 1 << place).chain([0, u64::MAX]).chain((0..500_000).map(|_| numbers.next()));
        for bits in words.collect::<Vec<u64>>() {
            tally.same(rotate_bits(bits, edge), Ok(turned(bits, edge)), || format!("edge {edge}, word {bits:#x}"));
        }
    }
}

/// The bit at the place that a table has for place k, turned by the original, is the bit at place k.
fn printed_tables(tally: &mut Tally) {
    let text = include_str!("../../../../../crates/turning/stdout");
    for (edge, line) in (4..).zip(text.lines()) {
        for (place, from) in line.split(' ').enumerate() {
            tally.same(1 << place, turned(1 << from.parse::<u32>().unwrap(), edge), || format!("edge {edge}, place {place}"));
        }
    }
}

/// What the original says to a word: id, turn, and of its search with the widened answer, which has to agree, the differing bits.
fn original(table: &Table, bits: u64) -> Option<(usize, usize, u32)> {
    let wide = best_tag_differing(bits, table.hamming_distance, table.codes, table.edge);
    assert_eq!(best_tag(bits, table.hamming_distance, table.codes, table.edge), wide.map(|(id, turn, _)| (id, turn)));
    wide
}

type Answer = Option<(usize, usize, u32)>;

/// Our answer, and the count of codes compared that stands beside it.
fn ours(table: &Table, bits: u64) -> (Answer, usize) {
    match table.best_tag(bits) {
        Ok(found) => (Some((found.id, found.turn as usize, found.differing as u32)), found.compared),
        Err(NotFound::NoCode { compared }) => (None, compared),
        Err(NotFound::BadTable) => panic!("{}", NotFound::BadTable),
    }
}

/// How many codes are compared before the original's answer is known: up to the code that differs in no bit, or whole tables.
fn told_by(answer: Answer, table: &Table) -> usize {
    let length = table.codes.len();
    match answer {
        Some((id, turn, 0)) => turn * length + id + 1,
        Some((_, turn, _)) => (turn + 1) * length,
        None => 4 * length,
    }
}

/// Searches one word in a table on both sides. The original has no count: ours is held to what its answer says.
fn search(table: &Table, bits: u64, tally: &mut Tally) {
    let theirs = original(table, bits);
    let input = || format!("edge {}, {} codes, word {bits:#x}", table.edge, table.codes.len());
    tally.same(ours(table, bits), (theirs, told_by(theirs, table)), input);
}

fn sweep(family: Family, words: std::ops::Range<u64>, tally: &mut Tally) {
    let table = family.table();
    words.for_each(|bits| search(&table, bits, tally));
}

fn random_words(seed: u64, mask: u64, tally: &mut Tally) {
    let (table, mut numbers) = (Family::T36H11.table(), Numbers::from(SEED + 100 + seed));
    (0..250_000).for_each(|_| search(&table, numbers.next() & mask, tally));
}

/// A code with up to `most` bits of the square flipped, turned 0 to 3 times.
fn near_word(table: &Table, most: usize, numbers: &mut Numbers) -> u64 {
    let places = table.edge as usize * table.edge as usize;
    let mut word = table.codes[numbers.below(table.codes.len())];
    (0..numbers.below(most + 1)).for_each(|_| word ^= 1 << numbers.below(places));
    (0..numbers.below(4)).fold(word, |word, _| turned(word, table.edge))
}

fn near_words(part: u64, tally: &mut Tally) {
    let (table, mut numbers) = (Family::T36H11.table(), Numbers::from(SEED + 200 + part));
    (0..500_000).for_each(|_| search(&table, near_word(&table, 5, &mut numbers), tally));
}

/// Bits above the square count at turn 0 and are lost by turning.
fn high_bits(part: u64, tally: &mut Tally) {
    let (table, mut numbers) = (Family::T36H11.table(), Numbers::from(SEED + 300 + part));
    for _ in 0..250_000 {
        let high = (numbers.next() & numbers.next() & numbers.next()) & !square(6);
        search(&table, near_word(&table, 5, &mut numbers) | high, tally);
    }
}

fn damaged_words(part: u64, tally: &mut Tally) {
    let (table, mut numbers) = (Family::T36H11.table(), Numbers::from(SEED + 400 + part));
    for _ in 0..250_000 {
        let damage = numbers.next() & numbers.next() & square(6);
        search(&table, near_word(&table, 0, &mut numbers) ^ damage, tally);
    }
}

/// A table of random codes; now and then codes repeat or lie close together.
fn lent_table(numbers: &mut Numbers) -> (u8, u8, Vec<u64>) {
    let edge = 1 + numbers.below(8) as u8;
    let count = [1, 2, 3, 30, 587, 1_024, 1 + numbers.below(1_024)][numbers.below(7)];
    let most = [2, 4, 64][numbers.below(3)];
    let hamming_distance = 1 + numbers.below(most) as u8;
    let mut codes: Vec<u64> = (0..count).map(|_| numbers.next() & square(edge)).collect();
    if numbers.below(3) == 0 {
        let first = codes[0];
        codes.iter_mut().for_each(|code| *code = first ^ (*code & numbers.next() & numbers.next()));
    }
    (edge, hamming_distance, codes)
}

fn lent_tables(part: u64, tally: &mut Tally) {
    let mut numbers = Numbers::from(SEED + 500 + part);
    for _ in 0..100 {
        let (edge, hamming_distance, codes) = lent_table(&mut numbers);
        let table = Table { edge, border: 1, hamming_distance, codes: &codes };
        for _ in 0..600 {
            search(&table, numbers.next(), tally);
            search(&table, numbers.next() & square(edge), tally);
            search(&table, near_word(&table, hamming_distance as usize + 1, &mut numbers), tally);
        }
    }
}

fn likeness(part: u64, tally: &mut Tally) {
    let mut numbers = Numbers::from(SEED + 600 + part);
    let mut check = |edge: u8, codes: &[u64], hamming_distance: u8| {
        let table = Table { edge, border: 1, hamming_distance, codes };
        let original = if is_unlike(edge, hamming_distance, codes) { Ok(()) } else { Err(Refusal::CodesAlike) };
        tally.same(table.check_likeness(), original, || format!("edge {edge}, threshold {hamming_distance}, codes {codes:x?}"));
    };
    for _ in 0..20_000 {
        let edge = 1 + numbers.below(8) as u8;
        let codes: Vec<u64> = (0..1 + numbers.below(6)).map(|_| numbers.next() & square(edge)).collect();
        let most = 1 + edge as usize * edge as usize / 4;
        (0..3).for_each(|_| check(edge, &codes, 1 + numbers.below(most) as u8));
    }
    for family in FAMILIES.into_iter().filter(|family| family.number() as u64 == part) {
        let table = family.table();
        (1..9).for_each(|threshold| check(table.edge, table.codes, threshold));
    }
}
