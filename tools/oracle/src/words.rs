//! Vectors of `rotate_bits` and `best_tag`.

use crate::limits::{self, Answer};
use crate::original::detector::{TagDetector, best_tag, best_tag_differing, turned};
use crate::original::tag_families::TagFamily;
use crate::out::{Digest, File, Frame, Numbers, SEED};

pub fn files() -> Vec<File> {
    vec![
        rotate_bits(),
        family("vectors_tags/data/t16h5", 0, TagFamily::T16H5, SEED + 165, 1),
        family("vectors_tags/data/t25h7", 1, TagFamily::T25H7, SEED + 257, 3),
        family("vectors_tags/data/t25h9", 2, TagFamily::T25H9, SEED + 259, 1),
        family("vectors_tags/data/t36h11", 3, TagFamily::T36H11, SEED + 3611, 3),
        family("vectors_tags/data/t36h11b1", 4, TagFamily::T36H11B1, SEED + 36111, 30),
        lent(),
        searches_of_limits(),
        likeness_of_limits(),
    ]
}

/// The number with ones at the edge² places of the square.
pub fn square(edge: u8) -> u64 {
    u64::MAX >> (64 - edge as u32 * edge as u32)
}

/// A search's answer: a refusal number, id, turn and the number of differing bits.
pub type Found = (u8, usize, u8, u8);

/// What the original says. Its own search and the one with the widened answer have to agree.
pub fn search(bits: u64, threshold: u8, codes: &[u64], edge: u8) -> Found {
    let wide = best_tag_differing(bits, threshold, codes, edge);
    assert_eq!(best_tag(bits, threshold, codes, edge), wide.map(|(id, turn, _)| (id, turn)));
    wide.map_or((13, 0, 0, 0), |(id, turn, differing)| (0, id, turn as u8, differing as u8))
}

/// A frame with a search's answer behind it.
pub fn push_found(frame: Frame, (refusal, id, turn, differing): Found) -> Frame {
    frame.u8(refusal).u16(id).u8(turn).u8(differing)
}

fn rotate_bits() -> File {
    let mut file = File::new("vectors_tags/data/rotate_bits");
    let mut numbers = Numbers::from(SEED + 8);
    let mut push = |edge: u8, bits: u64, refusal: u8, word: u64| {
        file.push(Frame::new().u8(3).u8(edge).u64(bits).u8(refusal).u64(word));
    };
    for edge in 1..=8 {
        let mut words = vec![0, u64::MAX, square(edge), !square(edge)];
        words.extend((0..64).map(|place| 1u64 << place));
        words.extend((0..40).map(|_| numbers.next() & square(edge)));
        words.extend((0..40).map(|_| numbers.next()));
        for bits in words {
            push(edge, bits, 0, turned(bits, edge));
        }
    }
    for row in limits::turns() {
        match row.answer {
            Answer::Word(word) => {
                assert_eq!(word, turned(row.bits, row.edge), "limits.txt and the original differ");
                push(row.edge, row.bits, 0, word)
            }
            Answer::Refused(number) => push(row.edge, row.bits, number, 0),
            Answer::Tag(..) => panic!("a turn answers a word"),
        }
    }
    file
}

/// The words of a digest.
#[derive(Clone, Copy)]
enum Kind {
    /// The numbers from 0 on.
    All,
    /// Each code of the table turned 0, 1, 2 and 3 times.
    Exact,
    /// Damaged codes in any turn.
    Damaged,
}

/// A table and the words searched in it.
struct Table<'a> {
    file: &'a mut File,
    edge: u8,
    threshold: u8,
    codes: Vec<u64>,
}

impl Table<'_> {
    /// Begins a table: the searches of the frames that follow are in it.
    fn lend(file: &mut File, edge: u8, threshold: u8, codes: Vec<u64>) -> Table<'_> {
        file.push(Frame::new().u8(0).u8(edge).u8(threshold).u64s(&codes));
        Table { file, edge, threshold, codes }
    }

    fn expect(&mut self, bits: u64, found: Found) {
        self.file.push(push_found(Frame::new().u8(1).u64(bits), found));
    }

    fn found(&self, bits: u64) -> Found {
        search(bits, self.threshold, &self.codes, self.edge)
    }

    fn search(&mut self, bits: u64) {
        self.expect(bits, self.found(bits));
    }

    /// A search that has to find a code as damaged.
    fn damaged_as(&mut self, bits: u64, id: usize, turn: u8, differing: u8) {
        assert_eq!(self.found(bits), (0, id, turn, differing));
        self.search(bits);
    }

    fn turned(&self, code: u64, turns: usize) -> u64 {
        (0..turns).fold(code, |word, _| turned(word, self.edge))
    }

    /// The code with `flips` other bits in the square.
    fn flipped(&self, code: u64, flips: usize, numbers: &mut Numbers) -> u64 {
        let places = self.edge as usize * self.edge as usize;
        let mut mask = 0u64;
        while (mask.count_ones() as usize) < flips.min(places) {
            mask |= 1 << numbers.below(places);
        }
        code ^ mask
    }

    /// A frame that asks for a digest of the answers to `count` words of a kind.
    fn digest(&mut self, kind: Kind, seed: u64, count: usize) {
        let mut digest = Digest::new();
        let mut numbers = Numbers::from(seed);
        for k in 0..count {
            let bits = match kind {
                Kind::All => k as u64,
                Kind::Exact => self.turned(self.codes[k / 4], k % 4),
                Kind::Damaged => self.damaged(&mut numbers),
            };
            let (refusal, id, turn, differing) = self.found(bits);
            digest.u8(refusal);
            digest.u16(id);
            digest.bytes(&[turn, differing]);
        }
        self.file.push(Frame::new().u8(2).u8(kind as u8).u64(seed).u32(count as u32).u64(digest.0));
    }

    /// A code of the table, turned 0 to 3 times, with about one bit in sixteen flipped, also above the square.
    fn damaged(&self, numbers: &mut Numbers) -> u64 {
        let code = self.codes[numbers.below(self.codes.len())];
        let turns = numbers.below(4);
        let mask = numbers.next() & numbers.next() & numbers.next() & numbers.next();
        self.turned(code, turns) ^ mask
    }
}

/// A family's table with digests and, for one code in `every`, rows: the code at each turn, near misses about the threshold, words
/// with bits above the square, words of no code. For three codes there are rows about the threshold at each turn.
fn family(path: &'static str, number: u8, family: TagFamily, seed: u64, every: usize) -> File {
    let mut file = File::new(path);
    let mut numbers = Numbers::from(seed);
    let detector = TagDetector::new(&family, None);
    let threshold = detector.hamming_distance();
    let mut table = Table::lend(&mut file, detector.edge(), threshold, detector.code_list().to_vec());
    table.file.push(Frame::new().u8(4).u8(number).u8(detector.border()));
    for code in table.codes.clone().into_iter().step_by(every) {
        for turns in 0..4 {
            table.search(table.turned(code, turns));
        }
        for flips in [threshold - 1, threshold, threshold + 1] {
            let flipped = table.flipped(code, flips as usize, &mut numbers);
            table.search(table.turned(flipped, numbers.below(4)));
        }
        let above = numbers.next() & !square(table.edge);
        table.search(code | above);
        table.search(table.turned(code, 1 + numbers.below(3)) | above);
        table.search(numbers.next() & square(table.edge));
        table.search(numbers.next());
    }
    for bits in [0, u64::MAX, square(table.edge)] {
        table.search(bits);
    }
    for id in [0, table.codes.len() / 2, table.codes.len() - 1] {
        about_threshold(&mut table, id, &mut numbers);
    }
    table.digest(Kind::Exact, seed, 4 * table.codes.len());
    table.digest(Kind::Damaged, seed, 20_000);
    if table.edge == 4 {
        table.digest(Kind::All, seed, 65_536);
    }
    for t in 1..=12 {
        let refusal = if is_unlike(table.edge, t, &table.codes) { 0 } else { 7 };
        table.file.push(likeness(t, detector.border(), refusal));
    }
    file
}

/// Rows of a code of a table that passes the likeness check. At each turn: as many flipped bits as still match, and one more; at later
/// turns with all bits above the square, which turning loses. At turn 0 some bits above the square, with and without flipped ones,
/// together as many as still match, and one more. What still matches has to be found as damaged.
fn about_threshold(table: &mut Table, id: usize, numbers: &mut Numbers) {
    let (code, most) = (table.codes[id], table.threshold - 1);
    let outside = !square(table.edge);
    for turns in 0..4 {
        let [near, far] = [most, most + 1].map(|flips| table.turned(table.flipped(code, flips as usize, numbers), turns));
        table.damaged_as(near, id, (4 - turns as u8) % 4, most);
        table.search(far);
        if 0 < turns && outside != 0 {
            table.damaged_as(near | outside, id, 4 - turns as u8, most);
        }
    }
    for flips in (0..=most).filter(|_| outside != 0) {
        let [near, far] = [most, most + 1].map(|all| above(table.flipped(code, flips as usize, numbers), all - flips));
        table.damaged_as(near, id, 0, most);
        table.search(far);
    }
}

/// The word with `count` bits above the square, the highest ones.
fn above(word: u64, count: u8) -> u64 {
    word | !(u64::MAX >> count)
}

/// The likeness check in document 01's words. The original has none.
pub fn is_unlike(edge: u8, threshold: u8, codes: &[u64]) -> bool {
    let t = threshold as u32;
    let places = edge as u32 * edge as u32;
    let turns = |code: u64| {
        let once = turned(code, edge);
        let twice = turned(once, edge);
        [code, once, twice, turned(twice, edge)]
    };
    let differ = |a: u64, b: u64| (a ^ b).count_ones() > 2 * t - 2;
    let alone = codes.iter().all(|&code| {
        let all = turns(code);
        let apart = (0..4).all(|i| (0..i).all(|j| differ(all[i], all[j])));
        code.count_ones() >= t && places - code.count_ones() >= t && apart
    });
    let apart = |i: usize, j: usize| turns(codes[i]).iter().all(|&a| turns(codes[j]).iter().all(|&b| differ(a, b)));
    alone && (0..codes.len()).all(|i| (0..i).all(|j| apart(i, j)))
}

/// A frame that asks the likeness check of the table with a threshold and a border.
fn likeness(threshold: u8, border: u8, refusal: u8) -> Frame {
    Frame::new().u8(5).u8(threshold).u8(border).u8(refusal)
}

/// The limits of document 01 for the likeness check.
fn likeness_of_limits() -> File {
    let mut file = File::new("vectors_tags/data/likeness");
    for row in limits::likeness() {
        let known = row.refusal == 6 || is_unlike(row.edge, row.threshold, &row.codes) == (row.refusal == 0);
        assert!(known, "limits.txt and the check differ");
        Table::lend(&mut file, row.edge, row.threshold, row.codes);
        file.push(likeness(row.threshold, row.border, row.refusal));
    }
    file
}

/// Lent tables: ties, one code and 1,024, every edge and thresholds to 64.
fn lent() -> File {
    let mut file = File::new("vectors_tags/data/lent");
    let mut numbers = Numbers::from(SEED + 1_024);
    ties(&mut file);
    for edge in 1..=8 {
        for threshold in [1, 2, 3, 5, 8, 16, 32, 63, 64] {
            small_table(&mut file, edge, threshold, &mut numbers);
        }
    }
    for (edge, threshold) in [(6, 3), (8, 12)] {
        large_table(&mut file, edge, threshold, &mut numbers);
    }
    for (edge, threshold) in [(2, 1), (3, 2), (4, 3), (5, 4), (6, 5), (7, 6), (8, 1), (8, 8), (8, 9)] {
        unlike_table(&mut file, edge, threshold, &mut numbers);
    }
    file
}

/// The limits of document 01 for the search.
fn searches_of_limits() -> File {
    let mut file = File::new("vectors_tags/data/limits");
    for row in limits::searches() {
        let mut table = Table::lend(&mut file, row.edge, row.threshold, row.codes);
        let found = match row.answer {
            Answer::Tag(id, turn, differing) => (0, id, turn, differing),
            Answer::Refused(number) => (number, 0, 0, 0),
            Answer::Word(_) => panic!("a search answers a tag"),
        };
        assert!(found.0 == 6 || table.found(row.bits) == found, "limits.txt and the original differ");
        table.expect(row.bits, found);
    }
    file
}

/// Equal codes, codes equally far from the word, and codes that are turns of each other.
fn ties(file: &mut File) {
    let code = 0x231b;
    let turns: Vec<u64> = (0..4).map(|k| (0..k).fold(code, |word, _| turned(word, 4))).collect();
    let tables = [
        (2, vec![code, code]),
        (2, vec![0xffff, code, code, 0]),
        (3, vec![code ^ 1, code ^ 2, code ^ 4, code ^ 8]),
        (5, vec![code ^ 3, code ^ 0x18, code ^ 1, code ^ 0x8000]),
        (2, turns.clone()),
        (2, turns.iter().rev().copied().collect()),
        (4, turns.iter().map(|turn| turn ^ 0x100).collect()),
        (1, vec![0, 0xffff]),
        (17, vec![0, 0xffff]),
        (9, vec![0, 0xffff, 0xff, 0xff00]),
    ];
    for (threshold, codes) in tables {
        let mut table = Table::lend(file, 4, threshold, codes);
        for &turn in &turns {
            table.search(turn);
            table.search(turn ^ 1);
            table.search(turn | 0x4_0000);
        }
        for bits in [0, 0xff, 0xf0f0, 0xffff, 0x1_ffff] {
            table.search(bits);
        }
    }
}

fn small_table(file: &mut File, edge: u8, threshold: u8, numbers: &mut Numbers) {
    let count = 1 + numbers.below(6);
    let codes: Vec<u64> = (0..count).map(|_| numbers.next() & square(edge)).collect();
    let first = codes[0];
    let mut table = Table::lend(file, edge, threshold, codes);
    for flips in [threshold - 1, threshold] {
        let flipped = table.flipped(first, flips as usize, numbers);
        table.search(table.turned(flipped, numbers.below(4)));
    }
    table.search(!first);
    table.search(numbers.next() & square(edge));
    table.search(numbers.next());
    table.digest(Kind::Damaged, numbers.next(), 500);
}

/// A table that passes the likeness check, of up to three codes, and rows about its threshold.
fn unlike_table(file: &mut File, edge: u8, threshold: u8, numbers: &mut Numbers) {
    let mut codes = Vec::new();
    for _ in 0..10_000 {
        codes.push(numbers.next() & square(edge));
        if codes.len() > 3 || !is_unlike(edge, threshold, &codes) {
            codes.pop();
        }
    }
    let mut table = Table::lend(file, edge, threshold, codes);
    for id in 0..table.codes.len() {
        about_threshold(&mut table, id, numbers);
    }
    table.digest(Kind::Exact, numbers.next(), 4 * table.codes.len());
}

fn large_table(file: &mut File, edge: u8, threshold: u8, numbers: &mut Numbers) {
    let codes: Vec<u64> = (0..1_024).map(|_| numbers.next() & square(edge)).collect();
    let mut table = Table::lend(file, edge, threshold, codes);
    for id in [0, 1, 511, 512, 1_022, 1_023] {
        for flips in [0, threshold - 1, threshold] {
            let flipped = table.flipped(table.codes[id], flips as usize, numbers);
            table.search(table.turned(flipped, numbers.below(4)));
        }
    }
    table.digest(Kind::Damaged, numbers.next(), 2_000);
}
