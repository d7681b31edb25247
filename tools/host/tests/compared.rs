//! The count of codes that a search compares, held to 02's sentence; and what a search writes where it is refused.

mod numbers;

use muosleap::detector::rotate_bits;
use muosleap::{FAMILIES, Family, NotFound, Refusal, Table, c};
use numbers::Numbers;

/// "Each code met in each turn begun counts one, the code that ends the search included": turns are begun until one has a code nearer than
/// the match threshold, and a code that differs in no bit ends the search.
fn sentence(table: &Table, bits: u64) -> usize {
    let mut count = 0;
    for turn in 0..4 {
        let word = turned(bits, table.edge, turn);
        let mut near = false;
        for code in table.codes {
            count += 1;
            if word == *code {
                return count;
            }
            near |= (word ^ code).count_ones() < table.hamming_distance as u32;
        }
        if near {
            return count;
        }
    }
    count
}

fn turned(bits: u64, edge: u8, turns: u8) -> u64 {
    (0..turns).fold(bits, |bits, _| rotate_bits(bits, edge).unwrap())
}

fn compared(table: &Table, bits: u64) -> usize {
    match table.best_tag(bits) {
        Ok(found) => found.compared,
        Err(NotFound::NoCode { compared }) => compared,
        Err(NotFound::BadTable) => panic!("{}", NotFound::BadTable),
    }
}

fn check(table: &Table, bits: u64) {
    assert_eq!(compared(table, bits), sentence(table, bits), "word {bits:#x}");
    assert!(compared(table, bits) <= 4 * table.codes.len(), "word {bits:#x}");
}

#[test]
fn clean_words_of_every_family_at_every_turn() {
    for table in FAMILIES.map(|family| family.table()) {
        for (id, &code) in table.codes.iter().enumerate() {
            for turns in 0..4 {
                let word = turned(code, table.edge, turns);
                let turn = (4 - turns as usize) % 4;
                assert_eq!(compared(&table, word), turn * table.codes.len() + id + 1);
                check(&table, word);
            }
        }
    }
}

#[test]
fn misread_and_unread_words_of_every_family() {
    let mut numbers = Numbers(6_000);
    for table in FAMILIES.map(|family| family.table()) {
        for &code in table.codes {
            let mut word = turned(code, table.edge, (numbers.next() % 4) as u8);
            for place in numbers.bytes(5) {
                word ^= 1 << (place % 64);
                check(&table, word);
            }
        }
        check(&table, 0);
        check(&table, u64::MAX);
    }
}

#[test]
fn a_code_that_stands_twice_and_near_codes_before_it() {
    let table = |hamming_distance, codes| Table { edge: 4, border: 2, hamming_distance, codes };
    let found = |table: Table, word| table.best_tag(word).map(|found| (found.id, found.turn, found.differing, found.compared));
    assert_eq!(found(table(1, &[0x1111, 0x231B, 0x231B]), 0x231B), Ok((1, 0, 0, 2)));
    // Two codes below the threshold come first, and end nothing.
    assert_eq!(found(table(3, &[0x2318, 0x231A, 0x231B, 0x231B]), 0x231B), Ok((2, 0, 0, 3)));
    // A near code answers at turn 0, though the same word turned is a code: all of one turn is compared.
    assert_eq!(found(table(3, &[0x7D02, 0x231B]), 0x7D01), Ok((0, 0, 2, 2)));
    assert_eq!(found(table(1, &[0x7D02, 0x231B]), 0x7D01), Ok((1, 3, 0, 8)));
    assert_eq!(found(table(1, &[0x231B]), 0x231A), Err(NotFound::NoCode { compared: 4 }));
}

#[test]
fn starts_of_a_word_have_counts_of_their_own() {
    let table = Family::T16H5.table();
    assert_eq!([0, 1, 2, 3].map(|turns| compared(&table, turned(0x231B, 4, turns))), [1, 91, 61, 31]);
}

/// Beside 0 all four, beside 13 the count alone, beside 6 nothing.
#[test]
fn what_a_call_writes() {
    let many = vec![1; 1_025];
    let calls: [(u32, u8, u8, &[u64], [usize; 4]); 10] = [
        (0, 4, 1, &[0x1111, 0x231A], [1, 0, 0, 2]),
        (13, 4, 1, &[0x231B], [77, 88, 66, 4]),
        (6, 0, 1, &[1], [77, 88, 66, 55]),
        (6, 9, 1, &[1], [77, 88, 66, 55]),
        (6, 4, 0, &[0x231A], [77, 88, 66, 55]),
        (6, 4, 65, &[0x231A], [77, 88, 66, 55]),
        (6, 4, 1, &[], [77, 88, 66, 55]),
        (6, 4, 1, &many, [77, 88, 66, 55]),
        (6, 4, 1, &[0x231A, 0x1_0000], [77, 88, 66, 55]),
        (6, 1, 1, &[2], [77, 88, 66, 55]),
    ];
    for (number, edge, hamming_distance, codes, after) in calls {
        let (mut id, mut turn, mut differing, mut compared) = (77, 88, 66, 55);
        let answer = c::best_tag(0x231A, hamming_distance, codes, edge, &mut id, &mut turn, &mut differing, &mut compared);
        assert_eq!(answer, number);
        assert_eq!([id, turn as usize, differing as usize, compared], after);
    }
}

#[test]
fn a_search_that_finds_nothing_says_its_refusal() {
    let unread = NotFound::NoCode { compared: 4 };
    assert_eq!([unread, NotFound::BadTable].map(Refusal::from), [Refusal::NoCode, Refusal::BadTable]);
    assert_eq!(unread.to_string(), Refusal::NoCode.to_string());
}
