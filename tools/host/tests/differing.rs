//! How many modules differ: the search held to its sentence, misprinted and worn tags from every start, alone and in lists, and what a
//! refused call or row says.

mod numbers;

use muosleap::detector::rotate_bits;
use muosleap::painter::paint_tag;
use muosleap::{FAMILIES, Family, Picture, Point, Print, Quad, Refusal, Table, Tag, c};
use numbers::Numbers;
use std::collections::BTreeSet;

/// Id, turn, differing bits.
type Answer = Result<(usize, u8, u8), Refusal>;

fn search(table: &Table, bits: u64) -> Answer {
    table.best_tag(bits).map(|found| (found.id, found.turn, found.differing)).map_err(Refusal::from)
}

/// The sentence: turns 0 to 3, in each the fewest bits, of all 64, in which a code differs, and the first code that has them; the
/// first turn at which they are fewer than the match threshold.
fn sentence(table: &Table, bits: u64) -> Answer {
    let differing = |turn: u8, code: &u64| (turned(bits, table.edge, turn) ^ code).count_ones() as u8;
    let fewest = |turn: u8| {
        let codes = table.codes.iter().enumerate().map(|(id, code)| (differing(turn, code), id));
        codes.min().map(|(fewest, id)| (id, turn, fewest)).unwrap()
    };
    (0..4).map(fewest).find(|(.., fewest)| *fewest < table.hamming_distance).ok_or(Refusal::NoCode)
}

fn turned(bits: u64, edge: u8, turns: u8) -> u64 {
    (0..turns).fold(bits, |bits, _| rotate_bits(bits, edge).unwrap())
}

/// All bits of a square.
fn square(edge: u8) -> u64 {
    u64::MAX >> (64 - edge as u32 * edge as u32)
}

/// A number with so many bits of `among`.
fn some_bits(among: u64, count: u32, numbers: &mut Numbers) -> u64 {
    let mut bits = 0u64;
    while bits.count_ones() < count {
        bits |= 1 << (numbers.next() % 64) & among;
    }
    bits
}

/// Up to `most` codes, such that the table passes the likeness check.
fn codes(edge: u8, hamming_distance: u8, most: usize, numbers: &mut Numbers) -> Vec<u64> {
    let mut codes = Vec::new();
    for _ in 0..5_000 {
        codes.push(numbers.next() >> 7 & square(edge));
        if (Table { edge, border: 1, hamming_distance, codes: &codes }).check_likeness().is_err() {
            codes.pop();
        } else if codes.len() == most {
            break;
        }
    }
    assert!(!codes.is_empty(), "no code of edge {edge} for a threshold of {hamming_distance}");
    codes
}

/// Tables that pass the likeness check: the families, and others with every edge from 2 and match thresholds from 1 to 12.
fn tables(run: impl Fn(Table)) {
    FAMILIES.iter().for_each(|family| run(family.table()));
    let mut numbers = Numbers(0x5851_f42d_4c95_7f2d);
    for (edge, hamming_distance) in
        [(2, 1), (3, 1), (3, 2), (4, 2), (4, 3), (5, 3), (5, 4), (6, 4), (6, 6), (7, 5), (7, 8), (8, 3), (8, 9), (8, 12)]
    {
        let codes = codes(edge, hamming_distance, 6, &mut numbers);
        run(Table { edge, border: 1 + edge % 4, hamming_distance, codes: &codes });
    }
}

#[test]
fn flipped_bits_are_counted() {
    tables(|table| {
        let mut numbers = Numbers(11);
        let Table { edge, hamming_distance, .. } = table;
        assert_eq!(table.check_likeness(), Ok(()));
        for (id, code) in table.codes.iter().enumerate() {
            for flips in 0..hamming_distance {
                let word = code ^ some_bits(square(edge), flips as u32, &mut numbers);
                (0..4).for_each(|turn| assert_eq!(search(&table, turned(word, edge, (4 - turn) % 4)), Ok((id, turn, flips))));
            }
            // As many as the threshold are too many.
            let word = code ^ some_bits(square(edge), hamming_distance as u32, &mut numbers);
            assert_ne!(search(&table, word).map(|(other, turn, _)| (other, turn)), Ok((id, 0)));
            assert_eq!(search(&table, word), sentence(&table, word));
        }
    });
}

#[test]
fn bits_above_the_square_count_at_turn_0_alone() {
    let mut numbers = Numbers(12);
    for edge in 3..=7 {
        let codes = codes(edge, 2, 3, &mut numbers);
        let table = Table { edge, border: 1, hamming_distance: 2, codes: &codes };
        for high in 1..=(64 - edge as u32 * edge as u32).min(62) {
            let above = some_bits(!square(edge), high, &mut numbers);
            for (id, code) in codes.iter().enumerate() {
                let worn = code ^ some_bits(square(edge), 1, &mut numbers);
                // With a threshold that takes them all, these bits count; with one less, or 2, they keep the word from turn 0.
                let large = |hamming_distance: u32| Table { hamming_distance: hamming_distance as u8, ..table };
                assert_eq!(search(&Table { codes: &[*code], ..large(high + 2) }, worn | above), Ok((0, 0, high as u8 + 1)));
                let other = Table { codes: &[*code], ..large(high + 1) };
                assert_ne!(search(&other, worn | above).map(|(_, turn, _)| turn), Ok(0));
                assert_eq!(search(&other, worn | above), sentence(&other, worn | above));
                // Met at a later turn, they have gone.
                for turn in 1..4 {
                    assert_eq!(search(&table, turned(worn, edge, 4 - turn) | above), Ok((id, turn, 1)));
                    assert_eq!(search(&table, turned(*code, edge, 4 - turn) | above), Ok((id, turn, 0)));
                }
                if high >= 2 {
                    assert_eq!(search(&table, code | above), Err(Refusal::NoCode));
                }
            }
        }
    }
}

#[test]
fn the_fewest_answer_and_the_first_of_ties() {
    let table = |edge: u8, hamming_distance: u8, codes: &'static [u64]| Table { edge, border: 1, hamming_distance, codes };
    let rows = [
        (table(4, 5, &[0x00F0, 0x000F, 0x000F]), 0x000F, Ok((1, 0, 0))),
        (table(4, 5, &[0x00F0, 0x000F, 0x000F]), 0, Ok((0, 0, 4))),
        (table(4, 4, &[0x00F0, 0x000F, 0x000F]), 0, Err(Refusal::NoCode)),
        (table(4, 9, &[0x00FF, 0x0003, 0x0001, 0x0004]), 0, Ok((2, 0, 1))),
        // A code that differs in no bit is met at turn 3, and one that differs in two at turn 0.
        (table(4, 3, &[0x231B, 0x7D02]), 0x7D01, Ok((1, 0, 2))),
        (table(4, 2, &[0x231B, 0x7D02]), 0x7D01, Ok((0, 3, 0))),
        // Up to 63, and never 64.
        (table(8, 64, &[0]), u64::MAX >> 1, Ok((0, 0, 63))),
        (table(8, 64, &[0]), u64::MAX, Err(Refusal::NoCode)),
        (table(8, 64, &[u64::MAX, 0]), u64::MAX << 1, Ok((0, 0, 1))),
        (table(1, 64, &[0]), u64::MAX ^ 1, Ok((0, 0, 63))),
        (table(1, 64, &[0]), u64::MAX, Ok((0, 1, 1))),
        (table(1, 1, &[0]), u64::MAX, Err(Refusal::NoCode)),
        (table(1, 1, &[1]), u64::MAX, Ok((0, 1, 0))),
    ];
    for (table, bits, answer) in rows {
        assert_eq!(search(&table, bits), answer, "{table:x?}, {bits:#x}");
        assert_eq!(sentence(&table, bits), answer, "{table:x?}, {bits:#x}");
    }
}

#[test]
fn the_search_is_its_sentence() {
    let mut numbers = Numbers(13);
    let mut seen = BTreeSet::new();
    for round in 0..4_000 {
        let edge = 1 + (round % 8) as u8;
        // Few bits set, so that many codes are as near as others, and now and then the same.
        let mut sparse = || numbers.next() & numbers.next() & numbers.next();
        let codes: Vec<u64> = (0..1 + round / 8 % 40).map(|_| sparse() & square(edge)).collect();
        for hamming_distance in [1, 2, 3, 5, 9, 17, 40, 64] {
            let table = Table { edge, border: 1, hamming_distance, codes: &codes };
            for bits in [numbers.next(), numbers.next() & square(edge), codes[0] | 1 << (numbers.next() % 64)] {
                let answer = search(&table, bits);
                assert_eq!(answer, sentence(&table, bits), "{table:x?}, {bits:#x}");
                seen.extend(answer.map(|(_, turn, differing)| (turn, differing)));
            }
        }
    }
    assert!((0..40).all(|differing| seen.contains(&(0, differing))) && (1..4).all(|turn| seen.contains(&(turn, 2))));
}

/// What all four starts of a quad say, alone and in a list between refused quads: the same but for the turn, which follows the start.
/// In one list of all four, those that are read are refused with 18.
fn four_starts(table: &Table, picture: &Picture<Vec<u8>>, quad: Quad) -> Result<Tag, Refusal> {
    let (outside, range) = (Quad::from([20_000.0; 8]), Err(Refusal::CornerRange));
    let starts = [0, 1, 2, 3].map(|start| quad.started(start));
    let first = table.try_decode_quad(picture, &quad);
    for (start, &quad) in starts.iter().enumerate() {
        let read = table.try_decode_quad(picture, &quad);
        assert_eq!(table.try_decode_quads(picture, &[outside, quad, outside]), Ok(vec![range, read, range]));
        assert_eq!(read.map(|tag| tag.turn), first.map(|tag| (tag.turn + 4 - start as u8) % 4));
        let rest = |tag: Tag| (tag.id, tag.differing, tag.corners);
        assert_eq!(read.map(rest), first.map(rest));
    }
    let together = first.and(Err(Refusal::RepeatedId));
    assert_eq!(table.try_decode_quads(picture, &starts), Ok(vec![together; 4]));
    first
}

#[test]
fn misprinted_modules_are_counted_from_every_start() {
    tables(|table| {
        let mut numbers = Numbers(14);
        let Table { edge, border, hamming_distance, codes } = table;
        for misprinted in 0..hamming_distance {
            for turn in 0..4 {
                let (id, cell) = (numbers.next() as usize % codes.len(), 1 + numbers.next() as usize % 4);
                let print = Print { x: 3, y: 2, cell, turn, light: 190, dark: 60 };
                let side = (edge + 2 * border) as usize * cell + 6;
                let (stride, width, height) = (side + 5, side, side);
                let mut picture = Picture { bytes: numbers.bytes(stride * (side - 1) + side), width, height, stride };
                let word = codes[id] ^ some_bits(square(edge), misprinted as u32, &mut numbers);
                let quad = paint_tag(&mut picture, edge, border, word, &print).unwrap();
                let tag = four_starts(&table, &picture, quad).unwrap();
                assert_eq!((tag.id, tag.turn, tag.differing), (id, 0, misprinted));
                let [p, q, r, s] = quad.corners;
                assert_eq!(tag.corners, Quad { corners: [s, r, q, p] });
            }
        }
    });
}

#[test]
fn specks_on_modules_count_and_others_do_not() {
    let (light, dark) = (200, 50);
    for family in FAMILIES {
        let (table, mut numbers, mut seen) = (family.table(), Numbers(15), BTreeSet::new());
        let (edge, border) = (table.edge as usize, table.border as usize);
        let side = edge + 2 * border + 1;
        for _ in 0..300 {
            // A pixel for each module.
            let id = numbers.next() as usize % table.codes.len();
            let mut picture = Picture::packed(vec![0; side * side], side, side);
            let print = Print { x: 0, y: 0, cell: 1, turn: 0, light, dark };
            let quad = family.paint_tag(&mut picture, table.codes[id], &print).unwrap();
            let mut worn = 0;
            for (place, pixel) in picture.bytes.iter_mut().enumerate().filter(|_| numbers.next() >> 20 & 15 == 0) {
                *pixel = light + dark - *pixel;
                let module = |place: usize| (border..border + edge).contains(&place);
                worn += (module(place % side) && module(place / side)) as u8;
            }
            let read = four_starts(&table, &picture, quad);
            match worn < table.hamming_distance {
                true => assert_eq!(read.map(|tag| (tag.id, tag.turn, tag.differing)), Ok((id, 0, worn))),
                false => assert_ne!(read.map(|tag| (tag.id, tag.turn)), Ok((id, 0))),
            }
            seen.extend(read.map(|tag| tag.differing));
        }
        assert!(seen.into_iter().eq(0..table.hamming_distance), "{family:?}");
    }
}

#[test]
fn four_starts_agree_in_pictures_of_noise() {
    let mut numbers = Numbers(16);
    for (edge, border, hamming_distance) in [(3, 1, 2), (3, 2, 2), (4, 1, 3), (4, 2, 2)] {
        let codes = codes(edge, hamming_distance, 1_024, &mut numbers);
        let table = Table { edge, border, hamming_distance, codes: &codes };
        let mut seen = vec![0; hamming_distance as usize];
        for _ in 0..300 {
            // Dark and light pixels, and a few that make a module unsure.
            let level = |byte: u8| [byte / 4, 255 - byte / 4, 128][if byte < 8 { 2 } else { byte as usize % 2 }];
            let picture = Picture::packed(numbers.bytes(30 * 25).into_iter().map(level).collect(), 30, 25);
            for _ in 0..50 {
                let mut place = |side: f32| (numbers.next() >> 40) as f32 / 16_777_216.0 * side;
                let corners = [(); 4].map(|_| Point { x: place(29.4), y: place(24.4) });
                if let Ok(tag) = four_starts(&table, &picture, Quad { corners }) {
                    seen[tag.differing as usize] += 1;
                }
            }
        }
        assert!(seen.iter().all(|&count| count > 10), "edge {edge}, threshold {hamming_distance}: {seen:?}");
    }
}

/// Both readers of lists, with outputs of these lengths, and what they hold afterwards.
fn lists(picture: &Picture<Vec<u8>>, quads: &[f32], rows: usize, corners: usize) -> [(u32, Vec<u64>, Vec<f32>); 2] {
    let &Picture { ref bytes, width: w, height: h, stride } = picture;
    let Table { edge, border, hamming_distance, codes } = Family::T36H11.table();
    [false, true].map(|lent| {
        let (mut rows, mut out) = (vec![99; rows], vec![1.5; corners]);
        let answer = if lent {
            c::try_decode_quads(bytes, w, h, stride, edge, border, hamming_distance, codes, quads, &mut rows, &mut out)
        } else {
            c::try_decode_quads_in(bytes, w, h, stride, Family::T36H11.number(), quads, &mut rows, &mut out)
        };
        (answer, rows, out)
    })
}

#[test]
fn a_row_has_four_numbers() {
    let mut picture = Picture::packed(vec![0; 30 * 30], 30, 30);
    let print = Print { x: 3, y: 4, cell: 2, turn: 3, light: 200, dark: 20 };
    let family = Family::T36H11;
    let quad = family.paint_tag(&mut picture, family.codes()[586] ^ 1 << 35 ^ 1, &print).unwrap();
    let bad = |corner: f32| Quad::from([1.0, 1.0, corner, 1.0, corner, corner, 1.0, corner]);
    for start in 0..4 {
        let quads = [bad(f32::NAN), quad.started(start), bad(29.5), Quad::from([29.0; 8])];
        let numbers: Vec<f32> = quads.iter().flat_map(|&quad| <[f32; 8]>::from(quad)).collect();
        let expected = [[8, 0, 0, 0], [0, 586, (4 - start as u64) % 4, 2], [9, 0, 0, 0], [11, 0, 0, 0]];
        for (answer, rows, corners) in (0..9).flat_map(|more| lists(&picture, &numbers, 16 + more, 32 + more)) {
            assert_eq!((answer, &rows[..16]), (0, expected.as_flattened()));
            assert!(rows[16..].iter().all(|&number| number == 99) && corners[32..].iter().all(|&number| number == 1.5));
            for (row, corners) in expected.iter().zip(corners.chunks(8)) {
                assert_eq!(corners.iter().all(|number| number.to_bits() == 0), row[0] != 0);
            }
        }
        // One number short, three numbers a quad, none.
        for rows in [15, 12, 8, 1, 0] {
            for (answer, rows_after, corners) in lists(&picture, &numbers, rows, 32) {
                assert_eq!((answer, rows_after, corners), (16, vec![99; rows], vec![1.5; 32]));
            }
        }
        for (answer, rows, corners) in lists(&picture, &numbers, 16, 31) {
            assert_eq!((answer, rows, corners), (16, vec![99; 16], vec![1.5; 31]));
        }
    }
}

#[test]
fn the_longest_list_needs_4_096_numbers() {
    let mut picture = Picture::packed(vec![0; 30 * 30], 30, 30);
    let print = Print { x: 3, y: 4, cell: 2, turn: 3, light: 200, dark: 20 };
    let quad = Family::T36H11.paint_tag(&mut picture, Family::T36H11.codes()[9] ^ 1 << 17, &print).unwrap();
    let numbers: Vec<f32> = (0..1_024).flat_map(|start| <[f32; 8]>::from(quad.started(start))).collect();
    // One tag in all 1,024 places, so each is refused with 18.
    for (answer, rows, corners) in lists(&picture, &numbers, 4_096, 8_192) {
        assert!(answer == 0 && rows == [[18, 0, 0, 0]; 1_024].as_flattened());
        assert!(corners.iter().all(|number| number.to_bits() == 0));
    }
    for rows in [4_095, 3_072] {
        for (answer, rows_after, corners) in lists(&picture, &numbers, rows, 8_192) {
            assert!((answer, rows_after, corners) == (16, vec![99; rows], vec![1.5; 8_192]));
        }
    }
}

/// A list of one quad, refused for `number`: by 1 and 6 the whole call, which writes nothing; else the row is zero in every bit but for
/// the number, and so are the corners.
fn row_is_refused(number: u32, read: impl Fn(&mut [u64], &mut [f32]) -> u32) {
    let (mut rows, mut corners) = ([99; 4], [0.5; 8]);
    let answer = read(&mut rows, &mut corners);
    let expected = match number {
        1 | 6 => (number, [99; 4], [0.5f32.to_bits(); 8]),
        _ => (0, [number as u64, 0, 0, 0], [0; 8]),
    };
    assert_eq!((answer, rows, corners.map(f32::to_bits)), expected);
}

#[test]
fn a_refused_reading_writes_nothing_and_its_row_is_zero() {
    let family = Family::T36H11;
    let mut picture = Picture::packed(vec![0; 30 * 30], 30, 30);
    let print = Print { x: 3, y: 4, cell: 2, turn: 0, light: 200, dark: 20 };
    let quad = <[f32; 8]>::from(family.paint_tag(&mut picture, family.codes()[9] ^ 0b111, &print).unwrap());
    let (noise, grey) = (Numbers(17).bytes(900), vec![90; 900]);
    let (outside, range, sample) = ([29.5; 8], [16_384.0; 8], [29.5 - 1.0 / 4_096.0; 8]);
    let Table { edge, border, hamming_distance, codes } = family.table();
    for (number, plane, pitch, edge, quad) in [
        (1, &picture.bytes, 29, edge, &quad),
        (6, &picture.bytes, 30, 9, &quad),
        (8, &picture.bytes, 30, edge, &range),
        (9, &picture.bytes, 30, edge, &outside),
        (10, &picture.bytes, 30, edge, &sample),
        (11, &grey, 30, edge, &quad),
        (12, &noise, 30, edge, &quad),
        (13, &picture.bytes, 30, edge, &quad),
    ] {
        let (mut id, mut turn, mut differing, mut corners) = (77, 88, 66, [0.5; 8]);
        let (i, t, d) = (&mut id, &mut turn, &mut differing);
        let answer = c::try_decode_quad(plane, 30, 30, pitch, edge, border, hamming_distance, codes, quad, i, t, d, &mut corners);
        let family = if number == 6 { 5 } else { family.number() };
        let answer_in = c::try_decode_quad_in(plane, 30, 30, pitch, family, quad, i, t, d, &mut corners);
        assert_eq!((answer, answer_in), (number, number));
        assert_eq!((id, turn, differing, corners), (77, 88, 66, [0.5; 8]), "{number}");
        row_is_refused(number, |rows, corners| {
            c::try_decode_quads(plane, 30, 30, pitch, edge, border, hamming_distance, codes, quad, rows, corners)
        });
        row_is_refused(number, |rows, corners| c::try_decode_quads_in(plane, 30, 30, pitch, family, quad, rows, corners));
    }
}
