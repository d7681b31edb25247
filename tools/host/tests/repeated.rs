//! The same number twice in one list: every quad that shares its id with another is refused with 18. The rule has a definition of its
//! own here. All lists are read through the C interface, in a picture without filler and in one with padded lines, with the table lent
//! and, where it is a family's, by number.

mod lists;
mod numbers;
#[path = "sheets/tables.rs"]
mod tables;

use lists::{Eight, PRINT, below, grey, lower_right, moved, painted, random_list, started};
use muosleap::{FAMILIES, Family, Grid, NotFound, Picture, Print, Refusal, Shape, Table, c};
use numbers::Numbers;
use std::collections::BTreeSet;
use tables::{made, many, passing};

/// A row: refusal, id, turn, differing modules; and the bits of its corner numbers.
type Row = ([u64; 4], [u32; 8]);

/// A row that is zero in every bit but for the refusal.
const fn refused(number: u64) -> Row {
    ([number, 0, 0, 0], [0; 8])
}

/// The rule, from what each quad of a list reads as alone: a quad that reads with an id which another quad of the list reads with too is
/// 18. All else stays.
fn rule(alone: &[Row]) -> Vec<Row> {
    let id = |place: usize| (alone[place].0[0] == 0).then_some(alone[place].0[1]);
    let places = 0..alone.len();
    let shared = |place: usize| id(place).is_some() && places.clone().any(|other| other != place && id(other) == id(place));
    places.clone().map(|place| if shared(place) { refused(18) } else { alone[place] }).collect()
}

/// The same picture with padded lines, and noise as filler.
fn padded(picture: &Picture<Vec<u8>>) -> Picture<Vec<u8>> {
    let &Picture { width, height, .. } = picture;
    let stride = width + 13;
    let mut bytes = Numbers(0x2545_f491_4f6c_dd1d).bytes(stride * (height - 1) + width);
    bytes.chunks_mut(stride).zip(picture.lines()).for_each(|(to, line)| to[..width].copy_from_slice(line));
    Picture { bytes, width, height, stride }
}

/// Outputs for so many quads, with some more numbers: NaN with payloads as corners.
fn outputs(quads: usize, more: usize) -> (Vec<u64>, Vec<f32>) {
    let mut numbers = Numbers(0x9e37_79b9 + quads as u64);
    let rows = (0..4 * quads + more).map(|_| numbers.next()).collect();
    (rows, (0..8 * quads + more).map(|_| f32::from_bits(numbers.next() as u32 | 0x7f80_0001)).collect())
}

fn bits(numbers: &[f32]) -> Vec<u32> {
    numbers.iter().map(|number| number.to_bits()).collect()
}

/// A picture, and the table that reads it, which may be a family's.
struct Scene<'a> {
    table: Table<'a>,
    family: Option<Family>,
    /// Without filler, and with padded lines.
    pictures: [Picture<Vec<u8>>; 2],
}

impl<'a> Scene<'a> {
    fn of(family: Family, picture: Picture<Vec<u8>>) -> Scene<'a> {
        Scene { family: Some(family), ..Scene::lent(family.table(), picture) }
    }

    fn lent(table: Table<'a>, picture: Picture<Vec<u8>>) -> Scene<'a> {
        Scene { table, family: None, pictures: [picture.clone(), padded(&picture)] }
    }

    /// Reads in both pictures, in each with the table lent and by number. All have to say the same.
    fn read<A: PartialEq>(&self, read: impl Fn(&Picture<Vec<u8>>, Option<Family>) -> A) -> A {
        let first = read(&self.pictures[0], None);
        for picture in &self.pictures {
            assert!([None, self.family].iter().all(|&family| read(picture, family) == first), "the readers differ");
        }
        first
    }

    fn alone(&self, quad: &Eight) -> Row {
        let Table { edge, border, hamming_distance: most, codes } = self.table;
        self.read(|&Picture { ref bytes, width: w, height: h, stride }, family| {
            let (mut id, mut turn, mut differing, mut out) = (0, 0, 0, [0.0; 8]);
            let (i, t, d) = (&mut id, &mut turn, &mut differing);
            let answer = match family {
                Some(family) => c::try_decode_quad_in(bytes, w, h, stride, family.number(), quad, i, t, d, &mut out),
                None => c::try_decode_quad(bytes, w, h, stride, edge, border, most, codes, quad, i, t, d, &mut out),
            };
            ([answer as u64, id as u64, turn as u64, differing as u64], out.map(f32::to_bits))
        })
    }

    /// What a list is answered, and what its outputs hold afterwards.
    fn call(&self, quads: &[Eight], rows: &[u64], corners: &[f32]) -> (u32, Vec<u64>, Vec<u32>) {
        let Table { edge, border, hamming_distance: most, codes } = self.table;
        self.read(|&Picture { ref bytes, width: w, height: h, stride }, family| {
            let (mut r, mut o, quads) = (rows.to_vec(), corners.to_vec(), quads.as_flattened());
            let answer = match family {
                Some(family) => c::try_decode_quads_in(bytes, w, h, stride, family.number(), quads, &mut r, &mut o),
                None => c::try_decode_quads(bytes, w, h, stride, edge, border, most, codes, quads, &mut r, &mut o),
            };
            (answer, r, bits(&o))
        })
    }

    /// The rows of a list. What lies beyond them in the outputs stays as it was.
    fn list(&self, quads: &[Eight]) -> Vec<Row> {
        let (exact, longer) = (self.list_into(quads, 0), self.list_into(quads, 5));
        assert!(exact == longer);
        exact
    }

    fn list_into(&self, quads: &[Eight], more: usize) -> Vec<Row> {
        let (rows, corners) = outputs(quads.len(), more);
        let (answer, rows_after, corners_after) = self.call(quads, &rows, &corners);
        assert_eq!(answer, 0);
        let (four, eight) = (4 * quads.len(), 8 * quads.len());
        assert!(rows_after[four..] == rows[four..] && corners_after[eight..] == bits(&corners[eight..]));
        let (rows, corners) = (rows_after[..four].as_chunks().0, corners_after[..eight].as_chunks().0);
        rows.iter().copied().zip(corners.iter().copied()).collect()
    }

    /// The rows of a list, which have to be the rule's.
    fn held(&self, quads: &[Eight]) -> Vec<Row> {
        let alone: Vec<Row> = quads.iter().map(|quad| self.alone(quad)).collect();
        let rows = self.list(quads);
        for (place, (row, expected)) in rows.iter().zip(rule(&alone)).enumerate() {
            assert_eq!(*row, expected, "quad {place} of {}", quads.len());
        }
        assert_eq!(rows.len(), quads.len());
        rows
    }

    /// The rows are the rule's, and have these refusals; 0 for a tag.
    fn has(&self, quads: &[Eight], refusals: &[u64]) {
        let rows = self.held(quads);
        assert!(rows.iter().map(|row| row.0[0]).eq(refusals.iter().copied()), "{rows:?}, expected {refusals:?}");
    }
}

#[test]
fn an_id_met_twice_and_three_times() {
    for family in FAMILIES {
        let [five, seven, nine] = [5, 7, 9].map(|id| family.codes()[id]);
        let (picture, quads) = painted(&family.table(), &[seven, five, seven, nine, seven]);
        let scene = Scene::of(family, picture);
        let [p, five, q, nine, r] = quads[..] else { panic!("five tags") };
        scene.has(&[p, q], &[18, 18]);
        scene.has(&[p, q, r], &[18, 18, 18]);
        scene.has(&[p, five, q], &[18, 0, 18]);
        scene.has(&[five, p, q], &[0, 18, 18]);
        scene.has(&[p, q, five], &[18, 18, 0]);
        scene.has(&[nine, r, p, five, q], &[0, 18, 18, 0, 18]);
        scene.has(&quads, &[18, 0, 18, 0, 18]);
        // One of them, and none.
        scene.has(&[nine, r, five], &[0, 0, 0]);
        scene.has(&[nine, five], &[0, 0]);
    }
}

#[test]
fn an_id_met_up_to_1_024_times() {
    for family in FAMILIES {
        let (picture, quads) = painted(&family.table(), &[family.codes()[7]; 1_024]);
        let scene = Scene::of(family, picture);
        for times in [2, 4, 255, 256, 257, 512, 1_023, 1_024] {
            scene.has(&quads[..times], &vec![18; times]);
        }
        scene.has(&[quads[1_000]; 1_024], &[18; 1_024]);
    }
}

#[test]
fn one_quad_from_two_starts_and_the_very_same_quad() {
    for (family, id) in FAMILIES.into_iter().flat_map(|family| [0, 7, family.codes().len() - 1].map(|id| (family, id))) {
        let (picture, quads) = painted(&family.table(), &[family.codes()[id]]);
        let (scene, quad) = (Scene::of(family, picture), quads[0]);
        for (one, other) in (0..4).flat_map(|one| (0..4).map(move |other| (one, other))) {
            scene.has(&[started(quad, one)], &[0]);
            scene.has(&[started(quad, one), started(quad, other)], &[18, 18]);
        }
        scene.has(&[0, 1, 2, 3].map(|start| started(quad, start)), &[18; 4]);
    }
}

#[test]
fn the_id_counts_not_how_it_was_read() {
    // Worn differently.
    let family = Family::T36H11;
    let word = family.codes()[7];
    let (picture, quads) = painted(&family.table(), &[word, word ^ 1, word ^ 0b11, word ^ 0b111]);
    let scene = Scene::of(family, picture);
    let differing: Vec<[u64; 4]> = quads.iter().map(|quad| scene.alone(quad).0).collect();
    assert_eq!(differing, [[0, 7, 0, 0], [0, 7, 0, 1], [0, 7, 0, 2], [13, 0, 0, 0]]);
    scene.has(&quads, &[18, 18, 18, 13]);
    scene.has(&[quads[3], started(quads[2], 1)], &[13, 0]);
    // A code that stands in the table twice is read as the first one.
    let table = Table { edge: 4, border: 1, hamming_distance: 1, codes: &[0x2EA5, 0x231B, 0x346A, 0x231B] };
    let (picture, quads) = painted(&table, table.codes);
    let scene = Scene::lent(table, picture);
    assert_eq!(scene.alone(&quads[3]).0, [0, 1, 0, 0]);
    scene.has(&quads, &[0, 18, 0, 18]);
}

#[test]
fn two_ids_interleaved() {
    for family in FAMILIES {
        let last = family.codes().len() - 1;
        let [a, b, other] = [0, last, last / 2].map(|id| family.codes()[id]);
        let (picture, quads) = painted(&family.table(), &[a, b, a, b, other, a]);
        let scene = Scene::of(family, picture);
        let [a0, b0, a1, b1, other, a2] = quads[..] else { panic!("six tags") };
        scene.has(&[a0, b0, a1, b1], &[18; 4]);
        scene.has(&[a0, b0, other, b1, a1], &[18, 18, 0, 18, 18]);
        scene.has(&[b0, a0, a1, other, a2], &[0, 18, 18, 0, 18]);
        scene.has(&[a2, b1, other], &[0, 0, 0]);
        scene.has(&quads, &[18, 18, 18, 18, 0, 18]);
    }
}

/// A word that differs from a code in as many bits as are too many, and is read as no other tag.
fn far_off(table: &Table, code: u64) -> u64 {
    let flips = (1 << table.hamming_distance) - 1;
    let mut words = (0..=(table.edge * table.edge - table.hamming_distance) as u32).map(|place| code ^ flips << place);
    words.find(|&word| matches!(table.best_tag(word), Err(NotFound::NoCode { .. }))).unwrap()
}

/// A picture with tag `id` once as it is, and about it quads that are refused by themselves: for each number from 8 to 13 one, of the same
/// tag where there can be one.
fn with_refused_quads(family: Family, id: usize) -> (Scene<'static>, Eight, [Eight; 6]) {
    let (table, code) = (family.table(), family.codes()[id]);
    let (mut picture, quads) = painted(&table, &[code, code, far_off(&table, code)]);
    grey(&mut picture, &quads[1], &table);
    let mut range = quads[0];
    range[3] = f32::NAN;
    let outside = moved(quads[0], picture.width as f32, 0.0);
    let refused = [range, outside, lower_right(&picture), [1.0; 8], quads[1], quads[2]];
    (Scene::of(family, picture), quads[0], refused)
}

#[test]
fn a_refused_quad_makes_no_other_18() {
    for (family, id) in FAMILIES.into_iter().flat_map(|family| [0, 7, family.codes().len() - 1].map(|id| (family, id))) {
        let (scene, tag, bad) = with_refused_quads(family, id);
        assert_eq!(scene.alone(&tag).0, [0, id as u64, 0, 0]);
        for (number, quad) in (8..=13).zip(bad) {
            // Of tag 0 too: the id in a refused row is no id.
            scene.has(&[tag, quad], &[0, number]);
            scene.has(&[quad, tag], &[number, 0]);
            scene.has(&[quad, tag, quad], &[number, 0, number]);
            scene.has(&[quad, quad], &[number, number]);
            scene.has(&[quad, started(quad, 3), quad, started(quad, 2)], &[number; 4]);
            scene.has(&[tag, quad, started(tag, 1), quad], &[18, number, 18, number]);
        }
        let all = [&bad[..], &[tag], &bad].concat();
        scene.has(&all, &[8, 9, 10, 11, 12, 13, 0, 8, 9, 10, 11, 12, 13]);
        let twice = [&[tag], &bad[..], &[started(tag, 3)]].concat();
        scene.has(&twice, &[18, 8, 9, 10, 11, 12, 13, 18]);
    }
}

#[test]
fn a_list_of_1_024_ids() {
    let codes = many(8, 1_024);
    let table = passing(Table { edge: 8, border: 1, hamming_distance: 3, codes: &codes });
    let (picture, quads) = painted(&table, &codes);
    let scene = Scene::lent(table, picture);
    let rows = scene.held(&quads);
    assert!(rows.iter().enumerate().all(|(id, row)| row.0 == [0, id as u64, 0, 0]));
    // The tag at one place of the list at another place too: these two are 18, and all others are read.
    for (one, other) in [(0, 1_023), (1_023, 0), (0, 1), (1_022, 1_023), (511, 512), (255, 256), (767, 3), (100, 1_000)] {
        for start in [0, 3] {
            let mut list = quads.clone();
            list[other] = started(quads[one], start);
            let expected = |place: usize| if place == one || place == other { refused(18) } else { rows[place] };
            assert!(scene.held(&list).into_iter().eq((0..1_024).map(expected)), "{one}, {other}");
        }
    }
    // Every id but one twice, far apart.
    let twice: Vec<Eight> = (0..1_023).map(|place| quads[place % 512]).collect();
    let expected: Vec<u64> = (0..1_023).map(|place| if place == 511 { 0 } else { 18 }).collect();
    scene.has(&twice, &expected);
    // With nothing but refused quads between.
    let mut between = vec![[f32::NAN; 8]; 1_024];
    (between[0], between[1_023]) = (quads[1_023], started(quads[1_023], 2));
    let expected: Vec<u64> = (0..1_024).map(|place| if place % 1_023 == 0 { 18 } else { 8 }).collect();
    scene.has(&between, &expected);
}

#[test]
fn lists_of_0_to_1_025_quads() {
    let family = Family::T36H11;
    let (picture, quads) = painted(&family.table(), &family.codes()[..4]);
    let scene = Scene::of(family, picture);
    scene.has(&[], &[]);
    scene.has(&quads[..1], &[0]);
    scene.has(&quads[..2], &[0, 0]);
    scene.has(&[quads[3]; 2], &[18, 18]);
    for length in (3..40).chain([1_023, 1_024]) {
        let mut list = vec![[1.0; 8]; length];
        let mut expected = vec![11; length];
        (list[0], expected[0]) = (quads[2], 0);
        scene.has(&list, &expected);
        (list[length - 1], expected[0], expected[length - 1]) = (quads[2], 18, 18);
        scene.has(&list, &expected);
    }
    for quad in [quads[0], [1.0; 8]] {
        let (rows, corners) = outputs(1_025, 7);
        assert!(scene.call(&[quad; 1_025], &rows, &corners) == (16, rows, bits(&corners)));
    }
}

/// Two sheets on the belt: the one with tags 0 to 8 in three rows of three, and over its right column a strip with tags 20, 7 and 21.
#[test]
fn two_sheets_overlap() {
    for family in FAMILIES {
        let (table, codes) = (family.table(), family.codes());
        let strip_codes = [20, 7, 21].map(|id| codes[id]);
        let strip = Table { codes: &strip_codes, ..table };
        let (grid, column) = (Grid { rows: 3, columns: 3, gap: 3 }, Grid { rows: 3, columns: 1, gap: 2 });
        let Shape { width, height } = grid.shape(&table, 3);
        let (width, height) = (width + 40, height + 10);
        let [mut belt, mut over] = [0, 1].map(|_| Picture::packed(vec![0; width * height], width, height));
        let print = Print { x: 2, y: 3, cell: 3, ..PRINT };
        let mut quads = family.paint_sheet(&mut belt, &grid, &print).unwrap();
        // The strip lies half over the tags 2, 5 and 8, and stands on its head.
        let x = print.x + 2 * (table.side() + 3) * 3 + table.side() * 3 / 2;
        quads.extend(strip.paint_sheet(&mut over, &column, &Print { x: x + 4, turn: 3, ..print }).unwrap());
        belt.bytes.chunks_mut(width).zip(over.lines()).for_each(|(to, line)| to[x..].copy_from_slice(&line[x..]));
        let rows = Scene::of(family, belt).held(&quads.into_iter().map(Eight::from).collect::<Vec<_>>());
        let said = |place: usize| (rows[place].0[0], rows[place].0[1]);
        assert_eq!([7, 10].map(said), [(18, 0); 2]);
        assert_eq!([0, 1, 3, 4, 6, 9, 11].map(said), [0, 1, 3, 4, 6, 20, 21].map(|id| (0, id)), "{family:?}");
    }
}

/// All of a row but the turn.
fn but_for_the_turn(&([refusal, id, _, differing], corners): &Row) -> ([u64; 3], [u32; 8]) {
    ([refusal, id, differing], corners)
}

/// Random lists of this table are held to the rule. Where it can be read one way only, a list with other starts says the same but for the
/// turns. Answers the refusals that were met.
fn random_lists(table: Table, family: Option<Family>, one_way: bool) -> BTreeSet<u64> {
    let (mut numbers, mut met) = (Numbers(0x5851_f42d_4c95_7f2d), BTreeSet::new());
    for _ in 0..300 {
        let (picture, list) = random_list(&table, &mut numbers);
        let scene = Scene { family, ..Scene::lent(table, picture) };
        let rows = scene.held(&list);
        met.extend(rows.iter().map(|row| row.0[0]));
        if one_way {
            let other: Vec<Eight> = list.iter().map(|&quad| started(quad, below(4, &mut numbers))).collect();
            assert!(scene.held(&other).iter().map(but_for_the_turn).eq(rows.iter().map(but_for_the_turn)), "other starts");
        }
    }
    met
}

#[test]
fn random_lists_of_families() {
    for family in FAMILIES {
        let met = random_lists(family.table(), Some(family), true);
        assert_eq!(Vec::from_iter(met), [0, 8, 9, 10, 11, 12, 13, 18], "{family:?}");
    }
}

#[test]
fn random_lists_of_private_tables() {
    for (edge, border, hamming_distance) in [(3, 1, 1), (4, 2, 2), (5, 3, 3), (6, 4, 5), (7, 1, 4), (8, 2, 9)] {
        let codes = made(edge, hamming_distance, 40);
        let table = passing(Table { edge, border, hamming_distance, codes: &codes });
        let met = random_lists(table, None, true);
        assert!([0, 18].iter().all(|number| met.contains(number)), "{edge}: {met:?}");
    }
    // Tables that fail the likeness check: the same codes twice, codes that are others turned, hardly any word that is not read.
    let [twice, turned] = [[0x231B, 0x2EA5, 0x231B, 0x2EA5], [0x231B, 0x7D01, 0x2EA5, 0x346A]];
    for (hamming_distance, codes) in [(1, twice), (2, twice), (1, turned), (5, turned), (16, turned)] {
        let table = Table { edge: 4, border: 1, hamming_distance, codes: &codes };
        assert_eq!(table.check_likeness(), Err(Refusal::CodesAlike));
        let met = random_lists(table, None, false);
        assert!([0, 18].iter().all(|number| met.contains(number)), "{hamming_distance}: {met:?}");
    }
}
