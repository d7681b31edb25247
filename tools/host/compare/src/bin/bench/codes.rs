//! Words, levels, quads, padded lines, the likeness check.

use crate::measure::{Times, alone, both, timed};
use crate::painting::{SHEETS, Tags, painted, painter, sheet_painter};
use muosleap::detector::{bit_code, rotate_bits};
use muosleap::{Family, NotFound, Picture, Quad, Shape, Table, c};
use muosleap_compare::{Numbers, SEED, pictures};
use oracle::image::GrayImage;
use oracle::original::detector as original;
use std::hint::black_box;

const FAMILY: Family = Family::T36H11;

/// Sums what a side answers to each word, so that every answer is used.
fn each_word(words: &[u64], answer: impl Fn(u64) -> usize) -> usize {
    words.iter().map(|&word| answer(black_box(word))).sum()
}

/// Both sides over the same words, each of which has the turn, or none.
fn search(words: &[u64], turn: Option<u8>) -> Times {
    let table = FAMILY.table();
    let ours = |word: u64| table.best_tag(word).map_or(0, |found| found.id + 1);
    let theirs = |word: u64| {
        let found = original::best_tag(word, table.hamming_distance, black_box(table.codes), table.edge);
        found.map_or(0, |(id, _)| id + 1)
    };
    for &word in words {
        assert_eq!(table.best_tag(word).ok().map(|found| found.turn), turn);
        assert_eq!(ours(word), theirs(word));
    }
    both(words.len(), || timed(|| each_word(words, theirs)), || timed(|| each_word(words, ours)))
}

fn turned(word: u64, edge: u8) -> u64 {
    rotate_bits(word, edge).unwrap()
}

/// One turn of each word at an edge, which neither side is told beforehand.
fn turns(words: &[u64], edge: u8) -> Times {
    let edge = || black_box(edge);
    for &word in words {
        assert_eq!(turned(word, edge()), original::turned(word, edge()));
    }
    both(
        words.len(),
        || timed(|| each_word(words, |word| original::turned(word, edge()) as usize & 1)),
        || timed(|| each_word(words, |word| turned(word, edge()) as usize & 1)),
    )
}

/// Turns at four edges, and the search.
pub fn words() -> Vec<(String, Times)> {
    let clean = FAMILY.codes().to_vec();
    let mut numbers = Numbers::from(SEED + 6_100);
    let misread: Vec<u64> = clean.iter().map(|&code| code ^ 1 << numbers.below(18) ^ 1 << (18 + numbers.below(18))).collect();
    let next = |words: &Vec<u64>| -> Vec<u64> { words.iter().map(|&word| turned(word, FAMILY.table().edge)).collect() };
    let third = next(&clean);
    let second = next(&third);
    let first = next(&second);
    let random = std::iter::repeat_with(|| numbers.next() >> 28);
    let is_unread = |word: &u64| matches!(FAMILY.table().best_tag(*word), Err(NotFound::NoCode { .. }));
    let unread: Vec<u64> = random.filter(is_unread).take(587).collect();
    vec![
        ("`rotate_bits`, edge 4".into(), turns(&clean, 4)),
        ("`rotate_bits`, edge 5".into(), turns(&clean, 5)),
        ("`rotate_bits`, edge 6".into(), turns(&clean, 6)),
        ("`rotate_bits`, edge 8, by the formula".into(), turns(&clean, 8)),
        ("`best_tag`, clean, each of the 587 codes".into(), search(&clean, Some(0))),
        ("`best_tag`, clean, at turn 1".into(), search(&first, Some(1))),
        ("`best_tag`, clean, at turn 2".into(), search(&second, Some(2))),
        ("`best_tag`, clean, at turn 3".into(), search(&third, Some(3))),
        ("`best_tag`, two bits misread".into(), search(&misread, Some(0))),
        ("`best_tag`, unread".into(), search(&unread, None)),
    ]
}

/// The places of a quad's modules, border 2 and edge 6, as pairs of f32.
fn places(quad: &Quad) -> Vec<(f32, f32)> {
    let line = |get: fn(&Quad, usize) -> f32, i: f64, j: f64| {
        let [p, q, r, s] = [0, 1, 2, 3].map(|k| get(quad, k) as f64);
        ((p + q + r + s) * 10.0 + (2.0 * i - 9.0) * (r + s - p - q) + (2.0 * j - 9.0) * (q + r - p - s)) / 40.0
    };
    let place = |i: usize, j: usize| {
        let (i, j) = (i as f64, j as f64);
        (line(|quad, k| quad.corners[k].x, i, j) as f32, line(|quad, k| quad.corners[k].y, i, j) as f32)
    };
    (2..8).flat_map(|i| (2..8).map(move |j| place(i, j))).collect()
}

/// A picture with 144 tags, as both sides take it.
struct Sheet {
    image: GrayImage,
    quads: Vec<Quad>,
    places: Vec<Vec<(f32, f32)>>,
}

impl Sheet {
    fn new() -> Sheet {
        let shape = Shape { width: 1920, height: 1080 };
        let (picture, quads) = pictures::sheet(shape, 6, &mut Numbers::from(SEED + 6_200));
        let image = GrayImage::from_raw(shape.width as u32, shape.height as u32, picture.bytes).unwrap();
        let quads = quads[..144].to_vec();
        Sheet { image, places: quads.iter().map(places).collect(), quads }
    }

    fn picture(&self) -> Picture<&[u8]> {
        Picture::packed(self.image.as_raw(), self.image.width() as usize, self.image.height() as usize)
    }

    /// What the original does after it has the places: bits, then the search.
    fn theirs(&self, k: usize) -> Option<usize> {
        let table = FAMILY.table();
        let bits = original::bit_code(&self.image, &self.places[k], 10, 3)?;
        original::best_tag(bits, table.hamming_distance, black_box(table.codes), table.edge).map(|(id, _)| id)
    }

    fn read(&self, picture: &Picture<&[u8]>, k: usize) -> Option<usize> {
        FAMILY.try_decode_quad(picture, &self.quads[k]).ok().map(|tag| tag.id)
    }

    /// Reads all quads as a list, again and again into the same outputs.
    fn lister<'a>(&self, picture: Picture<&'a [u8]>) -> impl FnMut() -> u32 + use<'a> {
        let rows = FAMILY.try_decode_quads(&picture, &self.quads).unwrap();
        assert!(rows.into_iter().map(|row| row.unwrap().id).eq(0..144));
        let Picture { bytes, width, height, stride } = picture;
        let quads: Vec<f32> = self.quads.iter().flat_map(|&quad| <[f32; 8]>::from(quad)).collect();
        let (mut rows, mut corners) = (vec![1; 4 * 144], vec![1.0; 8 * 144]);
        move || c::try_decode_quads_in(bytes, width, height, stride, FAMILY.number(), &quads, &mut rows, &mut corners)
    }

    fn levels(&self) -> Times {
        let levels: Vec<Vec<u8>> = self.places.iter().map(|places| self.samples(places)).collect();
        let theirs = |k: usize| original::bit_code(&self.image, &self.places[k], 10, 3);
        let ours = |k: usize| bit_code(black_box(&levels[k]), 10, 3).ok();
        assert!((0..144).all(|k| ours(k).is_some() && ours(k) == theirs(k)));
        let sum = |read: &dyn Fn(usize) -> Option<u64>| (0..144).filter_map(read).fold(0, |sum, word| sum ^ word);
        both(144, || timed(|| sum(&theirs)), || timed(|| sum(&ours)))
    }

    fn samples(&self, places: &[(f32, f32)]) -> Vec<u8> {
        places.iter().map(|(x, y)| self.image.get_pixel(x.round() as u32, y.round() as u32).0[0]).collect()
    }

    fn one_by_one(&self) -> Times {
        let picture = self.picture();
        let ours = |k: usize| self.read(&picture, k);
        assert!((0..144).all(|k| ours(k) == Some(k) && self.theirs(k) == Some(k)));
        let sum = |read: &dyn Fn(usize) -> Option<usize>| (0..144).filter_map(read).sum::<usize>();
        both(144, || timed(|| sum(&|k| self.theirs(k))), || timed(|| sum(&ours)))
    }

    fn list(&self) -> Times {
        let mut ours = self.lister(self.picture());
        both(1, || timed(|| (0..144).filter_map(|k| self.theirs(k)).sum::<usize>()), || timed(&mut ours))
    }
}

/// Levels and quads.
pub fn quads() -> Vec<(String, Times)> {
    let sheet = Sheet::new();
    vec![
        ("`bit_code`, 36 levels".into(), sheet.levels()),
        ("`try_decode_quad_in`, one quad".into(), sheet.one_by_one()),
        ("`try_decode_quads_in`, a list of 144 quads".into(), sheet.list()),
    ]
}

/// The likeness check.
pub fn likeness() -> Vec<(String, Times)> {
    let mut numbers = Numbers::from(SEED + 6_300);
    let codes: Vec<u64> = (0..1_024).map(|_| numbers.next()).collect();
    let large = Table { edge: 8, border: 1, hamming_distance: 3, codes: &codes };
    assert_eq!((FAMILY.table().check_likeness(), large.check_likeness()), (Ok(()), Ok(())));
    vec![
        ("`check_likeness`, T36H11, 587 codes".into(), alone(1, || timed(|| FAMILY.table().check_likeness()))),
        ("`check_likeness`, 1,024 codes of edge 8".into(), alone(1, || timed(|| large.check_likeness()))),
    ]
}

/// Padded lines against lines without filler.
pub fn padded() -> Vec<(String, Times)> {
    let sheet = Sheet::new();
    let packed = sheet.picture();
    let Picture { width, height, .. } = packed;
    let padded = pictures::padded(&packed, 2_048, &mut Numbers::from(SEED + 6_400));
    let padded = Picture { bytes: &padded.bytes[..], width, height, stride: padded.stride };
    let sum = |picture: &Picture<&[u8]>| (0..144).filter_map(|k| sheet.read(picture, k)).sum::<usize>();
    assert!((0..144).all(|k| sheet.read(&packed, k) == Some(k) && sheet.read(&padded, k) == Some(k)));
    assert!(painted(width, height, width).lines().eq(painted(width, height, 2_048).lines()));
    let (mut list, mut padded_list) = (sheet.lister(packed), sheet.lister(padded));
    let (paint, paint_padded) = (painter(width, height, width), painter(width, height, 2_048));
    let [paint_sheet, paint_padded_sheet] = [width, 2_048].map(|stride| sheet_painter(&SHEETS[0], stride, Tags::Numbered));
    vec![
        ("`try_decode_quad_in`, one quad".into(), both(144, || timed(|| sum(&packed)), || timed(|| sum(&padded)))),
        ("`try_decode_quads_in`, a list of 144 quads".into(), both(1, || timed(&mut list), || timed(&mut padded_list))),
        ("`paint_tag_in`, cell 20".into(), both(1, paint, paint_padded)),
        ("`paint_sheet_in`, 12 × 12 tags, cell 7, gap 3".into(), both(1, paint_sheet, paint_padded_sheet)),
    ]
}
