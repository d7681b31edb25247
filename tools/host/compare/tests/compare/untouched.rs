//! A refused call leaves every lent buffer as it was, bit for bit: NaN payloads, the worklist, planes with their filler, the
//! small outputs; beside 13 the search writes its count alone. An accepted one leaves what lies beyond its answer, and filler. This
//! needs no file of the original's.

use muosleap::{Family, Picture, c};
use muosleap_compare::{Numbers, SEED, pictures};

/// The bits of what is lent to a call.
trait Bits: Clone {
    fn bits(&self) -> Vec<u64>;
}

macro_rules! bits_of_numbers {
    ($($kind:ty: $bits:expr),*) => {
        $(impl Bits for $kind {
            fn bits(&self) -> Vec<u64> {
                vec![$bits(*self)]
            }
        })*
    };
}

bits_of_numbers!(u8: u64::from, u32: u64::from, u64: u64::from, usize: |n| n as u64, f32: |x: f32| x.to_bits() as u64);

impl<T: Bits> Bits for Vec<T> {
    fn bits(&self) -> Vec<u64> {
        self.iter().flat_map(T::bits).collect()
    }
}

impl<T: Bits, const N: usize> Bits for [T; N] {
    fn bits(&self) -> Vec<u64> {
        self.iter().flat_map(T::bits).collect()
    }
}

macro_rules! bits_of_tuples {
    ($(($($name:ident),*)),*) => {
        $(impl<$($name: Bits),*> Bits for ($($name,)*) {
            #[allow(non_snake_case)]
            fn bits(&self) -> Vec<u64> {
                let ($($name,)*) = self;
                [$($name.bits()),*].concat()
            }
        })*
    };
}

bits_of_tuples!((A, B), (A, B, D), (A, B, D, E), (A, B, D, E, F));

/// The calls so far, and the numbers that buffers are filled with.
struct Calls {
    numbers: Numbers,
    refused: u64,
    words: u64,
}

impl Calls {
    /// Calls with what is lent, and expects the refusal and everything as it was.
    fn refuse<L: Bits>(&mut self, name: &str, number: u32, mut lent: L, call: impl FnOnce(&mut L) -> u32) {
        let before = lent.bits();
        let answer = call(&mut lent);
        assert_eq!(answer, number, "{name}");
        assert!(lent.bits() == before, "{name}: a buffer changed in a call that was refused with {number}");
        self.refused += 1;
        self.words += before.len() as u64;
    }

    /// Any bits, NaN with a payload in half of the places, quiet and signalling.
    fn floats(&mut self, count: usize) -> Vec<f32> {
        let mut number = || self.numbers.next();
        let float = |_| f32::from_bits(number() as u32 | if number() % 2 == 0 { 0x7f80_0000 } else { 0 });
        (0..count).map(float).collect()
    }

    fn eight(&mut self) -> [f32; 8] {
        self.floats(8).try_into().unwrap()
    }

    fn longs(&mut self, count: usize) -> Vec<u64> {
        (0..count).map(|_| self.numbers.next()).collect()
    }

    fn ints(&mut self, count: usize) -> Vec<u32> {
        (0..count).map(|_| self.numbers.next() as u32).collect()
    }

    fn bytes(&mut self, count: usize) -> Vec<u8> {
        (0..count).map(|_| self.numbers.next() as u8).collect()
    }

    /// The outputs of a search.
    fn found(&mut self) -> (usize, u8, u8) {
        (self.numbers.next() as usize, self.numbers.next() as u8, self.numbers.next() as u8)
    }

    /// A pitch for planes of 20 × 20 pixels.
    fn pitch(&mut self) -> usize {
        [20, 21, 33, 40, 120][self.numbers.below(5)]
    }

    /// A plane of 20 × 20 pixels, with noise as filler.
    fn padded(&mut self, pixels: &[u8], pitch: usize) -> Vec<u8> {
        pictures::padded(&Picture::packed(pixels, 20, 20), pitch, &mut self.numbers).bytes
    }
}

pub fn main() {
    let mut calls = Calls { numbers: Numbers::from(SEED + 5_000), refused: 0, words: 0 };
    for _ in 0..20 {
        words(&mut calls);
        levels(&mut calls);
        quads(&mut calls);
        frames(&mut calls);
        lists(&mut calls);
        reports(&mut calls);
        painter(&mut calls);
        sheets(&mut calls);
        blur(&mut calls);
        response(&mut calls);
        clusters(&mut calls);
        centers(&mut calls);
    }
    let rows = beyond_the_answer(&mut calls);
    let paintings = filler(&mut calls);
    println!(
        "refused calls leave every buffer as it was, NaN payloads and filler included: {} calls, {} numbers",
        calls.refused, calls.words
    );
    println!("accepted calls leave what lies beyond their answer: {rows} calls");
    println!("accepted paintings leave filler: {paintings} calls");
}

fn words(calls: &mut Calls) {
    for edge in [0, 9, 64, 255] {
        let word = calls.numbers.next();
        calls.refuse("rotate_bits", 6, word, |word| c::rotate_bits(0x231B, edge, word));
    }
    let codes = Family::T16H5.codes();
    let many = vec![1u64; 1_025];
    let outside = [0x231B, 0x1_0000];
    let tables: [(u8, &[u64], u8); 8] =
        [(1, codes, 0), (1, codes, 9), (0, codes, 4), (65, codes, 4), (1, &[], 4), (1, &many, 4), (1, &outside, 4), (1, &[2], 1)];
    for (distance, codes, edge) in tables {
        let lent = calls.found();
        let lent = (lent, calls.numbers.next() as usize);
        calls.refuse("best_tag", 6, lent, |((id, turn, differing), compared)| {
            c::best_tag(0x231B, distance, codes, edge, id, turn, differing, compared)
        });
    }
    // Beside 13 the count is written, and nothing else.
    let (lent, mut compared) = (calls.found(), calls.numbers.next() as usize);
    let unread =
        |id: &mut _, turn: &mut _, differing: &mut _, compared| c::best_tag(0x231A, 1, codes, 4, id, turn, differing, compared);
    calls.refuse("best_tag", 13, lent, |(id, turn, differing)| unread(id, turn, differing, &mut compared));
    assert_eq!(compared, 120);
}

fn levels(calls: &mut Calls) {
    let rows: [(u32, &[u8], u8, u32); 5] =
        [(15, &[], 10, 3), (15, &[0; 65], 10, 3), (11, &[0, 49], 10, 3), (11, &[7], 0, 0), (12, &[0, 51, 17], 10, 0)];
    for (number, levels, band, allowed) in rows {
        let word = calls.numbers.next();
        calls.refuse("bit_code", number, word, |word| c::bit_code(levels, band, allowed, word));
    }
}

/// Corners and what they are refused with: on a plane of 20 × 20 pixels of which each is 90.
fn bad_quads() -> Vec<(u32, [f32; 8])> {
    let good = [0.5, 0.5, 18.5, 0.5, 18.5, 18.5, 0.5, 18.5];
    let with = |place: usize, value: f32| {
        let mut quad = good;
        quad[place] = value;
        quad
    };
    let out_of_range = [f32::NAN, -f32::NAN, f32::from_bits(0x7f80_1234), f32::INFINITY, f32::NEG_INFINITY, 16_384.0, -16_384.0];
    let mut quads: Vec<(u32, [f32; 8])> = Vec::new();
    for place in 0..8 {
        quads.extend(out_of_range.iter().map(|&value| (8, with(place, value))));
        quads.extend([19.5, 16_383.0].map(|value| (9, with(place, value))));
    }
    let edge = 19.5 - 1.0 / 4_096.0;
    quads.push((10, [edge; 8]));
    quads.push((11, good));
    quads
}

/// A plane and the outputs of a reading.
fn lent(calls: &mut Calls, pixels: &[u8], pitch: usize) -> (Vec<u8>, usize, u8, u8, [f32; 8]) {
    let (id, turn, differing) = calls.found();
    (calls.padded(pixels, pitch), id, turn, differing, calls.eight())
}

fn quads(calls: &mut Calls) {
    let grey = [90u8; 400];
    let stripes: Vec<u8> = (0..400).map(|k| if k % 20 < 10 { 30 } else { 200 }).collect();
    let unsure: Vec<u8> = (0..400).map(|k| [0, 60, 28, 29][k % 4]).collect();
    let good = [0.5, 0.5, 18.5, 0.5, 18.5, 18.5, 0.5, 18.5];
    let pitch = calls.pitch();
    for (number, quad) in bad_quads() {
        let all = lent(calls, &grey, pitch);
        calls.refuse("try_decode_quad_in", number, all, |(plane, id, turn, differing, corners)| {
            c::try_decode_quad_in(plane, 20, 20, pitch, 3, &quad, id, turn, differing, corners)
        });
        let all = lent(calls, &grey, pitch);
        calls.refuse("try_decode_quad", number, all, |(plane, id, turn, differing, corners)| {
            c::try_decode_quad(plane, 20, 20, pitch, 4, 2, 1, &[0x231B], &quad, id, turn, differing, corners)
        });
    }
    for (number, pixels) in [(13, &stripes), (12, &unsure)] {
        let all = lent(calls, pixels, pitch);
        calls.refuse("try_decode_quad_in", number, all, |(plane, id, turn, differing, corners)| {
            c::try_decode_quad_in(plane, 20, 20, pitch, 3, &good, id, turn, differing, corners)
        });
    }
    for family in [5, 255] {
        let all = lent(calls, &grey, pitch);
        calls.refuse("try_decode_quad_in", 6, all, |(plane, id, turn, differing, corners)| {
            c::try_decode_quad_in(plane, 20, 20, pitch, family, &good, id, turn, differing, corners)
        });
    }
    for (edge, border, distance) in [(0, 2, 1), (9, 2, 1), (4, 0, 1), (4, 5, 1), (4, 2, 0), (4, 2, 65), (3, 2, 1)] {
        let all = lent(calls, &grey, pitch);
        calls.refuse("try_decode_quad", 6, all, |(plane, id, turn, differing, corners)| {
            c::try_decode_quad(plane, 20, 20, pitch, edge, border, distance, &[0x231B], &good, id, turn, differing, corners)
        });
    }
}

/// Sides and pitches that do not go with the length of a plane of 20 × 20 pixels and this pitch.
fn bad_frames(pitch: usize) -> Vec<[usize; 3]> {
    let large = [[usize::MAX, 2, pitch], [20, 1 << 63, 1 << 63], [20, (1 << 51) + 1, 8_192], [20, 21, usize::MAX], [1 << 32; 3]];
    let wrong = [[0, 0, 0], [0, 20, pitch], [20, 0, pitch], [4_097, 1, 8_192], [20, 4_097, pitch], [20, 20, 19], [20, 20, 8_193]];
    let other = [[20, 21, pitch], [21, 20, pitch.max(21)], [19, 20, pitch], [20, 19, pitch], [20, 20, pitch + 1], [20, 20, 0]];
    [&large[..], &wrong, &other].concat()
}

/// Refusal 1 of all eight functions that take an 8-bit plane.
fn frames(calls: &mut Calls) {
    let (pitch, quads) = (calls.pitch(), calls.floats(16));
    let quad = &quads[..8].try_into().unwrap();
    for [w, h, p] in bad_frames(pitch) {
        let one = lent(calls, &[90; 400], pitch);
        let list = (one.0.clone(), calls.longs(8), calls.floats(16));
        let painting = (one.0.clone(), calls.eight());
        calls.refuse("try_decode_quad_in", 1, one.clone(), |(plane, id, turn, differing, corners)| {
            c::try_decode_quad_in(plane, w, h, p, 3, quad, id, turn, differing, corners)
        });
        calls.refuse("try_decode_quad", 1, one, |(plane, id, turn, differing, corners)| {
            c::try_decode_quad(plane, w, h, p, 4, 2, 1, &[0x231B], quad, id, turn, differing, corners)
        });
        calls.refuse("try_decode_quads_in", 1, list.clone(), |(plane, rows, corners)| {
            c::try_decode_quads_in(plane, w, h, p, 3, &quads, rows, corners)
        });
        calls.refuse("try_decode_quads", 1, list, |(plane, rows, corners)| {
            c::try_decode_quads(plane, w, h, p, 4, 2, 1, &[0x231B], &quads, rows, corners)
        });
        calls.refuse("paint_tag_in", 1, painting.clone(), |(plane, quad)| {
            c::paint_tag_in(plane, w, h, p, 0, 0x231B, 1, 1, 2, 0, 200, 50, quad)
        });
        calls.refuse("paint_tag", 1, painting, |(plane, quad)| {
            c::paint_tag(plane, w, h, p, 4, 2, 0x231B, 1, 1, 2, 0, 200, 50, quad)
        });
        let sheet = (calls.padded(&[90; 400], pitch), calls.floats(9));
        calls.refuse("paint_sheet_in", 1, sheet.clone(), |(plane, quads)| {
            c::paint_sheet_in(plane, w, h, p, 0, 1, 1, 1, 1, 1, 2, 0, 200, 50, quads)
        });
        calls.refuse("paint_sheet", 1, sheet, |(plane, quads)| {
            c::paint_sheet(plane, w, h, p, 4, 2, 1, &[0x231B], 1, 1, 1, 1, 1, 2, 0, 200, 50, quads)
        });
    }
}

fn lists(calls: &mut Calls) {
    let pitch = calls.pitch();
    let list = |calls: &mut Calls, number: u32, sizes: [usize; 3], family: u8| {
        let quads = calls.floats(sizes[0]);
        let all = (calls.padded(&[90; 400], pitch), calls.longs(sizes[1]), calls.floats(sizes[2]));
        calls.refuse("try_decode_quads_in", number, all.clone(), |(plane, rows, corners)| {
            c::try_decode_quads_in(plane, 20, 20, pitch, family, &quads, rows, corners)
        });
        let edge = if family < 5 { 4 } else { 9 };
        calls.refuse("try_decode_quads", number, all, |(plane, rows, corners)| {
            c::try_decode_quads(plane, 20, 20, pitch, edge, 2, 1, &[0x231B], &quads, rows, corners)
        });
    };
    list(calls, 6, [16, 8, 16], 5);
    for sizes in [[7, 8, 16], [9, 8, 16], [16, 7, 16], [16, 6, 16], [16, 8, 15], [8_200, 4_100, 8_200], [1, 0, 0]] {
        list(calls, 16, sizes, 0);
    }
    // An output one number short, a row of three numbers a quad, none at all.
    for quads in [1, 2, 30, 1_024] {
        let (four, eight) = (4 * quads, 8 * quads);
        for (rows, corners) in [(four - 1, eight), (3 * quads, eight), (0, eight), (four, eight - 1), (four, 0)] {
            list(calls, 16, [8 * quads, rows, corners], 0);
        }
    }
}

/// Three rows, of which the second is refused, their corners, and their report of 76 bytes.
fn report() -> (Vec<u64>, Vec<f32>, Vec<u8>) {
    let rows = vec![0, 7, 0, 0, 12, 0, 0, 0, 0, 300, 3, 2];
    let corners: Vec<f32> = (0..24).map(|k| if (8..16).contains(&k) { 0.0 } else { k as f32 - 0.5 }).collect();
    let (mut report, mut written) = (vec![0; 80], 0);
    assert_eq!((c::write_report(&rows, &corners, &mut report, &mut written), written), (0, 76));
    report.truncate(written);
    (rows, corners, report)
}

fn reports(calls: &mut Calls) {
    let (rows, corners, report) = report();
    let write = |calls: &mut Calls, number: u32, rows: &[u64], corners: &[f32], room: usize| {
        let lent = (calls.bytes(room), calls.numbers.next() as usize);
        calls.refuse("write_report", number, lent, |(report, written)| c::write_report(rows, corners, report, written));
    };
    write(calls, 19, &vec![18; 4_100], &corners, 80);
    (0..76).for_each(|room| write(calls, 19, &rows, &corners, room));
    (1..12).filter(|count| count % 4 != 0).for_each(|count| write(calls, 20, &rows[..count], &corners[..count / 4 * 8], 80));
    (0..24).for_each(|count| write(calls, 20, &rows, &corners[..count], 80));
    for (place, number) in [(0, 7), (1, 1_024), (2, 4), (3, 64), (4, 14), (5, 1), (6, 1), (7, 1), (9, 7), (9, u64::MAX)] {
        let mut rows = rows.clone();
        rows[place] = number;
        write(calls, 20, &rows, &corners, 80);
    }
    for (place, corner) in [(0, f32::NAN), (7, 16_384.0), (16, f32::NEG_INFINITY), (8, -0.0), (15, 1.0e-45)] {
        let mut corners = corners.clone();
        corners[place] = corner;
        write(calls, 20, &rows, &corners, 80);
    }
    let read = |calls: &mut Calls, number: u32, report: &[u8], rooms: [usize; 2]| {
        let lent = (calls.longs(rooms[0]), calls.floats(rooms[1]), calls.numbers.next() as usize);
        calls.refuse("read_report", number, lent, |(rows, corners, count)| c::read_report(report, rows, corners, count));
    };
    (0..76).for_each(|count| read(calls, 20, &report[..count], [20, 30]));
    read(calls, 20, &[&report[..], &[16]].concat(), [20, 30]);
    read(calls, 19, &[&[1, 4], &report[2..]].concat(), [20, 30]);
    (0..12).for_each(|room| read(calls, 19, &report, [room, 30]));
    (0..24).for_each(|room| read(calls, 19, &report, [20, room]));
    for (place, byte) in [(2, 10), (4, 4), (8, 0x7f), (38, 7), (42, 0), (42, 4), (43, 0), (43, 64)] {
        let mut report = report.clone();
        report[place] = byte;
        read(calls, 20, &report, [20, 30]);
    }
}

fn painter(calls: &mut Calls) {
    // T16H5 in a plane of 20 × 20 pixels: 8 modules a side.
    let fits = (0x231B, 1, 1, 2, 0, 200, 50);
    let (word, x, y, cell, turn, light, dark) = fits;
    let prints = [
        (0x1_0000, x, y, cell, turn, light, dark),
        (word, x, y, 0, turn, light, dark),
        (word, x, y, 65, turn, light, dark),
        (word, x, y, usize::MAX, turn, light, dark),
        (word, x, y, cell, 4, light, dark),
        (word, x, y, cell, turn, 99, dark),
        (word, x, y, cell, turn, 10, 250),
        (word, 4, y, cell, turn, light, dark),
        (word, x, 4, cell, turn, light, dark),
        (word, usize::MAX, y, cell, turn, light, dark),
        (word, x, usize::MAX - 15, cell, turn, light, dark),
    ];
    let pitch = calls.pitch();
    let lent = |calls: &mut Calls| (calls.bytes(pitch * 19 + 20), calls.eight());
    for (word, x, y, cell, turn, light, dark) in prints {
        let all = lent(calls);
        calls.refuse("paint_tag", 14, all.clone(), |(plane, quad)| {
            c::paint_tag(plane, 20, 20, pitch, 4, 2, word, x, y, cell, turn, light, dark, quad)
        });
        calls.refuse("paint_tag_in", 14, all, |(plane, quad)| {
            c::paint_tag_in(plane, 20, 20, pitch, 0, word, x, y, cell, turn, light, dark, quad)
        });
    }
    for (edge, border) in [(0, 2), (9, 2), (4, 0), (4, 5)] {
        let all = lent(calls);
        calls.refuse("paint_tag", 6, all, |(plane, quad)| {
            c::paint_tag(plane, 20, 20, pitch, edge, border, word, x, y, cell, turn, light, dark, quad)
        });
    }
    let all = lent(calls);
    calls.refuse("paint_tag_in", 6, all, |(plane, quad)| {
        c::paint_tag_in(plane, 20, 20, pitch, 5, word, x, y, cell, turn, light, dark, quad)
    });
}

/// What a sheet of four tags of eight modules takes in a plane of 20 × 20 pixels: rows, columns, gap, x, y, cell; turn, light, dark;
/// numbers in the output. Each row has one thing wrong.
fn bad_sheets() -> Vec<(u32, [usize; 6], [u8; 3], usize)> {
    let (fits, shades) = ([2, 2, 2, 1, 1, 1], [0, 200, 50]);
    let with = |place: usize, number: usize| {
        let mut sheet = fits;
        sheet[place] = number;
        sheet
    };
    let mut bad = vec![(14, fits, [4, 200, 50], 32), (14, fits, [0, 99, 50], 32), (14, fits, [0, 10, 250], 32)];
    bad.extend([0, 65, usize::MAX].map(|cell| (14, with(5, cell), shades, 32)));
    for (place, numbers) in [(0, [0, 3, 33]), (1, [0, 3, 33]), (2, [0, 4, 17]), (3, [2, 20, 1 << 63]), (4, [2, 20, 1 << 63])] {
        bad.extend(numbers.map(|number| (17, with(place, number), shades, 32)));
        bad.extend([1, 17, 18].map(|less| (17, with(place, usize::MAX - less + 1), shades, 32)));
    }
    bad.extend([0, 1, 8, 24, 31].map(|numbers| (16, fits, shades, numbers)));
    bad
}

fn sheets(calls: &mut Calls) {
    let (codes, pitch) = (Family::T16H5.codes(), calls.pitch());
    for (number, [rows, columns, gap, x, y, cell], [turn, light, dark], numbers) in bad_sheets() {
        let all = (calls.bytes(pitch * 19 + 20), calls.floats(numbers));
        calls.refuse("paint_sheet", number, all.clone(), |(plane, quads)| {
            c::paint_sheet(plane, 20, 20, pitch, 4, 2, 1, codes, rows, columns, gap, x, y, cell, turn, light, dark, quads)
        });
        calls.refuse("paint_sheet_in", number, all, |(plane, quads)| {
            c::paint_sheet_in(plane, 20, 20, pitch, 0, rows, columns, gap, x, y, cell, turn, light, dark, quads)
        });
    }
    for (edge, border, distance, codes) in [
        (0, 2, 1, codes),
        (9, 2, 1, codes),
        (4, 0, 1, codes),
        (4, 5, 1, codes),
        (4, 2, 0, codes),
        (4, 2, 65, codes),
        (4, 2, 1, &[]),
    ] {
        let all = (calls.bytes(pitch * 19 + 20), calls.floats(32));
        calls.refuse("paint_sheet", 6, all, |(plane, quads)| {
            c::paint_sheet(plane, 20, 20, pitch, edge, border, distance, codes, 2, 2, 2, 1, 1, 1, 0, 200, 50, quads)
        });
    }
    let all = (calls.bytes(pitch * 19 + 20), calls.floats(32));
    calls.refuse("paint_sheet_in", 6, all, |(plane, quads)| {
        c::paint_sheet_in(plane, 20, 20, pitch, 5, 2, 2, 2, 1, 1, 1, 0, 200, 50, quads)
    });
}

fn blur(calls: &mut Calls) {
    let weights = [0.25, 0.5, 0.25];
    let good = vec![0.5; 35];
    for (width, height, img, temp, out) in
        [(0, 5, 0, 0, 0), (7, 5, 34, 35, 35), (7, 5, 35, 36, 35), (7, 5, 35, 35, 0), (4_097, 1, 4_097, 4_097, 4_097)]
    {
        let lent = (calls.floats(temp), calls.floats(out));
        let img = calls.floats(img);
        calls.refuse("gaussian_blur_f32", 1, lent, |(temp, out)| c::gaussian_blur_f32(&img, width, height, &weights, temp, out));
    }
    let odd = [f32::NAN, -0.1, 1.000_000_1, f32::INFINITY, -1.0e-45];
    let mut bad: Vec<Vec<f32>> = [0, 2, 8, 16, 17].map(|count| vec![0.1; count]).to_vec();
    bad.extend(odd.map(|weight| vec![0.25, 0.5, weight]));
    for weights in bad {
        let lent = (calls.floats(35), calls.floats(35));
        calls.refuse("gaussian_blur_f32", 2, lent, |(temp, out)| c::gaussian_blur_f32(&good, 7, 5, &weights, temp, out));
    }
    for value in odd {
        for place in [0, 1, 15, 16, 33, 34] {
            let mut img = good.clone();
            img[place] = value;
            let lent = (calls.floats(35), calls.floats(35));
            calls.refuse("gaussian_blur_f32", 3, lent, |(temp, out)| c::gaussian_blur_f32(&img, 7, 5, &weights, temp, out));
        }
    }
}

/// Samples that the response, the threshold and the clusters refuse.
fn odd_samples() -> [f32; 6] {
    [f32::NAN, f32::from_bits(0xff81_2345), f32::INFINITY, f32::NEG_INFINITY, 65_536.01, -65_536.01]
}

fn response(calls: &mut Calls) {
    for (width, height, img, out) in
        [(0, 5, 0, 0), (7, 5, 34, 35), (7, 5, 35, 34), (5, 4_097, 20_485, 20_485), (1 << 60, 16, 0, 0)]
    {
        let (img, lent) = (calls.floats(img), calls.floats(out));
        calls.refuse("hessian_response", 1, lent, |out| c::hessian_response(&img, width, height, out));
        if img.len() != width.wrapping_mul(height) || width > 4_096 || height > 4_096 || width == 0 {
            let lent = calls.floats(1)[0];
            calls.refuse("response_threshold", 1, lent, |threshold| c::response_threshold(&img, width, height, threshold));
        }
    }
    for value in odd_samples() {
        for place in [0, 1, 15, 16, 33, 34] {
            let mut img = vec![-0.5; 35];
            img[place] = value;
            let lent = calls.floats(35);
            calls.refuse("hessian_response", 3, lent, |out| c::hessian_response(&img, 7, 5, out));
            let lent = calls.floats(1)[0];
            calls.refuse("response_threshold", 3, lent, |threshold| c::response_threshold(&img, 7, 5, threshold));
        }
    }
}

fn clusters(calls: &mut Calls) {
    let mut refuse = |number: u32, width: usize, height: usize, h_mat: Vec<f32>, threshold: f32, worklist: usize| {
        let lent = (h_mat, calls.ints(worklist), calls.longs(13), calls.numbers.next() as usize);
        calls.refuse("init_saddle_clusters", number, lent, |(h_mat, worklist, rows, total)| {
            c::init_saddle_clusters(h_mat, width, height, threshold, worklist, rows, total)
        });
    };
    let good = vec![-0.5; 35];
    refuse(1, 0, 5, vec![], 0.0, 200);
    refuse(1, 7, 6, good.clone(), 0.0, 200);
    refuse(1, 7, 5, vec![f32::NAN; 34], f32::NAN, 0);
    for value in odd_samples() {
        for place in [0, 1, 15, 16, 33, 34] {
            let mut h_mat = good.clone();
            h_mat[place] = value;
            refuse(3, 7, 5, h_mat.clone(), 0.0, 106);
            refuse(3, 7, 5, h_mat, f32::NAN, 0);
        }
    }
    for threshold in [f32::NAN, f32::from_bits(0x7f80_0001), f32::INFINITY, f32::NEG_INFINITY] {
        refuse(4, 7, 5, good.clone(), threshold, 106);
        refuse(4, 7, 5, good.clone(), threshold, 0);
    }
    for worklist in [0, 1, 104, 105] {
        refuse(5, 7, 5, good.clone(), 0.0, worklist);
    }
}

fn centers(calls: &mut Calls) {
    let large = 1 << 24;
    for (sum_x, sum_y, count) in [(0, 0, 0), (large, 0, 1), (0, large, 1), (0, 0, large), (u64::MAX, 0, 1), (5, 5, u64::MAX)] {
        let lent: [f32; 2] = calls.floats(2).try_into().unwrap();
        calls.refuse("cluster_center", 15, lent, |center| c::cluster_center(sum_x, sum_y, count, center));
    }
}

/// Longer outputs than a list, the clusters or a report need: what lies beyond stays, and a refused row is zero but for its number.
fn beyond_the_answer(calls: &mut Calls) -> u64 {
    let bad = bad_quads();
    let mut accepted = 0;
    for extra in 0..30 {
        let pitch = calls.pitch();
        let plane = calls.padded(&[90; 400], pitch);
        let quads: Vec<f32> = bad.iter().flat_map(|(_, quad)| *quad).collect();
        let (rows, corners) = (calls.longs(4 * bad.len() + extra), calls.floats(8 * bad.len() + extra));
        let (mut rows_after, mut corners_after) = (rows.clone(), corners.clone());
        assert_eq!(c::try_decode_quads_in(&plane, 20, 20, pitch, 3, &quads, &mut rows_after, &mut corners_after), 0);
        let expected: Vec<u64> = bad.iter().flat_map(|&(number, _)| [number as u64, 0, 0, 0]).collect();
        assert_eq!(rows_after[..expected.len()], expected);
        assert_eq!(rows_after[expected.len()..], rows[expected.len()..]);
        assert!(corners_after[..quads.len()].iter().all(|number| number.to_bits() == 0));
        assert_eq!(corners_after[quads.len()..].to_vec().bits(), corners[quads.len()..].to_vec().bits());

        let mut response = vec![0.0; 15];
        response[5..10].copy_from_slice(&[-2.0, -2.0, 0.0, -2.0, 0.0]);
        let (rows, mut worklist, mut total) = (calls.longs(extra), calls.ints(46), 0);
        let mut rows_after = rows.clone();
        assert_eq!(c::init_saddle_clusters(&mut response, 5, 3, -1.0, &mut worklist, &mut rows_after, &mut total), 0);
        let written = (extra / 3 * 3).min(6);
        assert_eq!(total, 2);
        assert_eq!(rows_after[..written], [1, 2, 2, 3, 1, 1][..written]);
        assert_eq!(rows_after[written..], rows[written..]);

        let (rows, corners, report) = report();
        let (longer, mut written, mut count) = (calls.bytes(report.len() + extra), 0, 0);
        let mut after = longer.clone();
        assert_eq!((c::write_report(&rows, &corners, &mut after, &mut written), written), (0, report.len()));
        assert!(after == [&report, &longer[written..]].concat());
        let (longer, corners_longer) = (calls.longs(rows.len() + extra), calls.floats(corners.len() + extra));
        let (mut after, mut corners_after) = (longer.clone(), corners_longer.clone());
        assert_eq!((c::read_report(&report, &mut after, &mut corners_after, &mut count), count), (0, 3));
        assert_eq!(after, [&rows, &longer[rows.len()..]].concat());
        assert_eq!(corners_after.bits(), [&corners, &corners_longer[corners.len()..]].concat().bits());
        accepted += 4;
    }
    accepted
}

/// Paintings of planes with padded lines: each byte of the filler stays, and each pixel is painted.
fn filler(calls: &mut Calls) -> u64 {
    let pitches = (20..220).chain([8_191, 8_192]);
    for pitch in pitches.clone() {
        let (plane, mut quad) = (calls.bytes(pitch * 19 + 20), calls.eight());
        let mut painted = plane.clone();
        assert_eq!(c::paint_tag_in(&mut painted, 20, 20, pitch, 0, 0x231B, 1, 1, 2, 0, 200, 50, &mut quad), 0);
        let (before, after) = (plane.chunks(pitch), painted.chunks(pitch));
        assert!(before.zip(after).all(|(before, after)| before[20..] == after[20..]), "filler changed, pitch {pitch}");
        assert!(painted.chunks(pitch).all(|line| line[..20].iter().all(|level| [50, 200].contains(level))));
    }
    pitches.count() as u64
}
