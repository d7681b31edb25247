//! Padded lines. Refusal 1 at the limits of sides, pitch and length, for all eight functions that take an 8-bit plane; and
//! whatever the filler holds, a plane reads and paints as its lines without filler do, and its filler stays. (Of sheets: tests/sheets.)

mod numbers;

use muosleap::board::corner_squares;
use muosleap::image_util::{Saddles, kernel, to_unit};
use muosleap::{FAMILIES, Family, Grid, Picture, Print, Quad, Refusal, Shape, Table, c};
use numbers::Numbers;
use std::collections::BTreeSet;

/// The number of bytes, the width, the height and the pitch that a call is given.
#[derive(Clone, Copy, Debug)]
struct Given(usize, usize, usize, usize);

impl Given {
    /// With the right number of bytes; where that is too large, with what is left of it in 64 bits.
    fn right(width: usize, height: usize, pitch: usize) -> Given {
        Given(pitch.wrapping_mul(height.wrapping_sub(1)).wrapping_add(width), width, height, pitch)
    }

    /// The plane, with a tag in its upper left corner as far as there are bytes, and the tag's quad.
    fn plane(self) -> (Vec<u8>, [f32; 8]) {
        let Given(length, .., pitch) = self;
        let mut tag = Picture::packed([0; 81], 9, 9);
        let print = Print { x: 0, y: 0, cell: 1, turn: 0, light: 200, dark: 20 };
        let quad = Family::T16H5.paint_tag(&mut tag, 0x231B, &print).unwrap();
        let mut plane = vec![0xa5; length];
        for (y, line) in tag.lines().enumerate() {
            let start = y.saturating_mul(pitch);
            (start..length).zip(line).for_each(|(place, &pixel)| plane[place] = pixel);
        }
        (plane, quad.into())
    }

    /// What the eight functions answer to a quad, the first `numbers` of its numbers as a list, and a print of this turn. All of
    /// these calls are to be refused, and none to change anything that it was lent.
    fn answers(self, plane: &[u8], quad: &[f32; 8], numbers: usize, print: u8) -> [u32; 8] {
        let Given(_, width, height, pitch) = self;
        let (mut lent, list) = (plane.to_vec(), &quad[..numbers]);
        let (mut id, mut turn, mut differing, mut eight) = (77, 88, 66, [0.5; 8]);
        let (mut rows, mut corners) = ([99; 4], [1.5; 8]);
        let codes = Family::T16H5.codes();
        let answers = [
            c::try_decode_quad(plane, width, height, pitch, 4, 2, 1, codes, quad, &mut id, &mut turn, &mut differing, &mut eight),
            c::try_decode_quad_in(plane, width, height, pitch, 0, quad, &mut id, &mut turn, &mut differing, &mut eight),
            c::try_decode_quads(plane, width, height, pitch, 4, 2, 1, codes, list, &mut rows, &mut corners),
            c::try_decode_quads_in(plane, width, height, pitch, 0, list, &mut rows, &mut corners),
            c::paint_tag(&mut lent, width, height, pitch, 4, 2, 0x231B, 0, 0, 1, print, 210, 20, &mut eight),
            c::paint_tag_in(&mut lent, width, height, pitch, 0, 0x231B, 0, 0, 1, print, 210, 20, &mut eight),
            c::paint_sheet(&mut lent, width, height, pitch, 4, 2, 1, codes, 1, 1, 1, 0, 0, 1, print, 210, 20, &mut corners),
            c::paint_sheet_in(&mut lent, width, height, pitch, 0, 1, 1, 1, 0, 0, 1, print, 210, 20, &mut corners),
        ];
        assert!(lent == plane, "{self:?}: a refused call painted");
        assert_eq!((id, turn, differing, eight), (77, 88, 66, [0.5; 8]), "{self:?}");
        assert_eq!((rows, corners), ([99; 4], [1.5; 8]), "{self:?}");
        answers
    }

    /// The calls are good but for the plane's description.
    fn is_refused(self) {
        let (plane, quad) = self.plane();
        assert_eq!(self.answers(&plane, &quad, 8, 0), [1; 8], "{self:?}");
    }

    /// The calls are refused for what comes after 1: a quad outside, a list of seven numbers, a turn of 4.
    fn is_let_through(self) {
        let (plane, _) = self.plane();
        assert_eq!(self.answers(&plane, &[5_000.0; 8], 7, 4), [9, 9, 16, 16, 14, 14, 14, 14], "{self:?}");
    }
}

#[test]
fn pitches_and_lengths_at_their_limits() {
    for (width, height) in [(20, 20), (33, 7), (1, 2), (20, 2), (4_096, 2), (1, 4_096), (4_095, 3)] {
        for pitch in [width, width + 1, width + 13, 2 * width, 8_191, 8_192] {
            let right = Given::right(width, height, pitch);
            right.is_let_through();
            let Given(length, ..) = right;
            for other in [0, width, length - 1, length + 1, length - width, pitch * height, width * height] {
                if other != length {
                    Given(other, width, height, pitch).is_refused();
                }
            }
        }
        for pitch in [0, width - 1, 8_193, 8_194, 2 * 8_192] {
            Given::right(width, height, pitch).is_refused();
            Given(width * height, width, height, pitch).is_refused();
        }
    }
    // One line has no filler, whatever the pitch.
    for width in [1, 20, 4_096] {
        (width..8_193).step_by(61).chain([width + 1, 8_192]).for_each(|pitch| Given(width, width, 1, pitch).is_let_through());
        [0, width - 1, 8_193, usize::MAX].iter().for_each(|&pitch| Given(width, width, 1, pitch).is_refused());
        [0, width - 1, width + 1, 8_192].iter().for_each(|&length| Given(length, width, 1, 8_192).is_refused());
    }
}

#[test]
fn sides_at_their_limits() {
    for pitch in [20, 4_096, 4_097, 8_192] {
        for (width, height) in [(0, 20), (0, 1), (4_097, 1), (4_097, 2), (20, 4_097), (1, 4_097)] {
            Given::right(width, height, pitch).is_refused();
        }
        for length in [0, 20, pitch, 400] {
            [(20, 0), (0, 0), (0, 20)].iter().for_each(|&(width, height)| Given(length, width, height, pitch).is_refused());
        }
    }
    Given(0, 0, 0, 0).is_refused();
    Given::right(4_096, 4_096, 8_192).is_let_through();
    Given::right(4_096, 4_096, 4_096).is_let_through();
    Given::right(4_096, 4_097, 8_192).is_refused();
}

/// Sides and pitches about every power of two whose products come near 2^64 or pass it.
fn large_numbers() -> Vec<usize> {
    let mut numbers = vec![0, 1, 2, 20, 21, 4_096, 4_097, 8_192, 8_193, usize::MAX - 399, usize::MAX - 380];
    for power in [16, 31, 32, 33, 48, 51, 52, 60, 62, 63] {
        numbers.extend([(1 << power) - 1, 1 << power, (1 << power) + 1, (1 << power) + 20]);
    }
    numbers.extend([usize::MAX - 20, usize::MAX - 19, usize::MAX - 1, usize::MAX]);
    numbers
}

#[test]
fn large_numbers_are_refused() {
    let numbers = large_numbers();
    let mut wrapped = 0;
    for (&width, &height) in numbers.iter().flat_map(|width| numbers.iter().map(move |height| (width, height))) {
        for &pitch in &numbers {
            let right = Given::right(width, height, pitch);
            let small = (1..=4_096).contains(&width) && (1..=4_096).contains(&height) && (width..=8_192).contains(&pitch);
            match (small, right.0) {
                (true, 0..=100_000) => right.is_let_through(),
                (true, _) => {}
                (false, 0..=1_000) => right.is_refused(),
                (false, _) => Given(20, width, height, pitch).is_refused(),
            }
            let length = pitch as u128 * (height as u128).saturating_sub(1) + width as u128;
            wrapped += (height > 0 && right.0 <= 1_000 && length > usize::MAX as u128) as u32;
        }
    }
    assert!(wrapped > 1_000, "only {wrapped} lengths are right but for 2^64");
}

#[test]
fn the_crate_takes_any_number() {
    let quad = Quad::from([0.0; 8]);
    let grid = Grid { rows: usize::MAX, columns: usize::MAX, gap: usize::MAX };
    for (width, height) in [(usize::MAX, 2), (2, usize::MAX), (usize::MAX, usize::MAX), (0, 0), (1 << 32, 1 << 32)] {
        for stride in [0, 1, 20, 8_192, usize::MAX] {
            let mut picture = Picture { bytes: vec![7; 400], width, height, stride };
            assert_eq!(Family::T16H5.try_decode_quad(&picture, &quad), Err(Refusal::PlaneSize));
            assert_eq!(Family::T16H5.table().try_decode_quads(&picture, &[quad]), Err(Refusal::PlaneSize));
            let print = Print { x: usize::MAX, y: usize::MAX, cell: usize::MAX, turn: 0, light: 200, dark: 20 };
            assert_eq!(Family::T16H5.paint_tag(&mut picture, 0x231B, &print), Err(Refusal::PlaneSize));
            assert_eq!(Family::T16H5.paint_sheet(&mut picture, &grid, &print), Err(Refusal::PlaneSize));
            assert_eq!(Family::T16H5.table().paint_sheet(&mut picture, &grid, &print), Err(Refusal::PlaneSize));
            corner_squares(&mut picture, &[quad, Quad::from([f32::MAX; 8]), Quad::from([f32::NAN; 8])], usize::MAX, 7);
            assert_eq!(picture.bytes, [7; 400]);
            assert!(to_unit(&picture).len() <= 400 && picture.lines().len() <= 400);
        }
        let mut saddles = Saddles::new(Shape { width, height });
        assert!(matches!(saddles.find(&[0.5; 400], &kernel(1.5)).err(), Some(Refusal::PlaneSize)));
    }
}

/// Pitches of planes of this width.
fn pitches(width: usize) -> [usize; 5] {
    [width, width + 1, width + 13, 2 * width, 8_192]
}

/// A picture with this pitch and every kind of filler: zeros, 255, noise, the next line's pixels, which is what follows where
/// there is no filler, and the line's own pixels again, tag and all.
fn padded(picture: &Picture<Vec<u8>>, pitch: usize) -> [Picture<Vec<u8>>; 5] {
    let &Picture { ref bytes, width, height, .. } = picture;
    let mut numbers = Numbers(0x2545_f491_4f6c_dd1d);
    let filled = |mut filler: Box<dyn FnMut(usize, usize) -> u8 + '_>| {
        let pixel = |place: usize| match (place % pitch, place / pitch) {
            (x, y) if x < width => bytes[y * width + x],
            (x, y) => filler(x - width, y),
        };
        let bytes = (0..pitch * (height - 1) + width).map(pixel).collect();
        Picture { bytes, width, height, stride: pitch }
    };
    [
        filled(Box::new(|_, _| 0)),
        filled(Box::new(|_, _| 255)),
        filled(Box::new(|_, _| (numbers.next() >> 32) as u8)),
        filled(Box::new(|k, y| bytes[(y + 1) * width + k % width])),
        filled(Box::new(|k, y| bytes[y * width + k % width])),
    ]
}

/// What both readers of one quad answer and write, as bits.
fn read_alone(picture: &Picture<Vec<u8>>, family: Family, quad: &[f32; 8]) -> Vec<u64> {
    let &Picture { ref bytes, width: w, height: h, stride } = picture;
    let Table { edge, border, hamming_distance, codes } = family.table();
    let mut all = Vec::new();
    for lent in [false, true] {
        let (mut id, mut turn, mut differing, mut out) = (77, 88, 66, [0.5; 8]);
        let (id, turn, differing, number) = (&mut id, &mut turn, &mut differing, family.number());
        all.push(if lent {
            c::try_decode_quad(bytes, w, h, stride, edge, border, hamming_distance, codes, quad, id, turn, differing, &mut out)
        } else {
            c::try_decode_quad_in(bytes, w, h, stride, number, quad, id, turn, differing, &mut out)
        } as u64);
        all.extend([*id as u64, *turn as u64, *differing as u64]);
        all.extend(out.map(|number| number.to_bits() as u64));
    }
    all
}

/// What both readers of lists answer and write, and leave behind it, as bits.
fn read_list(picture: &Picture<Vec<u8>>, family: Family, quads: &[[f32; 8]]) -> Vec<u64> {
    let &Picture { ref bytes, width: w, height: h, stride } = picture;
    let Table { edge, border, hamming_distance, codes } = family.table();
    let mut all = Vec::new();
    for lent in [false, true] {
        let (mut rows, mut out) = (vec![77; 4 * quads.len() + 2], vec![0.5; 8 * quads.len() + 2]);
        let quads = quads.as_flattened();
        all.push(if lent {
            c::try_decode_quads(bytes, w, h, stride, edge, border, hamming_distance, codes, quads, &mut rows, &mut out)
        } else {
            c::try_decode_quads_in(bytes, w, h, stride, family.number(), quads, &mut rows, &mut out)
        } as u64);
        all.extend(rows);
        all.extend(out.iter().map(|number| number.to_bits() as u64));
    }
    all
}

/// What all four readers say to these quads: each alone, each in a list of its own, and all in one list, where those that are read
/// with the same id are refused.
fn read(picture: &Picture<Vec<u8>>, family: Family, quads: &[[f32; 8]]) -> [Vec<u64>; 3] {
    let alone = quads.iter().flat_map(|quad| read_alone(picture, family, quad)).collect();
    let own_lists = quads.iter().flat_map(|&quad| read_list(picture, family, &[quad])).collect();
    [alone, own_lists, read_list(picture, family, quads)]
}

/// A painted tag with as many misprinted modules as are read, one with a pixel for each module, pictures that are refused at its
/// quad; and quads to be read in them.
fn scenes(family: Family) -> (Vec<Picture<Vec<u8>>>, Vec<[f32; 8]>) {
    let (width, height) = (47, 41);
    let mut painted = Picture::packed(vec![0; width * height], width, height);
    let mut small = painted.clone();
    let print = Print { x: 12, y: 4, cell: 3, turn: 1, light: 210, dark: 40 };
    let misprinted = (1 << (family.table().hamming_distance - 1)) - 1;
    let quad = family.paint_tag(&mut painted, family.codes()[5] ^ misprinted, &print).unwrap();
    let small_quad = family.paint_tag(&mut small, family.codes()[6], &Print { cell: 1, ..print }).unwrap();
    let change = |change: &dyn Fn(usize, u8) -> u8| {
        let bytes = painted.bytes.iter().enumerate().map(|(place, &level)| change(place, level)).collect();
        Picture::packed(bytes, width, height)
    };
    let (flat, unsure) = (change(&|_, _| 90), change(&|place, level| if place % 7 < 3 { 125 } else { level }));
    let stripes = change(&|place, _| if place % width % 9 < 5 { 30 } else { 200 });
    let quads = [quads_about(quad, width as f32, height as f32), quads_about(small_quad, width as f32, height as f32)].concat();
    (vec![painted, small, flat, unsure, stripes], quads)
}

/// A tag's four starts, moved quads, ones at the right edge, in the filler behind it, and out of range.
fn quads_about(quad: Quad, width: f32, height: f32) -> Vec<[f32; 8]> {
    let mut quads: Vec<[f32; 8]> = (0..4).map(|start| quad.started(start).into()).collect();
    let tag = quads[0];
    let by = |x: f32, y: f32| [0, 1, 2, 3, 4, 5, 6, 7].map(|k| tag[k] + if k % 2 == 0 { x } else { y });
    quads.extend([by(0.4, -0.3), by(-1.0, 1.0), by(-7.0, 2.0), by(0.0, -4.0), by(width, 0.0), by(width - 9.0, 0.0)]);
    quads.extend([by(f32::NAN, 0.0), by(16_384.0, 0.0), by(f32::NEG_INFINITY, 0.0)]);
    let (last, lower, near) = (width - 0.5, height - 0.5, 1.0 / 4_096.0);
    quads.extend([(last - near, 9.0), (9.0, lower - near), (last, 9.0), (9.0, lower)].map(|(x, y)| [x, y, x, y, x, y, x, y]));
    for x in [last - 0.5, last - 0.25, last, last + 0.25, last + 1.0, last + 13.0] {
        quads.push([0.0, 0.0, x, 0.0, x, 40.0, 0.0, 40.0]);
        quads.push([x - 20.0, 3.0, x, 3.0, x, 33.0, x - 20.0, 33.0]);
    }
    quads
}

#[test]
fn padded_pictures_read_as_packed_ones() {
    let (mut seen, mut listed, mut together) = (BTreeSet::new(), BTreeSet::new(), BTreeSet::new());
    for family in FAMILIES {
        let (pictures, quads) = scenes(family);
        for picture in pictures {
            let packed = read(&picture, family, &quads);
            seen.extend(packed[0].chunks(12).map(|answer| (answer[0], answer[3])));
            // Of a list of one quad there are 17 numbers. The rows stand behind the answer, each with its refusal first.
            listed.extend(packed[1].chunks(17).map(|list| list[1]));
            together.extend(packed[2][1..].chunks(4).take(quads.len()).map(|row| row[0]));
            for stride in pitches(picture.width) {
                for (kind, padded) in padded(&picture, stride).iter().enumerate() {
                    let before = padded.bytes.clone();
                    assert!(read(padded, family, &quads) == packed, "{family:?}, pitch {stride}, filler {kind}");
                    assert!(padded.bytes == before, "{family:?}, pitch {stride}: reading wrote");
                    assert_eq!(to_unit(padded), to_unit(&picture));
                }
            }
        }
    }
    // Refusals, and differing modules, which stay as they were where a quad is refused.
    let refused = [8, 9, 10, 11, 12, 13].map(|number| (number, 66));
    assert_eq!(Vec::from_iter(seen), [&[(0, 0), (0, 1), (0, 2)], &refused[..]].concat());
    assert_eq!(Vec::from_iter(listed), [0, 8, 9, 10, 11, 12, 13]);
    assert!((8..=13).chain([18]).all(|number| together.contains(&number)), "{together:?}");
}

/// Both painters on a picture, with the answer and the bits of the quad.
fn paint(picture: &mut Picture<Vec<u8>>, family: Option<Family>, word: u64, print: &Print) -> (u32, [u32; 8]) {
    let &mut Picture { ref mut bytes, width, height, stride } = picture;
    let &Print { x, y, cell, turn, light, dark } = print;
    let mut quad = [0.5; 8];
    let answer = match family {
        Some(family) => {
            c::paint_tag_in(bytes, width, height, stride, family.number(), word, x, y, cell, turn, light, dark, &mut quad)
        }
        None => c::paint_tag(bytes, width, height, stride, 5, 1, word, x, y, cell, turn, light, dark, &mut quad),
    };
    (answer, quad.map(f32::to_bits))
}

/// Prints for a picture of 47 × 41 pixels: good ones, one of them as far to the right and down as may be, and refused ones, some
/// of which would fit if filler were part of the picture.
fn prints(side: usize) -> Vec<(u32, Print)> {
    let print = Print { x: 3, y: 2, cell: 3, turn: 0, light: 210, dark: 40 };
    let (x, y) = (46 - 3 * side, 40 - 3 * side);
    let mut prints: Vec<(u32, Print)> = (0..4).map(|turn| (0, Print { turn, ..print })).collect();
    prints.extend([(0, Print { x, y, ..print }), (0, Print { cell: 1, ..print }), (0, Print { light: 255, dark: 0, ..print })]);
    let refused = [
        Print { x: x + 1, ..print },
        Print { x: x + 2, ..print },
        Print { x: 47, ..print },
        Print { x: usize::MAX, ..print },
        Print { y: y + 1, ..print },
        Print { cell: 0, ..print },
        Print { cell: 65, ..print },
        Print { turn: 4, ..print },
        Print { light: 89, ..print },
    ];
    prints.extend(refused.map(|print| (14, print)));
    prints
}

#[test]
fn padded_pictures_are_painted_as_packed_ones() {
    let before = Picture::packed(Numbers(5).bytes(47 * 41), 47, 41);
    for family in FAMILIES.map(Some).into_iter().chain([None]) {
        let (side, word) = match family {
            Some(family) => ((family.table().edge + 2 * family.table().border) as usize, family.codes()[3]),
            None => (7, 0x155_1234),
        };
        for (answer, print) in prints(side) {
            let mut packed = before.clone();
            let said = paint(&mut packed, family, word, &print);
            assert_eq!(said.0, answer, "{family:?}, {print:?}");
            for padded_before in pitches(47).into_iter().flat_map(|stride| padded(&before, stride)) {
                let mut padded = padded_before.clone();
                assert_eq!(paint(&mut padded, family, word, &print), said);
                let stride = padded.stride;
                let expected = |(place, &byte): (usize, &u8)| match (place % stride, place / stride) {
                    (x, y) if x < 47 => packed.bytes[y * 47 + x],
                    _ => byte,
                };
                let expected: Vec<u8> = padded_before.bytes.iter().enumerate().map(expected).collect();
                assert!(padded.bytes == expected, "{family:?}, {print:?}, pitch {stride}");
            }
        }
    }
}
