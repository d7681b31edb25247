//! Vectors of quads: the corner test, and whole readings with the answer's corners, alone and in lists.

use crate::limits;
use crate::lists::{lists, push_both};
use crate::original::detector::{TagDetector, answer, bit_code, corners_inside, decode_positions, samples, turned};
use crate::original::tag_families::TagFamily;
use crate::out::{File, Frame, Numbers, SEED};
use crate::words::{push_found, search};
use image::GrayImage;

pub type Quad = [(f32, f32); 4];

/// A reading: a refusal number, id, turn, the number of differing modules, and corners.
pub type Reading = (u8, usize, u8, u8, Quad);

/// A refusal: every other number is zero.
pub fn refused(number: u8) -> Reading {
    (number, 0, 0, 0, [(0.0, 0.0); 4])
}

/// A frame with a reading behind it.
pub fn push_reading(frame: Frame, (refusal, id, turn, differing, corners): Reading) -> Frame {
    push_quad(push_found(frame, (refusal, id, turn, differing)), &corners)
}

pub fn files() -> Vec<File> {
    vec![corner_tests(), readings(), lists(), refusals()]
}

pub fn push_quad(frame: Frame, quad: &Quad) -> Frame {
    quad.iter().fold(frame, |frame, &(x, y)| frame.f32(x).f32(y))
}

/// One corner away from the others, which are at the picture's first pixel: is it in the picture?
fn corner_tests() -> File {
    let mut file = File::new("vectors_tags/data/corners");
    let mut numbers = Numbers::from(SEED + 12);
    let mut push = |width: usize, height: usize, quad: Quad| {
        let outside = corners_inside(width as u32, height as u32, &quad).is_none();
        let frame = Frame::new().u8(3).u16(width).u16(height).u8(outside as u8);
        file.push(push_quad(frame, &quad));
    };
    for (width, height) in [(1, 1), (2, 3), (5, 1), (100, 40), (4_095, 1), (4_096, 1), (1, 4_096)] {
        let along = edges(width).into_iter().map(|x| (x, 0.0));
        let down = edges(height).into_iter().map(|y| (0.0, y));
        for (place, corner) in along.chain(down).enumerate() {
            let mut quad = [(0.0, 0.0); 4];
            quad[place % 4] = corner;
            push(width, height, quad);
        }
    }
    for _ in 0..60 {
        let (width, height) = (1 + numbers.below(60), 1 + numbers.below(60));
        let mut number = |side: usize| ((numbers.unit() * 1.3 - 0.15) * side as f32 * 1024.0).round() / 1024.0;
        push(width, height, [0; 4].map(|_| (number(width), number(height))));
    }
    file
}

/// Numbers about the ends of a side, and about what rounding does: halves, the floats next to them, negatives.
fn edges(side: usize) -> Vec<f32> {
    let last = side as f32 - 0.5;
    let mut edges =
        vec![0.0, -0.0, 0.5, -0.5, -0.499_999_97, -0.500_000_06, -1.0, -1.5, -16_383.0, -16_383.999, 1.0e-45, -1.0e-45];
    edges.extend([last, last.next_down(), last.next_up(), last - 0.5, last + 0.5, last - 1.0, last + 1.0, 16_383.999]);
    edges.extend([0.5f32.next_down(), 0.5f32.next_up(), 1.5f32.next_down(), 2.5, 8_191.5]);
    edges
}

const FAMILIES: [TagFamily; 5] = [TagFamily::T16H5, TagFamily::T25H7, TagFamily::T25H9, TagFamily::T36H11, TagFamily::T36H11B1];

/// A picture, and the family that reads it.
pub struct Picture {
    pub number: u8,
    pub detector: TagDetector,
    pub width: usize,
    pub height: usize,
    pub pixels: Vec<u8>,
}

impl Picture {
    pub fn new(number: u8, width: usize, height: usize, pixel: impl FnMut(usize) -> u8) -> Picture {
        let detector = TagDetector::new(&FAMILIES[number as usize], None);
        Picture { number, detector, width, height, pixels: (0..width * height).map(pixel).collect() }
    }

    fn side(&self) -> usize {
        (self.detector.edge() + 2 * self.detector.border()) as usize
    }

    /// Draws a word with its upper left pixel at a place, and answers its outer corners, clockwise from the upper left.
    pub fn draw(&mut self, word: u64, (left, top): (usize, usize), cell: usize, shades: [u8; 2]) -> Quad {
        let (edge, border) = (self.detector.edge() as usize, self.detector.border() as usize);
        for y in 0..self.side() * cell {
            for x in 0..self.side() * cell {
                let (row, column) = ((y / cell).wrapping_sub(border), (x / cell).wrapping_sub(border));
                let inside = row < edge && column < edge;
                let light = inside && word >> (edge * edge - 1 - (row * edge + column)) & 1 == 1;
                self.pixels[(top + y) * self.width + left + x] = shades[light as usize];
            }
        }
        let far = (self.side() * cell) as f32 - 0.5;
        let (x, y) = (left as f32, top as f32);
        [(x - 0.5, y - 0.5), (x + far, y - 0.5), (x + far, y + far), (x - 0.5, y + far)]
    }

    pub fn image(&self) -> GrayImage {
        GrayImage::from_raw(self.width as u32, self.height as u32, self.pixels.clone()).unwrap()
    }

    /// The places of the modules in f64, for corners as they are given.
    fn places(&self, quad: &Quad) -> Vec<(f64, f64)> {
        let side = self.side() as f64;
        let line = |get: fn(&(f32, f32)) -> f32, i: usize, j: usize| {
            let q = quad.map(|corner| get(&corner) as f64);
            let (s, a, b) = (q[0] + q[1] + q[2] + q[3], q[2] + q[3] - q[0] - q[1], q[1] + q[2] - q[0] - q[3]);
            (s * side + (2.0 * i as f64 - side + 1.0) * a + (2.0 * j as f64 - side + 1.0) * b) / (4.0 * side)
        };
        let from = self.detector.border() as usize;
        let modules = from..from + self.detector.edge() as usize;
        modules.clone().flat_map(|i| modules.clone().map(move |j| (line(|c| c.0, i, j), line(|c| c.1, i, j)))).collect()
    }

    /// A corner is outside, or no place lies within 1/256 of a half, so that neither the 1/1024 grid nor the last bits of the
    /// original's solver matter.
    pub fn is_clear(&self, quad: &Quad) -> bool {
        let far = |x: f64| ((x - 0.5).round() + 0.5 - x).abs() > 1.0 / 256.0;
        let outside = corners_inside(self.width as u32, self.height as u32, quad).is_none();
        outside || self.places(quad).iter().all(|&(x, y)| far(x) && far(y))
    }

    /// What the original says. The refusal number is that of the part that says no; turn and differing modules are its search's.
    pub fn read(&self, quad: &Quad) -> Reading {
        let detector = &self.detector;
        let image = self.image();
        let whole = detector.decode(&image, quad);
        let refused = |number: u8| {
            assert!(whole.is_none());
            refused(number)
        };
        let (width, height) = (self.width as u32, self.height as u32);
        let Some(places) = decode_positions(width, height, quad, detector.border(), detector.edge(), 0.5) else {
            return refused(9);
        };
        let Some(_) = samples(&image, &places) else { return refused(10) };
        let Some(_) = bit_code(&image, &places, 10, u32::MAX) else { return refused(11) };
        let Some(bits) = bit_code(&image, &places, 10, 3) else { return refused(12) };
        let (0, id, turn, differing) = search(bits, detector.hamming_distance(), detector.code_list(), detector.edge()) else {
            return refused(13);
        };
        let corners = answer(quad, turn as usize);
        assert_eq!(whole, Some((id, corners)));
        (0, id, turn, differing, corners)
    }

    /// The picture, and the readings of quads.
    pub fn push_readings(&self, file: &mut File, quads: &[Quad]) {
        file.push(Frame::new().u8(0).u16(self.width).u16(self.height).bytes(&self.pixels));
        for quad in quads {
            let frame = push_quad(Frame::new().u8(1).u8(self.number), quad);
            file.push(push_reading(frame, self.read(quad)));
        }
    }

    fn push(&self, file: &mut File, quads: Vec<Quad>) {
        let quads: Vec<Quad> = quads.into_iter().filter(|quad| self.is_clear(quad)).collect();
        self.push_readings(file, &quads);
        push_both(file, self, &quads);
    }
}

pub fn started(quad: &Quad, start: usize) -> Quad {
    let mut turned = *quad;
    turned.rotate_left(start);
    turned
}

/// A number near one, a multiple of 1/1024.
fn near(x: f32, by: f32, numbers: &mut Numbers) -> f32 {
    ((x + (numbers.unit() * 2.0 - 1.0) * by) * 1024.0).round() / 1024.0
}

/// The four starts of a quad, of slightly moved ones, of ones that run the other way round, and quads anywhere in the picture.
pub fn quads_of(picture: &Picture, quad: &Quad, numbers: &mut Numbers) -> Vec<Quad> {
    let mut quads: Vec<Quad> = (0..4).map(|start| started(quad, start)).collect();
    for by in [0.25, 0.5, 1.0, 3.0] {
        let moved = quad.map(|(x, y)| (near(x, by, numbers), near(y, by, numbers)));
        quads.extend((0..4).map(|start| started(&moved, start)));
    }
    let mut mirrored = *quad;
    mirrored.reverse();
    quads.extend((0..4).map(|start| started(&mirrored, start)));
    for by in [0.75, 1.1] {
        for _ in 0..6 {
            let (w, h) = (picture.width as f32 / 2.0, picture.height as f32 / 2.0);
            quads.push([0; 4].map(|_| (near(w - 0.5, w * by, numbers), near(h - 0.5, h * by, numbers))));
        }
    }
    quads
}

fn readings() -> File {
    let mut file = File::new("vectors_tags/data/readings");
    let mut numbers = Numbers::from(SEED + 41);
    for (number, dark, light) in [(0, 30, 220), (1, 0, 255), (2, 100, 150), (3, 101, 150), (3, 20, 240), (4, 90, 170)] {
        let mut picture = Picture::new(number, 36, 34, |_| light);
        let codes = picture.detector.code_list().to_vec();
        let word = turned(codes[numbers.below(codes.len())], picture.detector.edge());
        let quad = picture.draw(word, (2 + number as usize % 2, 1), 3, [dark, light]);
        let quads = quads_of(&picture, &quad, &mut numbers);
        picture.push(&mut file, quads);
    }
    damaged(&mut file, &mut numbers);
    dented(&mut file, &mut numbers);
    for (number, flips) in [(2, 1), (2, 2), (4, 2), (4, 3)] {
        spoilt(&mut file, number, flips, 0, &mut numbers);
    }
    file
}

/// A tag with misprinted modules and unsure modules, and its four starts.
fn spoilt(file: &mut File, number: u8, flips: usize, unsure: usize, numbers: &mut Numbers) {
    let mut picture = Picture::new(number, 36, 34, |_| 200);
    let (edge, border) = (picture.detector.edge() as usize, picture.detector.border() as usize);
    let mut word = picture.detector.code_list()[numbers.below(30)];
    (0..flips).for_each(|flip| word ^= 1 << (7 * flip + 2));
    let quad = picture.draw(word, (3, 2), 3, [50, 200]);
    for place in 0..unsure {
        let (row, column) = (place + border, edge - 1 - place + border);
        // 125 is the middle: 116 and 134 are unsure; a bit keeps its value.
        for pixel in (0..9).map(|k| (2 + row * 3 + k / 3) * 36 + 3 + column * 3 + k % 3) {
            picture.pixels[pixel] = if picture.pixels[pixel] == 200 { 134 } else { 116 };
        }
    }
    picture.push(file, (0..4).map(|start| started(&quad, start)).collect());
}

/// Misprinted modules, unsure modules, another family's tag, a picture of noise.
fn damaged(file: &mut File, numbers: &mut Numbers) {
    for (number, flips, unsure) in [(3u8, 2, 3), (3, 3, 0), (3, 0, 4), (1, 1, 3), (1, 2, 0), (0, 1, 0), (0, 0, 3)] {
        spoilt(file, number, flips, unsure, numbers);
    }
    let noise = Picture::new(0, 20, 20, |_| numbers.next() as u8);
    let quad = [(1.0, 1.0), (18.0, 2.0), (17.0, 18.0), (2.0, 17.0)];
    let quads = quads_of(&noise, &quad, numbers);
    noise.push(file, quads);
}

/// T36H11B1 with dented quads, whose places leave the picture though its corners are inside.
fn dented(file: &mut File, numbers: &mut Numbers) {
    let picture = Picture::new(4, 24, 24, |place| if place / 24 % 2 == 0 { 20 } else { 230 });
    let mut quads: Vec<Quad> = Vec::new();
    for by in [0.5, 0.5, 2.0, 2.0, 4.0, 4.0] {
        let mut far = || near(23.25 - by, by, numbers);
        let quad = [(0.25, 0.5), (far(), 2.0), (far(), far()), (far(), 20.0)];
        quads.extend((0..4).map(|start| started(&quad, start)));
        quads.extend((0..4).map(|start| started(&quad.map(|(x, y)| (y, x)), start)));
    }
    picture.push(file, quads);
}

/// An 8-bit plane by limits.txt.
pub fn push_plane(frame: Frame, plane: &limits::Plane) -> Frame {
    frame.u64(plane.width).u64(plane.height).u64(plane.pitch).u32(plane.length)
}

/// The most bytes of a plane that the replay of a call by limits.txt has room for.
const ROOM: u32 = 8_200;

/// The limits of documents 01 and 02 for the quad reader and the list reader.
fn refusals() -> File {
    let mut file = File::new("vectors_tags/data/refusals");
    assert!(limits::quads().iter().all(|row| row.plane.length <= ROOM));
    assert!(limits::lists().iter().all(|row| row.plane.length <= ROOM));
    for row in limits::quads() {
        let frame = push_plane(Frame::new().u8(4), &row.plane);
        let frame = frame.u8(row.edge).u8(row.border).u8(row.threshold).u64(row.code).u16(row.count).u8(row.refusal);
        file.push(push_quad(frame, &row.quad));
    }
    for row in limits::lists() {
        let frame = push_plane(Frame::new().u8(5), &row.plane).u8(row.edge);
        file.push(row.lent.iter().fold(frame, |frame, &length| frame.u16(length)).u8(row.refusal));
    }
    file
}
