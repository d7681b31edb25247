//! Vectors of the painter, which the original does not have, and of reading what it painted, which the original can.

use crate::limits::{self, Plane};
use crate::out::{Digest, File, Frame, Numbers, SEED};
use crate::quads::{Picture, Quad, push_plane, push_quad, push_reading, started};
use crate::words::search;

pub fn files() -> Vec<File> {
    vec![paintings(), prints()]
}

/// What a painting takes.
#[derive(Clone, Copy)]
pub struct Print {
    pub width: u64,
    pub height: u64,
    pub edge: u8,
    pub border: u8,
    pub word: u64,
    pub x: u64,
    pub y: u64,
    pub cell: u64,
    pub turn: u8,
    pub light: u8,
    pub dark: u8,
}

impl Print {
    pub fn size(&self) -> u64 {
        (self.edge as u64 + 2 * self.border as u64) * self.cell
    }

    /// The plane in document 01's words: for each pixel the print's row and column, counted in cells from the print's first corner,
    /// rows running clockwise.
    pub fn painted(&self) -> Vec<u8> {
        let (side, edge, border) = (self.size() / self.cell, self.edge as u64, self.border as u64);
        let pixel = |place: u64| {
            let (x, y) = (place % self.width, place / self.width);
            let inside = self.x <= x && x < self.x + self.size() && self.y <= y && y < self.y + self.size();
            if !inside {
                return self.light;
            }
            let (across, down) = ((x - self.x) / self.cell, (y - self.y) / self.cell);
            let last = side - 1;
            let (row, column) = match self.turn {
                0 => (down, across),
                1 => (last - across, down),
                2 => (last - down, last - across),
                _ => (across, last - down),
            };
            let module = row.checked_sub(border).zip(column.checked_sub(border)).filter(|&(i, j)| i < edge && j < edge);
            match module {
                Some((i, j)) if self.word >> (edge * edge - 1 - (i * edge + j)) & 1 == 1 => self.light,
                _ => self.dark,
            }
        };
        (0..self.width * self.height).map(pixel).collect()
    }

    /// The outer corners, clockwise from the print's first, which is the corner that the turn says.
    pub fn quad(&self) -> Quad {
        let (left, top) = (self.x as f32 - 0.5, self.y as f32 - 0.5);
        let (right, bottom) = (left + self.size() as f32, top + self.size() as f32);
        started(&[(left, top), (right, top), (right, bottom), (left, bottom)], self.turn as usize)
    }

    /// A plane of this width and height without filler.
    pub fn packed(&self) -> Plane {
        let (width, height) = (self.width, self.height);
        Plane { width, height, pitch: width, length: (width * height) as u32 }
    }

    /// The painting of a plane. Pixels are the same at each pitch; those of a refused call are not painted.
    fn frame(&self, plane: &Plane, refusal: u8) -> Frame {
        let (pixels, quad) = if refusal == 0 { (self.painted(), self.quad()) } else { (vec![], [(0.0, 0.0); 4]) };
        let mut digest = Digest::new();
        digest.bytes(&pixels);
        let frame = push_plane(Frame::new().u8(1), plane).u8(self.edge).u8(self.border);
        let frame = frame.u64(self.word).u64(self.x).u64(self.y).u64(self.cell);
        push_quad(frame.u8(self.turn).u8(self.light).u8(self.dark).u8(refusal).u64(digest.0), &quad)
    }
}

/// Painted planes of every edge, border and turn, and the limits of documents 01 and 02.
fn paintings() -> File {
    let mut file = File::new("vectors_tags/data/paintings");
    let mut numbers = Numbers::from(SEED + 14);
    for edge in 1..=8u8 {
        for border in 1..=4u8 {
            for turn in 0..4 {
                let dark = numbers.below(206) as u8;
                let light = dark + 50 + numbers.below(206 - dark as usize) as u8;
                let (x, y, cell) = (numbers.below(5) as u64, numbers.below(5) as u64, 1 + numbers.below(3) as u64);
                let word = numbers.next() >> (64 - edge as u32 * edge as u32);
                let mut print = Print { width: 0, height: 0, edge, border, word, x, y, cell, turn, light, dark };
                print.width = x + print.size() + 1 + numbers.below(4) as u64;
                print.height = y + print.size() + 1 + numbers.below(4) as u64;
                file.push(print.frame(&print.packed(), 0));
            }
        }
    }
    for row in limits::paintings() {
        file.push(row.print.frame(&row.plane, row.refusal));
    }
    file
}

/// Tags of the families, some misprinted, painted and read at each start. Where no module lies near a half the original reads what
/// the oracle painted; elsewhere (even cells) the answer is that of documents 01 and 02. Both are the same: the tag's own number, turn
/// (4 - s) modulo 4, as many differing modules as are misprinted, the corners in print order.
fn prints() -> File {
    let mut file = File::new("vectors_tags/data/prints");
    let mut numbers = Numbers::from(SEED + 3);
    for number in 0..5 {
        for turn in 0..4 {
            for cell in [1, 2, 3, 4] {
                file.push(read_print(number, turn, cell, &mut numbers));
            }
        }
    }
    file
}

fn read_print(number: u8, turn: u8, cell: u64, numbers: &mut Numbers) -> Frame {
    let family = Picture::new(number, 1, 1, |_| 0).detector;
    let (edge, border) = (family.edge(), family.border());
    let id = numbers.below(family.code_list().len());
    let flips = numbers.below(family.hamming_distance() as usize);
    let mut word = family.code_list()[id];
    (0..flips).for_each(|flip| word ^= 1 << (11 * flip + numbers.below(10)));
    let misprinted = (word ^ family.code_list()[id]).count_ones() as u8;
    let found = search(word, family.hamming_distance(), family.code_list(), edge);
    assert_eq!(found, (0, id, 0, misprinted), "the original searches a misprinted word otherwise");
    let (dark, by) = (numbers.below(150) as u8, 50 + numbers.below(56) as u8);
    let (x, y) = (numbers.below(4) as u64, numbers.below(4) as u64);
    let mut print = Print { width: 0, height: 0, edge, border, word, x, y, cell, turn, light: dark + by, dark };
    print.width = x + print.size() + 1 + numbers.below(3) as u64;
    print.height = y + print.size() + 1 + numbers.below(3) as u64;
    let painted = print.painted();
    let picture = Picture::new(number, print.width as usize, print.height as usize, |place| painted[place]);
    let frame = Frame::new().u8(2).u8(print.width as u8).u8(print.height as u8).u8(number).u64(word);
    let frame = frame.u8(x as u8).u8(y as u8).u8(cell as u8).u8(turn).u8(print.light).u8(print.dark);
    (0..4).fold(frame, |frame, start| {
        let quad = started(&print.quad(), start);
        let mut corners = print.quad();
        corners.reverse();
        let answer = (0, id, (4 - start as u8) % 4, misprinted, corners);
        assert!(!picture.is_clear(&quad) || picture.read(&quad) == answer, "the original reads a painted tag otherwise");
        push_reading(frame, answer)
    })
}
