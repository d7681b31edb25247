//! Painted tags, pictures that show them, and what the readers say.

use crate::definition::{Pixel, level, lit, places, sampled};
use crate::numbers::Numbers;
use crate::tables::{made, passing};
use muosleap::painter::paint_tag;
use muosleap::{FAMILIES, Family, Picture, Print, Quad, Refusal, Shape, Table, Tag};

/// A number below `most`.
pub fn below(most: usize, numbers: &mut Numbers) -> usize {
    (numbers.next() >> 20) as usize % most
}

/// What is read of a quad.
pub type Read = Result<Tag, Refusal>;

/// What a tag says: number, turn, differing modules, corners.
pub type Said = (usize, u8, u8, Quad);

pub fn said(read: Read) -> Result<Said, Refusal> {
    read.map(|tag| (tag.id, tag.turn, tag.differing, tag.corners))
}

/// What demand 3 says of start s of a quad: the own number, turn (4 − s) modulo 4, as many differing modules as were misprinted,
/// and the corners fourth, third, second, first.
pub fn own(id: usize, start: usize, misprinted: u8, quad: &Quad) -> Said {
    let [first, second, third, fourth] = quad.corners;
    (id, (4 - start as u8) % 4, misprinted, Quad { corners: [fourth, third, second, first] })
}

/// Whose tags are painted and read: a lent table's, which may be that of a family.
#[derive(Clone, Copy)]
pub struct Tags<'a> {
    pub table: Table<'a>,
    pub family: Option<Family>,
}

impl Tags<'_> {
    pub fn of(family: Family) -> Tags<'static> {
        Tags { table: family.table(), family: Some(family) }
    }

    /// A quad alone and as the only one of a list, with the table lent and by the family's number. All say the same.
    pub fn read(&self, picture: &Picture<impl AsRef<[u8]>>, quad: &Quad) -> Read {
        let read = self.table.try_decode_quad(picture, quad);
        assert_eq!(self.read_list(picture, &[*quad]), [read]);
        if let Some(family) = self.family {
            assert_eq!(family.try_decode_quad(picture, quad), read);
        }
        read
    }

    /// A list, with the table lent and by the family's number.
    pub fn read_list(&self, picture: &Picture<impl AsRef<[u8]>>, quads: &[Quad]) -> Vec<Read> {
        let rows = self.table.try_decode_quads(picture, quads).unwrap();
        if let Some(family) = self.family {
            assert_eq!(family.try_decode_quads(picture, quads).as_ref(), Ok(&rows));
        }
        rows
    }
}

/// Runs for each family, so many times, and for lent tables of all edges from 2 that pass the likeness check, fewer times.
pub fn for_tags(times: usize, mut run: impl FnMut(Tags)) {
    for family in FAMILIES {
        (0..times).for_each(|_| run(Tags::of(family)));
    }
    for (edge, border, hamming_distance) in LENT {
        let codes = made(edge, hamming_distance, 20);
        let table = passing(Table { edge, border, hamming_distance, codes: &codes });
        (0..times.div_ceil(4)).for_each(|_| run(Tags { table, family: None }));
    }
}

/// Edge, border and match threshold of the lent tables.
const LENT: [(u8, u8, u8); 14] = [
    (2, 1, 1),
    (2, 3, 1),
    (3, 1, 1),
    (3, 4, 2),
    (4, 1, 2),
    (4, 3, 3),
    (5, 1, 3),
    (5, 3, 4),
    (6, 4, 5),
    (7, 1, 4),
    (7, 3, 8),
    (8, 1, 3),
    (8, 2, 9),
    (8, 3, 12),
];

/// A painted tag, and the quad at which it is read.
pub struct Painted<'a> {
    pub tags: Tags<'a>,
    pub id: usize,
    pub misprinted: u8,
    pub word: u64,
    pub print: Print,
    pub plane: Picture<Vec<u8>>,
    /// The painter's own, if the tag is not `read_at` another.
    pub quad: Quad,
    /// The pixels that this quad takes.
    pub samples: Vec<Pixel>,
}

impl<'a> Painted<'a> {
    /// The table's code with this number, flipped at some places, and so many pixels to the right of the tag and below it.
    pub fn new(tags: Tags<'a>, id: usize, flipped: u64, print: Print, behind: [usize; 2]) -> Painted<'a> {
        let (table, word) = (tags.table, tags.table.codes[id] ^ flipped);
        let side = table.side() * print.cell;
        let (width, height) = (print.x + side + behind[0], print.y + side + behind[1]);
        let mut plane = Picture::packed(vec![0; width * height], width, height);
        let quad = paint_tag(&mut plane, table.edge, table.border, word, &print).unwrap();
        let samples = sampled(&table, &quad, print.cell);
        Painted { tags, id, misprinted: flipped.count_ones() as u8, word, print, plane, quad, samples }
    }

    /// Any code, anywhere in a plane and so many pixels away from its edges at least, with fewer misprinted modules than the
    /// match threshold.
    pub fn random(tags: Tags<'a>, cell: usize, margin: usize, numbers: &mut Numbers) -> Painted<'a> {
        let Table { edge, hamming_distance, codes, .. } = tags.table;
        let (id, misprinted) = (below(codes.len(), numbers), below(hamming_distance as usize, numbers));
        let flipped = some_bits(edge as usize * edge as usize, misprinted, numbers);
        let behind = [0; 2].map(|_: usize| margin.max(1) + below(20, numbers));
        Painted::new(tags, id, flipped, any_print(cell, margin, numbers), behind)
    }

    /// The same tag and another quad.
    pub fn read_at(self, quad: Quad) -> Painted<'a> {
        Painted { quad, samples: places(&self.tags.table, &quad), ..self }
    }

    /// Of each sample whether it is painted light.
    pub fn lights(&self) -> Vec<bool> {
        self.samples.iter().map(|&pixel| level(&self.plane, pixel) == self.print.light).collect()
    }

    pub fn is_lit(&self, picture: &Picture<impl AsRef<[u8]>>) -> bool {
        lit(&self.plane, picture, &self.samples, self.print.light)
    }

    /// The guarantee: each start of this quad is read as demand 3 says.
    pub fn is_read(&self, picture: &Picture<impl AsRef<[u8]>>, quad: &Quad) {
        for start in 0..4 {
            let read = said(self.tags.read(picture, &quad.started(start)));
            assert_eq!(read, Ok(own(self.id, start, self.misprinted, quad)), "word {:#x}, {:?}, {quad:?}", self.word, self.print);
        }
    }

    /// Each start is refused.
    pub fn is_refused(&self, picture: &Picture<impl AsRef<[u8]>>, refusal: Refusal) {
        for start in 0..4 {
            let read = self.tags.read(picture, &self.quad.started(start));
            assert_eq!(read, Err(refusal), "word {:#x}, {:?}", self.word, self.print);
        }
    }
}

/// A place and a turn, and two shades at least 50 apart.
pub fn any_print(cell: usize, margin: usize, numbers: &mut Numbers) -> Print {
    let dark = below(206, numbers);
    let light = dark + 50 + below(206 - dark, numbers);
    let (x, y, turn) = (margin + below(20, numbers), margin + below(20, numbers), below(4, numbers) as u8);
    Print { x, y, cell, turn, light: light as u8, dark: dark as u8 }
}

/// So many of the lowest `among` bits.
fn some_bits(among: usize, count: usize, numbers: &mut Numbers) -> u64 {
    let mut bits = 0u64;
    while bits.count_ones() < count as u32 {
        bits |= 1 << below(among, numbers);
    }
    bits
}

/// Pixels a module: 1 to 8, now and then 64.
pub fn any_cell(numbers: &mut Numbers) -> usize {
    if below(60, numbers) == 0 { 64 } else { 1 + below(8, numbers) }
}

/// How the sampled modules of a tag are lit.
#[derive(Clone, Copy, Debug)]
pub struct Lamp {
    pub least: usize,
    pub greatest: usize,
    /// So many modules are `near` away from the middle, all others at least 10.
    pub unsure: usize,
    pub near: usize,
}

impl Lamp {
    /// Any lamp whose greatest and least level are so far apart, with no unsure module.
    pub fn of(spread: usize, numbers: &mut Numbers) -> Lamp {
        let least = below(256 - spread, numbers);
        Lamp { least, greatest: least + spread, unsure: 0, near: 0 }
    }

    /// Any lamp that lights well enough, every other time only just.
    pub fn any(numbers: &mut Numbers) -> Lamp {
        let spread = if below(2, numbers) == 0 { 50 } else { 50 + below(206, numbers) };
        Lamp::of(spread, numbers)
    }

    pub fn middle(&self) -> usize {
        (self.least + self.greatest).div_ceil(2)
    }

    /// A level for each module, light or dark: one dark module has the least and one light module the greatest. Of the others
    /// every third or so is as near to the middle as may be, and every third as far.
    pub fn levels(&self, lights: &[bool], numbers: &mut Numbers) -> Vec<u8> {
        let mut levels = vec![0; lights.len()];
        let (mut ends, mut unsure) = ([true; 2], self.unsure);
        for module in shuffled(lights.len(), numbers) {
            let light = lights[module];
            let away = |distance: usize| if light { self.middle() + distance } else { self.middle() - distance };
            let most = if light { self.greatest - self.middle() } else { self.middle() - self.least };
            levels[module] = if std::mem::take(&mut ends[light as usize]) {
                away(most)
            } else if unsure > 0 {
                unsure -= 1;
                away(self.near)
            } else {
                away([10, most, 10 + below(most - 9, numbers)][below(3, numbers)])
            } as u8;
        }
        assert!(ends == [false; 2] && unsure == 0, "too few modules");
        levels
    }
}

/// The numbers below `count` in any order.
fn shuffled(count: usize, numbers: &mut Numbers) -> Vec<usize> {
    let mut order: Vec<usize> = (0..count).collect();
    (1..count).for_each(|place| order.swap(place, below(place + 1, numbers)));
    order
}

/// Noise, any part of which is a picture with filler. What is written there stays, and is noise in the next picture.
pub struct Noise(Vec<u8>);

impl Noise {
    pub fn new(numbers: &mut Numbers) -> Noise {
        Noise(numbers.bytes(8_192 * 1_200))
    }

    /// A picture of noise at a random stride, from the width to 8,192.
    pub fn picture(&mut self, shape: Shape, numbers: &mut Numbers) -> Picture<&mut [u8]> {
        let Shape { width, height } = shape;
        let stride = [width, width + below(40, numbers), width + below(8_193 - width, numbers)][below(3, numbers)];
        let length = stride * (height - 1) + width;
        let start = below(self.0.len() - length + 1, numbers);
        Picture { bytes: &mut self.0[start..start + length], width, height, stride }
    }

    /// A picture with these levels at a tag's samples. All else is noise, or the painted plane's negative, or of one level.
    pub fn lit(&mut self, painted: &Painted, levels: &[u8], numbers: &mut Numbers) -> Picture<&mut [u8]> {
        let picture = self.picture(painted.plane.shape(), numbers);
        let kind = below(4, numbers);
        for (line, shown) in picture.bytes.chunks_mut(picture.stride).zip(painted.plane.lines()) {
            match kind {
                0 => line.iter_mut().zip(shown).for_each(|(pixel, shade)| *pixel = 255 - shade),
                1 => line[..picture.width].fill(levels[0]),
                _ => {}
            }
        }
        for (&(x, y), &level) in painted.samples.iter().zip(levels) {
            picture.bytes[y * picture.stride + x] = level;
        }
        picture
    }
}
