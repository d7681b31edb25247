//! The picture: a sheet of tags on a desk, under a lamp, with a camera's noise.

use crate::options::Options;
use crate::{FAMILY, SIDE};
use muosleap::board::corner_squares;
use muosleap::{Grid, Picture, Point, Print, Quad, Refusal, Shape, Table};
use std::ops::RangeInclusive;

/// Tags with misprinted modules, and which. The family's match threshold is 3, so up to two are read, and told.
pub const MISPRINTED: [(usize, u64); 2] = [(7, 1 << 20), (22, 1 << 3 | 1 << 30)];

/// How many modules of a tag are misprinted.
pub fn misprinted(tag: usize) -> u32 {
    MISPRINTED.iter().filter(|(id, _)| *id == tag).map(|(_, modules)| modules.count_ones()).sum()
}

/// Camera size.
const WIDTH: usize = 1920;
const HEIGHT: usize = 1080;

/// How many bytes a line may take, with its filler.
pub const PITCHES: RangeInclusive<usize> = WIDTH..=8_192;

const GRID: Grid = Grid { rows: SIDE, columns: SIDE, gap: 3 };
const PRINT: Print = Print { x: 510, y: 90, cell: 12, turn: 0, light: 225, dark: 35 };

/// Pixels of paper around the grid, and the shade of the desk on which it lies.
const MARGIN: usize = 64;
const DESK: u8 = 95;

/// A picture, and where its tags are.
pub struct Camera {
    pub picture: Picture<Vec<u8>>,
    /// The tags' quads, each clockwise from the print's first corner.
    pub quads: Vec<Quad>,
}

impl Camera {
    /// Paints the sheet, smears a tag of it if one is named, adds light and noise, and pads the lines if a pitch is named.
    pub fn photograph(options: &Options) -> Result<Camera, Refusal> {
        let mut words = FAMILY.codes()[..SIDE * SIDE].to_vec();
        MISPRINTED.iter().for_each(|&(id, modules)| words[id] ^= modules);
        let printed = Table { codes: &words, ..FAMILY.table() };
        let mut picture = Picture::packed(vec![0; WIDTH * HEIGHT], WIDTH, HEIGHT);
        let quads = printed.paint_sheet(&mut picture, &GRID, &PRINT)?;
        corner_squares(&mut picture, &quads, GRID.gap * PRINT.cell, PRINT.dark);
        let mut camera = Camera { picture, quads };
        camera.lay_on_desk();
        if let Some(tag) = options.smear {
            camera.smear(camera.quads[tag]);
        }
        camera.expose(options.noise);
        if let Some(pitch) = options.pitch {
            camera.pad(pitch);
        }
        Ok(camera)
    }

    /// The painter makes all of the picture paper: what lies outside the sheet's margin becomes desk.
    fn lay_on_desk(&mut self) {
        let Shape { width, height } = GRID.shape(&FAMILY.table(), PRINT.cell);
        let columns = PRINT.x - MARGIN..PRINT.x + width + MARGIN;
        let rows = PRINT.y - MARGIN..PRINT.y + height + MARGIN;
        for (place, pixel) in self.picture.bytes.iter_mut().enumerate() {
            if !columns.contains(&(place % WIDTH)) || !rows.contains(&(place / WIDTH)) {
                *pixel = DESK;
            }
        }
    }

    /// How many bytes of the picture are filler.
    pub fn filler(&self) -> usize {
        self.picture.bytes.len() - WIDTH * HEIGHT
    }

    /// A grey smear across the middle of a tag.
    fn smear(&mut self, quad: Quad) {
        let middle = |side: fn(Point) -> f32| quad.corners.map(side).iter().sum::<f32>() / 4.0;
        let (x, y) = (middle(|corner| corner.x), middle(|corner| corner.y));
        for (place, pixel) in self.picture.bytes.iter_mut().enumerate() {
            let (dx, dy) = ((place % WIDTH) as f32 - x, (place / WIDTH) as f32 - y);
            if (dx + dy).abs() < 30.0 && (dx - dy).abs() < 75.0 {
                *pixel = 130;
            }
        }
    }

    /// Less light toward the picture's corners, and noise with about this deviation.
    fn expose(&mut self, noise: usize) {
        let mut numbers = Numbers(0x9e37_79b9_7f4a_7c15);
        for (place, pixel) in self.picture.bytes.iter_mut().enumerate() {
            let across = (place % WIDTH) as f32 / WIDTH as f32 - 0.4;
            let down = (place / WIDTH) as f32 / HEIGHT as f32 - 0.4;
            let light = 1.06 - 0.5 * (across * across + down * down);
            let shade = *pixel as f32 * light + noise as f32 * numbers.spread();
            *pixel = shade.round().clamp(0.0, 255.0) as u8;
        }
    }

    /// Fills each line but the last up with noise to `pitch` bytes, as a camera does that does not care what it sends there.
    fn pad(&mut self, pitch: usize) {
        let mut numbers = Numbers(0xd1b5_4a32_d192_ed03);
        let length = pitch * (HEIGHT - 1) + WIDTH;
        let mut bytes: Vec<u8> = (0..length).map(|_| (numbers.next() >> 32) as u8).collect();
        bytes.chunks_mut(pitch).zip(self.picture.lines()).for_each(|(to, line)| to[..WIDTH].copy_from_slice(line));
        self.picture = Picture { bytes, width: WIDTH, height: HEIGHT, stride: pitch };
    }
}

/// Xorshift numbers: the same picture every time.
struct Numbers(u64);

impl Numbers {
    fn next(&mut self) -> u64 {
        self.0 ^= self.0 << 13;
        self.0 ^= self.0 >> 7;
        self.0 ^= self.0 << 17;
        self.0
    }

    /// A number about 0, with deviation 1.
    fn spread(&mut self) -> f32 {
        (0..3).map(|_| (self.next() >> 40) as f32 / 8_388_608.0 - 1.0).sum()
    }
}
