//! The picture with what was found drawn in: samples of clusters, each tag's outline, corners and number.

use crate::camera::Camera;
use muosleap::files::{pgm, png};
use muosleap::image_util::Saddles;
use muosleap::{Point, Quad, Refusal, Shape, Tag};
use std::path::Path;
use std::{fs, io};

type Colour = [u8; 3];

const CLUSTER: Colour = [255, 140, 0];
const READ: Colour = [0, 150, 90];
const FIRST: Colour = [220, 30, 80];
const NUMBER: Colour = [20, 60, 160];

/// A picture in colour.
pub struct Drawing {
    shape: Shape,
    pixels: Vec<Colour>,
}

/// Draws the clusters, and each tag in green with its first corner in red, or in red with its refusal.
pub fn draw(camera: &Camera, saddles: &Saddles, quads: &[Quad], rows: &[Result<Tag, Refusal>]) -> Drawing {
    let pale = |&shade: &u8| [(shade as u16 * 3 / 4 + 60).min(255) as u8; 3];
    let mut drawing = Drawing { shape: camera.picture.shape(), pixels: camera.picture.lines().flatten().map(pale).collect() };
    for (pixel, &response) in drawing.pixels.iter_mut().zip(saddles.response()) {
        if response == f32::MAX {
            *pixel = CLUSTER;
        }
    }
    for (quad, four) in quads.iter().zip(rows.chunks(4)) {
        match four[0] {
            Ok(tag) => drawing.tag(&tag),
            Err(refusal) => drawing.refused(quad, refusal),
        }
    }
    drawing
}

impl Drawing {
    fn tag(&mut self, tag: &Tag) {
        // Print order of the answer is fourth, third, second, first corner.
        let [fourth, third, second, first] = tag.corners.corners;
        self.outline(&[first, second, third, fourth], READ);
        self.ring(first, FIRST);
        self.label(first, second, &tag.id.to_string(), NUMBER);
    }

    fn refused(&mut self, quad: &Quad, refusal: Refusal) {
        self.outline(&quad.corners, FIRST);
        self.label(quad.corners[0], quad.corners[1], &format!("R{}", refusal.number()), FIRST);
    }

    fn outline(&mut self, corners: &[Point; 4], colour: Colour) {
        for k in 0..4 {
            self.line(corners[k], corners[(k + 1) % 4], colour);
            self.ring(corners[k], colour);
        }
    }

    fn dot(&mut self, x: f32, y: f32, colour: Colour) {
        let (x, y) = (x.round() as usize, y.round() as usize);
        if x < self.shape.width && y < self.shape.height {
            self.pixels[y * self.shape.width + x] = colour;
        }
    }

    /// A line of two pixels.
    fn line(&mut self, from: Point, to: Point, colour: Colour) {
        let steps = (to.x - from.x).abs().max((to.y - from.y).abs()).ceil();
        for step in 0..=steps as usize {
            let part = step as f32 / steps.max(1.0);
            let (x, y) = (from.x + part * (to.x - from.x), from.y + part * (to.y - from.y));
            for (dx, dy) in [(0.0, 0.0), (1.0, 0.0), (0.0, 1.0), (1.0, 1.0)] {
                self.dot(x + dx - 0.5, y + dy - 0.5, colour);
            }
        }
    }

    /// A ring about a corner, with the pixel at its middle.
    fn ring(&mut self, center: Point, colour: Colour) {
        for (dx, dy) in (-12..=12).flat_map(|dx| (-12..=12).map(move |dy| (dx as f32, dy as f32))) {
            let radius = dx.hypot(dy);
            if (8.0..11.5).contains(&radius) || radius < 1.5 {
                self.dot(center.x + dx, center.y + dy, colour);
            }
        }
    }

    /// A text in the gap above a tag, in the middle between its upper corners.
    fn label(&mut self, left: Point, right: Point, text: &str, colour: Colour) {
        const DOT: usize = 4;
        let width = text.len() * 4 * DOT - DOT;
        let x = (left.x + right.x) / 2.0 - width as f32 / 2.0;
        let y = left.y - 28.0;
        for (place, letter) in text.bytes().enumerate() {
            for (row, column) in (0..5 * DOT).flat_map(|row| (0..3 * DOT).map(move |column| (row, column))) {
                if glyph(letter) >> (14 - (row / DOT * 3 + column / DOT)) & 1 == 1 {
                    self.dot(x + (place * 4 * DOT + column) as f32, y + row as f32, colour);
                }
            }
        }
    }

    /// Writes the picture as the camera gave it, and the drawing in grey and in colour.
    pub fn write(&self, camera: &Camera, folder: &Path) -> io::Result<()> {
        let Shape { width, height } = self.shape;
        let grey = |&[r, g, b]: &Colour| ((r as u32 * 3 + g as u32 * 6 + b as u32) / 10) as u8;
        let marked: Vec<u8> = self.pixels.iter().map(grey).collect();
        let seen = camera.picture.lines().collect::<Vec<_>>().concat();
        fs::create_dir_all(folder)?;
        println!();
        for (name, bytes, what) in [
            ("sheet.pgm", pgm(width, height, &seen), "the picture as the camera gives it, without filler"),
            ("marked.pgm", pgm(width, height, &marked), "the picture with clusters and corners drawn in"),
            (
                "marked.png",
                png(width, height, &self.pixels, None),
                "the same in colour: clusters orange, each tag's corners green, the first of them red",
            ),
        ] {
            fs::write(folder.join(name), bytes)?;
            println!("Written: {}, {what}", folder.join(name).display());
        }
        Ok(())
    }
}

/// A digit or an R, three dots wide and five high, row by row from the highest bit.
fn glyph(letter: u8) -> u16 {
    match letter {
        b'0' => 0b111_101_101_101_111,
        b'1' => 0b010_110_010_010_111,
        b'2' => 0b111_001_111_100_111,
        b'3' => 0b111_001_111_001_111,
        b'4' => 0b101_101_111_001_001,
        b'5' => 0b111_100_111_001_111,
        b'6' => 0b111_100_111_101_111,
        b'7' => 0b111_001_010_010_010,
        b'8' => 0b111_101_111_101_111,
        b'9' => 0b111_101_111_001_111,
        _ => 0b110_101_110_101_101,
    }
}
