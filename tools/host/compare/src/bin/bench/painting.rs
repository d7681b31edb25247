//! The painter: a tag, and a sheet.

use crate::measure::{Times, both, timed};
use muosleap::{Family, Grid, Picture, Print, Table, c};
use std::hint::black_box;
use std::time::Duration;

const FAMILY: Family = Family::T36H11;

const PRINT: Print = Print { x: 100, y: 100, cell: 20, turn: 1, light: 200, dark: 30 };

/// A plane with a tag painted on it.
pub fn painted(width: usize, height: usize, stride: usize) -> Picture<Vec<u8>> {
    let mut picture = Picture { bytes: vec![1; stride * (height - 1) + width], width, height, stride };
    FAMILY.paint_tag(&mut picture, FAMILY.codes()[0], &PRINT).unwrap();
    picture
}

/// Paints a tag, again and again on one plane.
pub fn painter(width: usize, height: usize, stride: usize) -> impl FnMut() -> Duration {
    let mut picture = painted(width, height, stride);
    move || timed(|| FAMILY.paint_tag(&mut picture, FAMILY.codes()[0], &PRINT).unwrap())
}

/// Fills a plane with light in plain Rust, so many times in one call.
fn filler(width: usize, height: usize, times: usize) -> impl FnMut() -> Duration {
    let mut plane = vec![1; width * height];
    move || timed(|| (0..times).for_each(|_| black_box(&mut plane[..]).fill(black_box(PRINT.light))))
}

/// The painter against a plain fill of the plane.
pub fn tags() -> Vec<(String, Times)> {
    let paint = |(width, height): (usize, usize)| {
        let times = both(1, filler(width, height, 1), painter(width, height, width));
        (format!("`paint_tag_in`, {width} × {height}, cell 20"), times)
    };
    [(640, 480), (1920, 1080)].map(paint).into()
}

const WIDTH: usize = 1920;
const HEIGHT: usize = 1080;

/// Sheets of 12 × 12 tags that fill the plane from its first to its last lines: 1,071 of them, and 1,048 with the largest tags that fit.
pub const SHEETS: [(Grid, Print); 2] = [sheet(7, 3), sheet(8, 1)];

const fn sheet(cell: usize, gap: usize) -> (Grid, Print) {
    (Grid { rows: 12, columns: 12, gap }, Print { x: 424, y: 4, cell, turn: 0, light: PRINT.light, dark: PRINT.dark })
}

/// How the library gets the codes.
#[derive(Clone, Copy)]
pub enum Tags {
    Numbered,
    Lent,
}

/// Paints a sheet, again and again on one plane and into the same quads. Before that every tag of it is read.
pub fn sheet_painter((grid, print): &(Grid, Print), stride: usize, tags: Tags) -> impl FnMut() -> Duration + use<> {
    let mut picture = Picture { bytes: vec![1; stride * (HEIGHT - 1) + WIDTH], width: WIDTH, height: HEIGHT, stride };
    let quads = FAMILY.paint_sheet(&mut picture, grid, print).unwrap();
    assert!(FAMILY.try_decode_quads(&picture, &quads).unwrap().into_iter().map(|row| row.unwrap().id).eq(0..144));
    let Table { edge, border, hamming_distance: distance, codes } = FAMILY.table();
    let &Grid { rows, columns, gap } = grid;
    let &Print { x, y, cell, turn, light, dark } = print;
    let (mut plane, mut out, (w, h)) = (picture.bytes, vec![0.0; 8 * 144], (WIDTH, HEIGHT));
    let mut paint = move || match tags {
        Tags::Numbered => {
            let number = FAMILY.number();
            c::paint_sheet_in(&mut plane, w, h, stride, number, rows, columns, gap, x, y, cell, turn, light, dark, &mut out)
        }
        Tags::Lent => {
            let codes = black_box(codes);
            let (p, o) = (&mut plane, &mut out);
            c::paint_sheet(p, w, h, stride, edge, border, distance, codes, rows, columns, gap, x, y, cell, turn, light, dark, o)
        }
    };
    assert_eq!(paint(), 0);
    move || timed(&mut paint)
}

/// A sheet against two plain fills of the plane.
pub fn sheets() -> Vec<(String, Times)> {
    let forms = [("paint_sheet_in", Tags::Numbered), ("paint_sheet", Tags::Lent)];
    let paint = |sheet @ (grid, print): &(Grid, Print), (name, tags): (&str, Tags)| {
        let times = both(1, filler(WIDTH, HEIGHT, 2), sheet_painter(sheet, WIDTH, tags));
        (format!("`{name}`, cell {}, gap {}", print.cell, grid.gap), times)
    };
    SHEETS.iter().flat_map(|sheet| forms.map(|form| paint(sheet, form))).collect()
}
