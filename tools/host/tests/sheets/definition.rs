//! A sheet as document 02 says it, with the painter's words of document 01: written for these tests alone, and without a formula for
//! where a tag stands.

use muosleap::{Grid, Print, Table};

/// A tag as shades of its cells, from the upper left one.
type Square = Vec<Vec<u8>>;

pub struct Sheet {
    light: u8,
    turn: usize,
    /// The tags in rows from the top.
    tags: Vec<Vec<Square>>,
    /// For each column of pixels in which column of tags it lies, if in any, and in which of a tag's columns of cells.
    across: Vec<Option<(usize, usize)>>,
    /// The same of rows.
    down: Vec<Option<(usize, usize)>>,
}

impl Sheet {
    /// "The painter draws a grid of a table's codes on one plane. The lower left tag is position 0, numbers rise along a row and then
    /// upward."
    pub fn new(table: &Table, grid: &Grid, print: &Print, width: usize, height: usize) -> Sheet {
        let mut tags = vec![vec![Square::new(); grid.columns]; grid.rows];
        let mut codes = table.codes.iter();
        for tag in tags.iter_mut().rev().flatten() {
            *tag = square(table, *codes.next().unwrap(), print);
        }
        let line = |length, start, tags| line(length, start, tags, [table.side(), grid.gap, print.cell]);
        let (across, down) = (line(width, print.x, grid.columns), line(height, print.y, grid.rows));
        Sheet { light: print.light, turn: print.turn as usize, tags, across, down }
    }

    /// The shade of a pixel: that of the tag in which it lies, or light.
    fn shade(&self, x: usize, y: usize) -> u8 {
        match (self.across[x], self.down[y]) {
            (Some((column, j)), Some((row, i))) => self.tags[row][column][i][j],
            _ => self.light,
        }
    }

    /// What the plane's bytes are to be: each pixel painted, and filler as it was.
    pub fn painted(&self, before: &[u8], pitch: usize) -> Vec<u8> {
        let byte = |(place, &byte): (usize, &u8)| match (place % pitch, place / pitch) {
            (x, y) if x < self.across.len() => self.shade(x, y),
            _ => byte,
        };
        before.iter().enumerate().map(byte).collect()
    }

    /// The tags' quads in the order of their positions: "the outer corners, half a pixel before the first and after the last dark pixel,
    /// clockwise from the print's first".
    pub fn quads(&self) -> Vec<[f32; 8]> {
        let mut quads = Vec::new();
        for (row, columns) in self.tags.iter().enumerate().rev() {
            for column in 0..columns.len() {
                let ([left, right], [top, bottom]) = (ends(&self.across, column), ends(&self.down, row));
                let mut corners = [[left, top], [right, top], [right, bottom], [left, bottom]];
                corners.rotate_left(self.turn);
                quads.push(corners.as_flattened().try_into().unwrap());
            }
        }
        quads
    }
}

/// "Dark borders, and module (i, j), counted from 0 inside the border, of the word at bit edge² − 1 − (i × edge + j), 1 light. At turn
/// 0, 1, 2, 3 the print's first corner is upper left, upper right, lower right, lower left; rows run from it clockwise."
fn square(table: &Table, word: u64, print: &Print) -> Square {
    let (edge, border, side) = (table.edge as usize, table.border as usize, table.side());
    let mut square = vec![vec![print.dark; side]; side];
    for (i, j) in (0..edge).flat_map(|i| (0..edge).map(move |j| (i, j))) {
        if word >> (edge * edge - 1 - (i * edge + j)) & 1 == 1 {
            square[border + i][border + j] = print.light;
        }
    }
    for _ in 0..print.turn {
        // A quarter turn clockwise: the left column, from below, becomes the upper row.
        square = (0..side).map(|row| (0..side).map(|column| square[side - 1 - column][row]).collect()).collect();
    }
    square
}

/// Tags one after the other along a line of pixels, `cell` pixels for each of their cells, with a gap of cells between them.
fn line(length: usize, start: usize, tags: usize, [side, gap, cell]: [usize; 3]) -> Vec<Option<(usize, usize)>> {
    let cells = (0..tags).flat_map(|tag| {
        let gap = if tag + 1 < tags { gap } else { 0 };
        (0..side).map(move |place| Some((tag, place))).chain(vec![None; gap])
    });
    let mut line = vec![None; start];
    line.extend(cells.flat_map(|cell_of| vec![cell_of; cell]));
    assert!(line.len() < length, "the grid does not end a pixel before the edge");
    line.resize(length, None);
    line
}

/// Half a pixel before the first pixel of a tag and after its last.
fn ends(line: &[Option<(usize, usize)>], tag: usize) -> [f32; 2] {
    let of_tag = |place: &Option<(usize, usize)>| place.is_some_and(|(this, _)| this == tag);
    [line.iter().position(of_tag).unwrap() as f32 - 0.5, line.iter().rposition(of_tag).unwrap() as f32 + 0.5]
}
