//! Pictures like a camera's: a sheet of tags with noise.

use muosleap::board::corner_squares;
use muosleap::{Family, Grid, Picture, Print, Quad, Shape};
use oracle::out::Numbers;

const PRINT: Print = Print { x: 16, y: 16, cell: 5, turn: 0, light: 200, dark: 40 };

/// Modules between two tags; their pixels; and the pixels from one tag to the next.
const GAP: usize = 3;
const SPACE: usize = GAP * PRINT.cell;
const STEP: usize = 65;

/// The largest sheet: 576 of the family's 587 tags.
const MOST: Grid = Grid { rows: 18, columns: 32, gap: GAP };

/// As many tags of T36H11, 5 pixels a module, as fit in rows and columns, with the squares of an aprilgrid board, and noise of up
/// to `noise` either way. Beside it the quads of the sheet, which a larger picture repeats to the right and downward.
pub fn sheet(shape: Shape, noise: usize, numbers: &mut Numbers) -> (Picture<Vec<u8>>, Vec<Quad>) {
    let mut picture = Picture::packed(vec![PRINT.light; shape.len()], shape.width, shape.height);
    let fit = |side: usize| side.saturating_sub(SPACE + 2) / STEP;
    let (columns, rows) = (fit(shape.width), fit(shape.height));
    let grid = Grid { rows: rows.min(MOST.rows), columns: columns.min(MOST.columns), gap: GAP };
    let mut quads = Vec::new();
    if grid.tags() > 0 {
        quads = Family::T36H11.paint_sheet(&mut picture, &grid, &PRINT).unwrap();
        corner_squares(&mut picture, &quads, SPACE, PRINT.dark);
        repeat(&mut picture, columns, rows);
    }
    for pixel in &mut picture.bytes {
        *pixel = (*pixel as usize + numbers.below(2 * noise + 1) - noise) as u8;
    }
    (picture, quads)
}

/// Repeats a sheet of the most tags until there are so many columns and rows.
fn repeat(picture: &mut Picture<Vec<u8>>, columns: usize, rows: usize) {
    let &mut Picture { ref mut bytes, width, .. } = picture;
    let (across, down) = (MOST.columns * STEP, MOST.rows * STEP);
    let end = |tags: usize| PRINT.x + tags * STEP;
    for line in bytes.chunks_mut(width) {
        (end(MOST.columns)..end(columns)).for_each(|x| line[x] = line[x - across]);
    }
    for y in end(MOST.rows)..end(rows) {
        bytes.copy_within((y - down) * width..(y - down + 1) * width, y * width);
    }
}

/// The same picture with this stride, and noise as filler.
pub fn padded(picture: &Picture<impl AsRef<[u8]>>, stride: usize, numbers: &mut Numbers) -> Picture<Vec<u8>> {
    let &Picture { width, height, .. } = picture;
    let mut bytes: Vec<u8> = (0..stride * (height - 1) + width).map(|_| (numbers.next() >> 32) as u8).collect();
    bytes.chunks_mut(stride).zip(picture.lines()).for_each(|(to, line)| to[..width].copy_from_slice(line));
    Picture { bytes, width, height, stride }
}
