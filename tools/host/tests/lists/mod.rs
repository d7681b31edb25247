//! Pictures with tags, and lists of quads in them that are read, misread and refused.

use crate::numbers::Numbers;
use muosleap::{Grid, Picture, Print, Shape, Table};

/// A quad's eight numbers.
pub type Eight = [f32; 8];

pub fn started(mut quad: Eight, start: usize) -> Eight {
    quad.rotate_left(2 * (start % 4));
    quad
}

pub fn moved(quad: Eight, x: f32, y: f32) -> Eight {
    [0, 1, 2, 3, 4, 5, 6, 7].map(|k| quad[k] + if k % 2 == 0 { x } else { y })
}

pub const PRINT: Print = Print { x: 3, y: 2, cell: 2, turn: 1, light: 200, dark: 20 };

/// A picture with a grid of these words, as tags of the table's edge and border, and the quads of the tags.
pub fn painted(table: &Table, words: &[u64]) -> (Picture<Vec<u8>>, Vec<Eight>) {
    let columns = words.len().min(32);
    let grid = Grid { rows: words.len().div_ceil(columns), columns, gap: 2 };
    let mut codes = words.to_vec();
    codes.resize(grid.tags(), 0);
    let Shape { width, height } = grid.shape(table, PRINT.cell);
    let (width, height) = (PRINT.x + width + 4, PRINT.y + height + 3);
    let mut picture = Picture::packed(vec![0; width * height], width, height);
    let quads = Table { codes: &codes, ..*table }.paint_sheet(&mut picture, &grid, &PRINT).unwrap();
    (picture, quads.into_iter().map(Eight::from).take(words.len()).collect())
}

/// Makes the upper line of a tag's modules grey, halfway between light and dark.
pub fn grey(picture: &mut Picture<Vec<u8>>, quad: &Eight, table: &Table) {
    let first = |place: usize| (quad.iter().skip(place).step_by(2).fold(f32::MAX, |x, y| x.min(*y)) + 0.5) as usize;
    let (left, upper) = (first(0), first(1) + table.border as usize * PRINT.cell);
    let lines = picture.bytes.chunks_mut(picture.width).skip(upper).take(PRINT.cell);
    lines.for_each(|line| line[left..left + table.side() * PRINT.cell].fill((PRINT.light + PRINT.dark) / 2));
}

/// A quad whose corners are in the picture's last pixel, and its samples outside.
pub fn lower_right(picture: &Picture<Vec<u8>>) -> Eight {
    let [x, y] = [picture.width, picture.height].map(|side| side as f32 - 0.5 - 1.0 / 4_096.0);
    [x, y, x, y, x, y, x, y]
}

/// A number below `most`.
pub fn below(most: usize, numbers: &mut Numbers) -> usize {
    (numbers.next() >> 20) as usize % most
}

/// Words of a few codes, with up to one misprinted module more than is read.
fn random_words(table: &Table, numbers: &mut Numbers) -> Vec<u64> {
    let (codes, modules, most) = (table.codes, table.edge as usize * table.edge as usize, table.hamming_distance as usize);
    let (first, ids, count) = (below(codes.len(), numbers), 1 + below(6, numbers), 1 + below(12, numbers));
    let mut word = |_| {
        let word = codes[(first + below(ids, numbers)) % codes.len()];
        (0..below(most + 2, numbers)).fold(word, |word, _| word ^ 1 << below(modules, numbers))
    };
    (0..count).map(&mut word).collect()
}

/// A tag's quad from any start, in half of the cases moved, mirrored, or refused by itself.
fn random_quad(picture: &Picture<Vec<u8>>, tags: &[Eight], numbers: &mut Numbers) -> Eight {
    let mut quad = started(tags[below(tags.len(), numbers)], below(4, numbers));
    match below(12, numbers) {
        0 => quad[below(8, numbers)] = [f32::NAN, 16_384.0, f32::NEG_INFINITY][below(3, numbers)],
        1 => quad = moved(quad, picture.width as f32, 0.0),
        2 => quad = moved(quad, below(5, numbers) as f32 - 2.0, below(5, numbers) as f32 - 2.0),
        3 => quad = [6, 7, 4, 5, 2, 3, 0, 1].map(|place| quad[place]),
        4 => quad = [1.0; 8],
        5 => quad = lower_right(picture),
        _ => {}
    }
    quad
}

/// A picture with tags, the first of them grey, and a list of quads.
pub fn random_list(table: &Table, numbers: &mut Numbers) -> (Picture<Vec<u8>>, Vec<Eight>) {
    let (mut picture, tags) = painted(table, &random_words(table, numbers));
    grey(&mut picture, &tags[0], table);
    let list = (0..below(40, numbers)).map(|_| random_quad(&picture, &tags, numbers)).collect();
    (picture, list)
}
