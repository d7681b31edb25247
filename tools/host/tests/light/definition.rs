//! When a picture shows a painted tag, in the words of ticket 8 of document 02, and where a quad is sampled, in those of document
//! 01. Written for these tests alone.

use muosleap::{Picture, Point, Quad, Table};

/// A pixel: its column and its row.
pub type Pixel = (usize, usize);

pub fn level(picture: &Picture<impl AsRef<[u8]>>, (x, y): Pixel) -> u8 {
    picture.bytes.as_ref()[y * picture.stride + x]
}

/// "Every picture of the painted plane's width and height in which each sampled dark module is at least 10 below the middle, each
/// light one at least 10 above it, and greatest and least are at least 50 apart. The middle is that of document 01, over the
/// samples taken", which is half of least plus greatest level, rounded, halves up. What is dark and what is light the painted
/// plane shows.
pub fn lit(painted: &Picture<Vec<u8>>, picture: &Picture<impl AsRef<[u8]>>, samples: &[Pixel], light: u8) -> bool {
    let levels = samples.iter().map(|&pixel| level(picture, pixel) as i32);
    let (least, greatest) = (levels.clone().min().unwrap(), levels.clone().max().unwrap());
    let middle = (least + greatest + 1) / 2;
    let shows = |(&pixel, level_here): (&Pixel, i32)| match level(painted, pixel) == light {
        true => level_here >= middle + 10,
        false => level_here <= middle - 10,
    };
    picture.shape() == painted.shape() && samples.iter().zip(levels).all(shows) && greatest - least >= 50
}

/// The first pixel of a painted tag: its quad begins half a pixel before it.
pub fn upper_left(quad: &Quad) -> Pixel {
    let first = |of: fn(&Point) -> f32| (quad.corners.iter().map(of).fold(f32::MAX, f32::min) + 0.5) as usize;
    (first(|corner| corner.x), first(|corner| corner.y))
}

/// The sampled pixels of a painted tag, whose quad is the painter's own: of each module inside the border the middle pixel, and
/// of two middle ones the later. They are the same whatever the turn.
pub fn sampled(table: &Table, quad: &Quad, cell: usize) -> Vec<Pixel> {
    let (x, y) = upper_left(quad);
    let middle = |module: usize| (table.border as usize + module) * cell + cell / 2;
    let modules = 0..table.edge as usize;
    modules.clone().flat_map(|i| modules.clone().map(move |j| (x + middle(j), y + middle(i)))).collect()
}

/// Where document 01 samples a quad whose coordinates are whole 1024ths of a pixel: "Module (i, j) lies at
/// (S × side + (2i − side + 1) × A + (2j − side + 1) × B) ÷ (4 × side), exactly. Samples run i outer, j inner, each from border to
/// border + edge − 1."
pub fn places(table: &Table, quad: &Quad) -> Vec<Pixel> {
    let place = |i: i64, j: i64| (place(table, quad, |corner| corner.x, i, j), place(table, quad, |corner| corner.y, i, j));
    let modules = table.border as i64..(table.border + table.edge) as i64;
    modules.clone().flat_map(|i| modules.clone().map(move |j| place(i, j))).collect()
}

/// One coordinate of a module, rounded to a pixel. It is not negative, so that halves away from zero are halves up.
fn place(table: &Table, quad: &Quad, of: fn(&Point) -> f32, i: i64, j: i64) -> usize {
    let [q0, q1, q2, q3] = quad.corners.map(|corner| {
        let number = of(&corner) * 1_024.0;
        assert_eq!(number.fract(), 0.0);
        number as i64
    });
    let side = table.side() as i64;
    let (sum, a, b) = (q0 + q1 + q2 + q3, q2 + q3 - q0 - q1, q1 + q2 - q0 - q3);
    let (over, under) = (sum * side + (2 * i - side + 1) * a + (2 * j - side + 1) * b, 4 * side * 1_024);
    assert!(over >= 0);
    ((2 * over + under) / (2 * under)) as usize
}
