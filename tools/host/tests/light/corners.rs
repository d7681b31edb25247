//! Corners that are a little off, as a quad search gives them: on the painter's own plane every sample stays in its module, and a
//! picture in which these samples are lit well enough is read as the plane.

use crate::definition::{places, sampled};
use crate::lit_picture_is_read;
use crate::numbers::Numbers;
use crate::pictures::{Lamp, Noise, Painted, Tags, any_cell, below, for_tags, own, said};
use muosleap::{FAMILIES, Family, Point, Print, Quad, Refusal, Table};

/// 1024ths of a pixel by which each coordinate may be off. Where edge ≤ 2 × border + 2 this is everything below half a cell. For
/// larger squares the modules near their corners move by more than the corners do; for T36H11B1 it is everything below 4/9 of a
/// cell.
fn allowed(table: &Table, cell: usize) -> usize {
    let (edge, side) = (table.edge as usize, table.side());
    (2_048 * side * cell - 1) / (4 * side).max(2 * side + 4 * (edge - 1))
}

#[test]
fn how_much_is_allowed() {
    for (family, cell) in FAMILIES.into_iter().flat_map(|family| (1..=64).map(move |cell| (family, cell))) {
        let (amount, table) = (allowed(&family.table(), cell), family.table());
        if family == Family::T36H11B1 {
            assert!(9 * amount < 4 * 1_024 * cell && 9 * (amount + 1) >= 4 * 1_024 * cell);
        } else {
            assert!(table.edge <= 2 * table.border + 2 && amount == 512 * cell - 1);
        }
    }
}

/// The quad with each coordinate moved by so many 1024ths of a pixel.
fn moved(quad: &Quad, mut by: impl FnMut() -> i32) -> Quad {
    Quad::from(<[f32; 8]>::from(*quad).map(|coordinate| coordinate + by() as f32 / 1_024.0))
}

/// By how many 1024ths of a pixel each coordinate was moved.
fn moved_by(quad: &Quad, to: &Quad) -> [f32; 8] {
    let [from, to] = [*quad, *to].map(<[f32; 8]>::from);
    std::array::from_fn(|place| (to[place] - from[place]) * 1_024.0)
}

/// A tag's quad, each coordinate off by up to so many 1024ths: mostly as many as are allowed, else fewer. Of half of these quads
/// each coordinate is off by just that, of the others every other one.
fn a_little_off(painted: &Painted, numbers: &mut Numbers) -> Quad {
    let allowed = allowed(&painted.tags.table, painted.print.cell);
    let most = if below(3, numbers) == 0 { below(allowed + 1, numbers) } else { allowed };
    let ways = [2, 4][below(2, numbers)];
    moved(&painted.quad, || {
        [most as i32, -(most as i32), below(2 * most + 1, numbers) as i32 - most as i32][below(ways, numbers).min(2)]
    })
}

#[test]
fn corners_that_are_a_little_off() {
    let mut numbers = Numbers(0x8_0201);
    for_tags(3_000, |tags| {
        let cell = if below(100, &mut numbers) == 0 { 64 } else { 1 + below(8, &mut numbers) };
        let painted = Painted::random(tags, cell, cell, &mut numbers);
        painted.is_read(&painted.plane, &a_little_off(&painted, &mut numbers));
    });
}

/// What counts is where the moved quad is sampled. What the picture holds where the painter's own would be does not matter.
#[test]
fn a_little_off_in_lit_pictures() {
    let (mut numbers, mut met) = (Numbers(0x8_0203), [0; 3]);
    let mut noise = Noise::new(&mut numbers);
    for_tags(2_000, |tags| {
        let cell = any_cell(&mut numbers);
        let painted = Painted::random(tags, cell, cell, &mut numbers);
        let quad = a_little_off(&painted, &mut numbers);
        let most = moved_by(&painted.quad, &quad).map(|by| by.abs() == allowed(&tags.table, cell) as f32);
        let own = painted.samples.clone();
        let painted = painted.read_at(quad);
        lit_picture_is_read(&painted, Lamp::any(&mut numbers), &mut noise, &mut numbers);
        met[0] += 1;
        met[1] += (most == [true; 8]) as usize;
        met[2] += own.iter().any(|pixel| !painted.samples.contains(pixel)) as usize;
    });
    assert!(met[1] > 5_000 && met[2] > 13_000, "pictures, all corners off by the most, sampled at other pixels: {met:?}");
}

/// All signs of the four corners' x, and the same of y, with every coordinate off by as much as is allowed.
#[test]
fn off_in_every_direction() {
    let mut numbers = Numbers(0x8_0202);
    for_tags(4, |tags| {
        for (cell, signs) in [1, 2, 3, 4, 5, 9].into_iter().flat_map(|cell| (0..256).map(move |signs| (cell, signs))) {
            let painted = Painted::random(tags, cell, cell, &mut numbers);
            let (most, mut place) = (allowed(&tags.table, cell) as i32, 0);
            let quad = moved(&painted.quad, || {
                place += 1;
                if signs >> (place - 1) & 1 == 0 { most } else { -most }
            });
            painted.is_read(&painted.plane, &quad);
        }
    });
}

/// A tag of a family, away from the plane's edges and not turned.
fn printed(family: Family, id: usize, cell: usize) -> Painted<'static> {
    let print = Print { x: cell + 3, y: cell + 2, cell, turn: 0, light: 210, dark: 30 };
    Painted::new(Tags::of(family), id, 0, print, [cell + 4, cell + 5])
}

/// All x moved to the right by a 1024th less than half a cell: the tag is read. By half a cell: each sample falls into the next
/// module, and no code is near. To the left half a cell is read, since halves are rounded up, and a 1024th more is too much.
#[test]
fn half_a_cell_to_the_right_is_too_much() {
    for (family, cell) in FAMILIES.into_iter().flat_map(|family| (1..=64).map(move |cell| (family, cell))) {
        let painted = printed(family, 0, cell);
        let to_the_right = |by: i32| {
            let corners = painted.quad.corners.map(|Point { x, y }| Point { x: x + by as f32 / 1_024.0, y });
            Quad { corners }
        };
        let half = 512 * cell as i32;
        painted.is_read(&painted.plane, &to_the_right(half - 1));
        painted.is_read(&painted.plane, &to_the_right(-half));
        for (start, by) in (0..4).flat_map(|start| [half, -half - 1].map(|by| (start, by))) {
            let read = painted.tags.read(&painted.plane, &to_the_right(by).started(start));
            assert_eq!(read, Err(Refusal::NoCode), "{family:?}, cell {cell}");
        }
        let next = |(x, y): (usize, usize)| (x + cell - cell / 2, y);
        let expected = sampled(&family.table(), &painted.quad, cell).into_iter().map(next);
        assert!(places(&family.table(), &to_the_right(half)).into_iter().eq(expected));
    }
}

/// For T36H11B1 4/9 of a cell are too much: with cells of 9 pixels, the first corner's x 4 pixels to the left and the others' 4
/// to the right, the last module is sampled in the border. In tag 1 it is light, and so differs. By a 1024th less it does not.
#[test]
fn four_ninths_of_a_cell_are_too_much_in_a_thin_border() {
    let painted = printed(Family::T36H11B1, 1, 9);
    let off_by = |by: f32| {
        let [q0, q1, q2, q3] = painted.quad.corners;
        let right = |Point { x, y }: Point| Point { x: x + by, y };
        Quad { corners: [Point { x: q0.x - by, ..q0 }, right(q1), right(q2), right(q3)] }
    };
    painted.is_read(&painted.plane, &off_by(4.0 - 1.0 / 1_024.0));
    let quad = off_by(4.0);
    for start in 0..4 {
        let read = said(painted.tags.read(&painted.plane, &quad.started(start)));
        assert_eq!(read, Ok(own(1, start, 1, &quad)));
    }
}
