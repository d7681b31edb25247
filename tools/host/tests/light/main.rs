//! Lamps that light one side more: ticket 8 of document 02, held to a definition of its own (definition.rs). A picture in which
//! the sampled modules of a painted tag are lit well enough is read as the painted plane, whatever the rest of it holds; what
//! misses that by a level is not promised, and refused or read as the papers say. Also sheets under a lamp at one side, and
//! corners that are a little off.

mod corners;
mod definition;
mod missed;
#[path = "../numbers/mod.rs"]
mod numbers;
mod pictures;
mod sheets;
#[path = "../sheets/tables.rs"]
mod tables;

use definition::{places, sampled, upper_left};
use muosleap::painter::paint_tag;
use muosleap::{FAMILIES, Family, Picture, Print, Table};
use numbers::Numbers;
use pictures::{Lamp, Noise, Painted, Tags, any_cell, any_print, for_tags};

/// The definition's sampled pixels are those of document 01's formula, for every edge, border, cell and turn.
#[test]
fn the_middle_pixels_are_sampled() {
    for (edge, border) in (1..=8).flat_map(|edge| (1..=4).map(move |border| (edge, border))) {
        for cell in 1..=64 {
            let table = Table { edge, border, hamming_distance: 1, codes: &[] };
            let print = Print { x: cell % 7, y: cell % 5, cell, turn: (cell + cell / 4) as u8 % 4, light: 200, dark: 20 };
            let side = table.side() * cell + 8;
            let mut plane = Picture::packed(vec![0; side * side], side, side);
            let quad = paint_tag(&mut plane, edge, border, 1, &print).unwrap();
            assert_eq!(upper_left(&quad), (print.x, print.y));
            for start in 0..4 {
                let mut places = places(&table, &quad.started(start));
                places.sort_by_key(|&(x, y)| (y, x));
                assert_eq!(places, sampled(&table, &quad, cell), "edge {edge}, border {border}, {print:?}");
            }
        }
    }
}

/// Four modules, the first two of them dark, at these levels. Document 01's rows on middles, and what makes of them a lit
/// picture.
#[test]
fn the_definition_at_its_limits() {
    let table = Table { edge: 2, border: 1, hamming_distance: 1, codes: &[0b0011] };
    let print = Print { x: 0, y: 0, cell: 1, turn: 0, light: 90, dark: 40 };
    let painted = Painted::new(Tags { table, family: None }, 0, 0, print, [1, 1]);
    for (levels, expected) in [
        ([0, 0, 50, 50], true),
        ([0, 0, 49, 49], false),
        // The middle is 25.
        ([0, 15, 35, 50], true),
        ([0, 16, 35, 50], false),
        ([0, 15, 34, 50], false),
        // The middle is 26.
        ([0, 16, 36, 51], true),
        ([0, 17, 36, 51], false),
        ([0, 16, 35, 51], false),
        ([205, 220, 240, 255], true),
        ([206, 220, 240, 255], false),
        // Light and dark changed.
        ([51, 36, 16, 0], false),
        ([0, 36, 16, 51], false),
    ] {
        let mut picture = Picture::packed(vec![128; 25], 5, 5);
        painted.samples.iter().zip(levels).for_each(|(&(x, y), level)| picture.bytes[5 * y + x] = level);
        assert_eq!(painted.is_lit(&picture), expected, "{levels:?}");
        assert!(!painted.is_lit(&Picture { height: 4, ..picture.clone() }));
        if expected {
            painted.is_read(&picture, &painted.quad);
        }
    }
}

/// One painted tag in one lit picture.
fn lit_picture_is_read(painted: &Painted, lamp: Lamp, noise: &mut Noise, numbers: &mut Numbers) {
    let levels = lamp.levels(&painted.lights(), numbers);
    let picture = noise.lit(painted, &levels, numbers);
    assert!(painted.is_lit(&picture), "{lamp:?}: {levels:?}");
    painted.is_read(&picture, &painted.quad);
}

#[test]
fn lit_pictures_are_read() {
    let mut numbers = Numbers(0x8_0001);
    let mut noise = Noise::new(&mut numbers);
    for_tags(6_000, |tags| {
        let painted = Painted::random(tags, any_cell(&mut numbers), 0, &mut numbers);
        lit_picture_is_read(&painted, Lamp::any(&mut numbers), &mut noise, &mut numbers);
    });
}

/// Each two levels that are at least 50 apart as least and greatest.
#[test]
fn every_least_and_greatest_level() {
    let mut numbers = Numbers(0x8_0002);
    let mut noise = Noise::new(&mut numbers);
    for family in [Family::T16H5, Family::T25H9] {
        for (least, greatest) in (0..=205).flat_map(|least| (least + 50..=255).map(move |greatest| (least, greatest))) {
            let painted = Painted::random(Tags::of(family), 2, 0, &mut numbers);
            lit_picture_is_read(&painted, Lamp { least, greatest, unsure: 0, near: 0 }, &mut noise, &mut numbers);
        }
    }
}

/// The plane as the painter left it is such a picture: light is at least 50 above dark.
#[test]
fn the_painted_plane_is_lit() {
    let mut numbers = Numbers(0x8_0003);
    for_tags(400, |tags| {
        let painted = Painted::random(tags, any_cell(&mut numbers), 0, &mut numbers);
        assert!(painted.is_lit(&painted.plane));
        painted.is_read(&painted.plane, &painted.quad);
    });
}

/// Every code of every family, under a lamp that only just does.
#[test]
fn every_code_of_every_family() {
    let mut numbers = Numbers(0x8_0004);
    let mut noise = Noise::new(&mut numbers);
    for (family, id) in FAMILIES.into_iter().flat_map(|family| (0..family.codes().len()).map(move |id| (family, id))) {
        let painted = Painted::new(Tags::of(family), id, 0, any_print(3, 0, &mut numbers), [1, 1]);
        lit_picture_is_read(&painted, Lamp::of(50, &mut numbers), &mut noise, &mut numbers);
    }
}
