//! Pictures that are not lit well enough, by a level: what ticket 8 does not promise, and what documents 01 and 02 say of them
//! instead.

use crate::numbers::Numbers;
use crate::pictures::{Lamp, Noise, Painted, Tags, any_cell, any_print, below, for_tags, said};
use muosleap::detector::rotate_bits;
use muosleap::{FAMILIES, Family, Picture, Refusal, Table};

/// Runs for painted tags with more than so many modules.
fn for_painted(modules: u8, times: usize, seed: u64, mut run: impl FnMut(&Painted, &mut Noise, &mut Numbers)) {
    let mut numbers = Numbers(seed);
    let mut noise = Noise::new(&mut numbers);
    for_tags(times, |tags: Tags| {
        if tags.table.edge * tags.table.edge > modules {
            let painted = Painted::random(tags, any_cell(&mut numbers), 0, &mut numbers);
            run(&painted, &mut noise, &mut numbers);
        }
    });
}

/// Levels 50 apart are read. With the greatest of them one lower, which leaves the middle where it was, they are refused.
#[test]
fn a_spread_of_49_is_refused() {
    for_painted(0, 800, 0x8_0101, |painted, noise, numbers| {
        let lamp = Lamp::of(50, numbers);
        let mut levels = lamp.levels(&painted.lights(), numbers);
        let picture = noise.lit(painted, &levels, numbers);
        assert!(painted.is_lit(&picture));
        painted.is_read(&picture, &painted.quad);

        levels.iter_mut().for_each(|level| *level = (*level).min(lamp.greatest as u8 - 1));
        let picture = noise.lit(painted, &levels, numbers);
        assert!(!painted.is_lit(&picture) && Lamp { greatest: lamp.greatest - 1, ..lamp }.middle() == lamp.middle());
        painted.is_refused(&picture, Refusal::LowContrast);
    });
}

/// However the modules stand to the middle, less than 50 are too little.
#[test]
fn no_smaller_spread_is_read() {
    for_painted(0, 400, 0x8_0102, |painted, noise, numbers| {
        let spread = below(50, numbers);
        let least = below(256 - spread, numbers);
        let levels: Vec<u8> = painted.lights().iter().map(|_| (least + below(spread + 1, numbers)) as u8).collect();
        let picture = noise.lit(painted, &levels, numbers);
        assert!(!painted.is_lit(&picture));
        painted.is_refused(&picture, Refusal::LowContrast);
    });
}

/// A lamp under which so many modules are at distance 9 from the middle.
fn with_unsure(unsure: usize, numbers: &mut Numbers) -> Lamp {
    Lamp { unsure, near: 9, ..Lamp::any(numbers) }
}

#[test]
fn four_modules_at_distance_9_are_refused() {
    for_painted(5, 800, 0x8_0103, |painted, noise, numbers| {
        let most = painted.lights().len() - 2;
        let unsure = if below(2, numbers) == 0 { 4 } else { 4 + below(most - 3, numbers) };
        let levels = with_unsure(unsure, numbers).levels(&painted.lights(), numbers);
        let picture = noise.lit(painted, &levels, numbers);
        assert!(!painted.is_lit(&picture));
        painted.is_refused(&picture, Refusal::UnsureModules);
    });
}

/// Up to three unsure modules are allowed by document 01, where they still lie on their side of the middle: the tag is read,
/// though this is more than ticket 8 promises.
#[test]
fn up_to_three_at_distance_9_are_read() {
    for_painted(4, 800, 0x8_0104, |painted, noise, numbers| {
        let mut lamp = with_unsure(1 + below(3, numbers), numbers);
        if below(3, numbers) == 0 {
            lamp.near = 1 + below(9, numbers);
        }
        let levels = lamp.levels(&painted.lights(), numbers);
        let picture = noise.lit(painted, &levels, numbers);
        assert!(!painted.is_lit(&picture));
        painted.is_read(&picture, &painted.quad);
    });
}

/// A picture in which light and dark have changed places.
fn negative<'a>(painted: &Painted, noise: &'a mut Noise, numbers: &mut Numbers) -> Picture<&'a mut [u8]> {
    let lights: Vec<bool> = painted.lights().iter().map(|light| !light).collect();
    let levels = Lamp::any(numbers).levels(&lights, numbers);
    let picture = noise.lit(painted, &levels, numbers);
    assert!(!painted.is_lit(&picture));
    picture
}

/// It shows the word with every bit flipped. That is never the own tag at the own turn.
#[test]
fn the_negative_is_not_the_own_tag() {
    for_painted(0, 800, 0x8_0105, |painted, noise, numbers| {
        let picture = negative(painted, noise, numbers);
        let table = painted.tags.table;
        let word = !painted.word & u64::MAX >> (64 - table.edge * table.edge);
        let shown = table.best_tag(word).map_err(Refusal::from);
        for start in 0..4 {
            let read = said(painted.tags.read(&picture, &painted.quad.started(start)));
            let expected = shown.map(|found| (found.id, (found.turn + 4 - start as u8) % 4, found.differing));
            assert_eq!(read.map(|(id, turn, differing, _)| (id, turn, differing)), expected);
            assert_ne!(read.map(|(id, turn, ..)| (id, turn)), Ok((painted.id, (4 - start as u8) % 4)));
        }
    });
}

/// A tag of a family without misprinted modules. Its number, and how it is printed, do not matter.
#[test]
fn the_negative_of_a_clean_tag_is_refused() {
    let mut numbers = Numbers(0x8_0106);
    let mut noise = Noise::new(&mut numbers);
    for (family, id) in FAMILIES.into_iter().flat_map(|family| (0..family.codes().len()).map(move |id| (family, id))) {
        let painted = Painted::new(Tags::of(family), id, 0, any_print(2, 0, &mut numbers), [1, 1]);
        painted.is_refused(&negative(&painted, &mut noise, &mut numbers), Refusal::NoCode);
    }
}

/// Whether a tag is so like its negative, in any turn, that misprinted modules can make the one be read as the other.
fn like_its_negative(family: Family, code: u64) -> bool {
    let Table { edge, hamming_distance, .. } = family.table();
    let mut word = !code & u64::MAX >> (64 - edge * edge);
    (0..4).any(|_| {
        word = rotate_bits(word, edge).unwrap();
        (word ^ code).count_ones() < 2 * hamming_distance as u32 - 1
    })
}

/// Where modules are misprinted, the negative can be the own tag at another turn. Of all families' tags this one alone is so:
/// with two misprinted modules, and upside down.
#[test]
fn a_negative_that_is_the_own_tag_upside_down() {
    let mut numbers = Numbers(0x8_0107);
    let mut noise = Noise::new(&mut numbers);
    for family in FAMILIES {
        let like = (0..family.codes().len()).filter(|&id| like_its_negative(family, family.codes()[id]));
        assert!(like.eq(if family.codes().len() == 587 { 364..365 } else { 0..0 }), "{family:?}");
    }
    for family in [Family::T36H11, Family::T36H11B1] {
        let painted = Painted::new(Tags::of(family), 364, 0x880, any_print(3, 0, &mut numbers), [1, 1]);
        painted.is_read(&painted.plane, &painted.quad);
        let picture = negative(&painted, &mut noise, &mut numbers);
        for start in 0..4 {
            let read = painted.tags.read(&picture, &painted.quad.started(start)).unwrap();
            assert_eq!((read.id, read.turn, read.differing), (364, (6 - start as u8) % 4, 2));
        }
    }
}
