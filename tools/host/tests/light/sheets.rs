//! Sheets under a lamp that lights one side more, and sheets in which a tag is destroyed.

use crate::definition::{level, lit, sampled, upper_left};
use crate::numbers::Numbers;
use crate::pictures::{Read, Tags, any_print, below, for_tags, own, said};
use muosleap::board::corner_squares;
use muosleap::{Family, Grid, Picture, Print, Quad, Refusal, Shape};

/// A painted sheet.
struct Sheet<'a> {
    tags: Tags<'a>,
    grid: Grid,
    print: Print,
    plane: Picture<Vec<u8>>,
    quads: Vec<Quad>,
}

impl<'a> Sheet<'a> {
    fn new(tags: Tags<'a>, grid: Grid, print: Print) -> Sheet<'a> {
        let Shape { width, height } = grid.shape(&tags.table, print.cell);
        let (width, height) = (print.x + width + 5, print.y + height + 4);
        let mut plane = Picture::packed(vec![0; width * height], width, height);
        let quads = tags.table.paint_sheet(&mut plane, &grid, &print).unwrap();
        Sheet { tags, grid, print, plane, quads }
    }

    /// Any grid of up to 6 × 6 tags.
    fn random(tags: Tags<'a>, numbers: &mut Numbers) -> Sheet<'a> {
        let codes = tags.table.codes.len();
        let columns = 1 + below(codes.min(6), numbers);
        let rows = 1 + below((codes / columns).min(6), numbers);
        let (gap, cell) = (1 + below(3, numbers), 1 + below(4, numbers));
        Sheet::new(tags, Grid { rows, columns, gap }, any_print(cell, 0, numbers))
    }

    /// Whether a picture shows the tag at this position.
    fn is_lit(&self, picture: &Picture<Vec<u8>>, position: usize) -> bool {
        let samples = sampled(&self.tags.table, &self.quads[position], self.print.cell);
        lit(&self.plane, picture, &samples, self.print.light)
    }

    /// The levels of all samples that are painted in this shade.
    fn levels(&self, picture: &Picture<Vec<u8>>, shade: u8) -> Vec<u8> {
        let samples = self.quads.iter().flat_map(|quad| sampled(&self.tags.table, quad, self.print.cell));
        samples.filter(|&pixel| level(&self.plane, pixel) == shade).map(|pixel| level(picture, pixel)).collect()
    }

    /// The sheet under a lamp: what is painted light has this lamp's light, and what is painted dark another's.
    fn under(&self, light: Slope, dark: Slope) -> Picture<Vec<u8>> {
        let Shape { width, height } = self.plane.shape();
        let mut picture = self.plane.clone();
        for (place, pixel) in picture.bytes.iter_mut().enumerate() {
            let slope = if *pixel == self.print.light { light } else { dark };
            let (x, y) = ((place % width) as i32, (place / width) as i32);
            let level = slope.level + slope.across * x / width as i32 + slope.down * y / height as i32;
            *pixel = level.clamp(0, 255) as u8;
        }
        picture
    }

    /// Every tag that is lit reads as its own, alone at each start; and in lists of all tags, where each start has a list and a
    /// fifth has all starts, the rows are those that ticket 4 makes of the single readings. Answers how many tags were lit.
    fn is_read(&self, picture: &Picture<Vec<u8>>) -> usize {
        let positions = 0..self.quads.len();
        let lit: Vec<bool> = positions.clone().map(|position| self.is_lit(picture, position)).collect();
        for list in 0..5 {
            let start = |position: usize| if list < 4 { list } else { position % 4 };
            let quads: Vec<Quad> = positions.clone().map(|position| self.quads[position].started(start(position))).collect();
            let alone: Vec<Read> = quads.iter().map(|quad| self.tags.read(picture, quad)).collect();
            for position in positions.clone().filter(|&position| lit[position]) {
                let expected = own(position, start(position), 0, &self.quads[position]);
                assert_eq!(said(alone[position]), Ok(expected), "{:?}, {:?}", self.grid, self.print);
            }
            let rows = self.tags.read_list(picture, &quads);
            assert_eq!(rows, listed(&alone), "{:?}, {:?}", self.grid, self.print);
            assert!(lit.contains(&false) || rows.iter().zip(0..).all(|(row, id)| row.is_ok_and(|tag| tag.id == id)));
        }
        lit.into_iter().filter(|&lit| lit).count()
    }

    /// Fills a tag with noise: of any level, or of two.
    fn destroy(&self, picture: &mut Picture<Vec<u8>>, position: usize, numbers: &mut Numbers) {
        let side = self.tags.table.side() * self.print.cell;
        let (x, y) = upper_left(&self.quads[position]);
        let two = below(2, numbers) == 0;
        for line in picture.bytes.chunks_mut(picture.width).skip(y).take(side) {
            for pixel in &mut line[x..x + side] {
                *pixel = if two { [40, 190][below(2, numbers)] } else { below(256, numbers) as u8 };
            }
        }
    }
}

/// A level at the upper left, and how much is added to it up to the right and up to the lower edge.
#[derive(Clone, Copy)]
struct Slope {
    level: i32,
    across: i32,
    down: i32,
}

/// Ticket 4's rule, from what each quad reads as alone: an id that another quad gives too is not trusted.
fn listed(alone: &[Read]) -> Vec<Read> {
    let id = |read: &Read| read.ok().map(|tag| tag.id);
    let given = |this: &Read| alone.iter().filter(|read| id(read) == id(this)).count();
    alone.iter().map(|read| if read.is_ok() && given(read) > 1 { Err(Refusal::RepeatedId) } else { *read }).collect()
}

/// Any lamps: light is at least 50 above dark at the upper left, and both change by up to 120 levels across the picture and down,
/// mostly alike.
fn any_slopes(numbers: &mut Numbers) -> [Slope; 2] {
    let mut up_to = |most: i32| below(2 * most as usize + 1, numbers) as i32 - most;
    let (across, down, level) = (up_to(120), up_to(120), 75 + up_to(75));
    let dark = Slope { level, across, down };
    [Slope { level: level + 105 + up_to(55), across: across + up_to(30), down: down + up_to(30) }, dark]
}

#[test]
fn any_lamps_over_a_sheet() {
    let (mut numbers, mut met) = (Numbers(0x8_0301), [0; 3]);
    for_tags(120, |tags| {
        let sheet = Sheet::random(tags, &mut numbers);
        let [light, dark] = any_slopes(&mut numbers);
        let mut picture = sheet.under(light, dark);
        if below(2, &mut numbers) == 0 {
            corner_squares(&mut picture, &sheet.quads, sheet.grid.gap * sheet.print.cell, below(256, &mut numbers) as u8);
        }
        match sheet.is_read(&picture) {
            0 => met[0] += 1,
            lit if lit < sheet.quads.len() => met[1] += 1,
            _ => met[2] += 1,
        }
    });
    assert!(met[1] > 100 && met[2] > 500, "sheets with no tag lit, some, all: {met:?}");
}

/// From one side to the other both shades rise by 195 levels: light on the dark side is far darker than dark on the light side,
/// and every tag is lit.
#[test]
fn a_lamp_at_one_side() {
    for family in [Family::T36H11, Family::T36H11B1, Family::T25H7] {
        for (turn, (across, down)) in [(195, 0), (-195, 0), (0, 195), (0, -195), (100, -95)].into_iter().enumerate() {
            let print = Print { x: 3, y: 4, cell: 4, turn: turn as u8 % 4, light: 255, dark: 0 };
            let sheet = Sheet::new(Tags::of(family), Grid { rows: 6, columns: 6, gap: 2 }, print);
            let least = -across.min(0) - down.min(0);
            let picture = sheet.under(Slope { level: least + 60, across, down }, Slope { level: least, across, down });
            assert_eq!(sheet.is_read(&picture), 36);
            let [light, dark] = [print.light, print.dark].map(|shade| sheet.levels(&picture, shade));
            assert!(light.iter().min().unwrap() + 100 < *dark.iter().max().unwrap());
        }
    }
}

/// Where a tag is destroyed, the others are read as before, alone and in the list: but for one whose number the destroyed tag
/// happens to give.
#[test]
fn a_destroyed_tag_leaves_the_others() {
    let (mut numbers, mut met) = (Numbers(0x8_0302), [0; 14]);
    for_tags(100, |tags| {
        let sheet = Sheet::random(tags, &mut numbers);
        let slope = Slope { level: 20, across: 30, down: 20 };
        let mut picture = sheet.under(Slope { level: 150, ..slope }, slope);
        assert_eq!(sheet.is_read(&picture), sheet.quads.len());
        let before = tags.read_list(&picture, &sheet.quads);

        let position = below(sheet.quads.len(), &mut numbers);
        sheet.destroy(&mut picture, position, &mut numbers);
        let (read, after) = (tags.read(&picture, &sheet.quads[position]), tags.read_list(&picture, &sheet.quads));
        for other in (0..sheet.quads.len()).filter(|&other| other != position) {
            assert!(sheet.is_lit(&picture, other) && tags.read(&picture, &sheet.quads[other]) == before[other]);
            let repeated = read.is_ok_and(|tag| tag.id == other);
            assert_eq!(after[other], if repeated { Err(Refusal::RepeatedId) } else { before[other] });
        }
        sheet.is_read(&picture);
        met[read.err().map_or(0, |refusal| refusal.number() as usize)] += 1;
    });
    assert!(met[12] > 50 && met[13] > 500, "refusals of the destroyed tag, 0 for none: {met:?}");
}
