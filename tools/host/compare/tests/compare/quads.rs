//! Readings of quads and lists, by the whole of the original's `try_decode_quad` over a least-squares solver that stands in for
//! faer. A quad is compared where no module lies so near to a half that the solver's last bits could matter (tools/oracle/README.md).
//! The original knows no filler: to a picture with padded lines it says what it says to the lines without. Lists are compared only
//! where no id repeats: of quads with the same id the original keeps one, and Muosleap refuses them all (18).

use crate::tally::{Job, Tally, parts};
use muosleap::{FAMILIES, Family, Picture, Print, Quad, Refusal, Shape, Table, Tag};
use muosleap_compare::{Numbers, SEED, pictures};
use oracle::painter;
use oracle::quads::{self, quads_of};
use std::collections::BTreeSet;

pub fn jobs() -> Vec<Job> {
    [
        parts("try_decode_quad: tags of all families, moved and damaged", 10, |k, tally| tags(k, Lines::Packed, tally)),
        parts("try_decode_quad: these tags, lines padded", 10, |k, tally| tags(k, Lines::padded(k), tally)),
        parts("try_decode_quads: many tags, lists in which no id repeats", 5, |k, tally| many_tags(k, Lines::Packed, tally)),
        parts("try_decode_quads: these lists, lines padded", 5, |k, tally| many_tags(k, Lines::padded(k), tally)),
        parts("try_decode_quad: pictures of noise, quads anywhere", 5, |k, tally| noise(k, Lines::Packed, tally)),
        parts("try_decode_quad: these pictures of noise, lines padded", 5, |k, tally| noise(k, Lines::padded(k), tally)),
        parts("paint_tag, and the four starts read with 0 to t - 1 misprints", 5, |k, tally| painted(k, Lines::Packed, tally)),
        parts("paint_tag, and the four starts, lines padded", 5, |k, tally| painted(k, Lines::padded(k), tally)),
    ]
    .concat()
}

/// How pictures are lent: without filler, or with noise behind each line, at one pitch after the other.
enum Lines {
    Packed,
    Padded(Numbers),
}

impl Lines {
    fn padded(part: u64) -> Lines {
        Lines::Padded(Numbers::from(SEED + 3_300 + part))
    }

    fn lend(&mut self, pixels: Vec<u8>, Shape { width, height }: Shape) -> Picture<Vec<u8>> {
        let packed = Picture::packed(pixels, width, height);
        let Lines::Padded(numbers) = self else { return packed };
        let pitch = [width + 1, width + 13, 2 * width, width + numbers.below(200), 8_192][numbers.below(5)];
        pictures::padded(&packed, pitch, numbers)
    }
}

/// A row as numbers: refusal, id, turn, differing modules, bits of the corners.
type Row = (u32, usize, u8, u8, [u32; 8]);

fn row(reading: Result<Tag, Refusal>) -> Row {
    match reading {
        Ok(tag) => (0, tag.id, tag.turn, tag.differing, <[f32; 8]>::from(tag.corners).map(f32::to_bits)),
        Err(refusal) => (refusal.number(), 0, 0, 0, [0; 8]),
    }
}

fn quad_of(corners: &quads::Quad) -> Quad {
    let [p, q, r, s] = *corners;
    Quad::from([p.0, p.1, q.0, q.1, r.0, r.1, s.0, s.1])
}

/// What the original says to a quad.
fn original_row(picture: &quads::Picture, corners: &quads::Quad) -> Row {
    let (refusal, id, turn, differing, corners) = picture.read(corners);
    (refusal as u32, id, turn, differing, <[f32; 8]>::from(quad_of(&corners)).map(f32::to_bits))
}

/// A picture as it is lent, and the family that reads it, by number and as a lent table.
struct Readers {
    family: Family,
    lent: Picture<Vec<u8>>,
}

impl Readers {
    fn alone(&self, quad: &Quad) -> [Row; 2] {
        let Readers { family, lent } = self;
        [family.try_decode_quad(lent, quad), family.table().try_decode_quad(lent, quad)].map(row)
    }

    fn list(&self, quads: &[Quad]) -> [Vec<Row>; 2] {
        let Readers { family, lent } = self;
        let lists = [family.try_decode_quads(lent, quads), family.table().try_decode_quads(lent, quads)];
        lists.map(|rows| rows.unwrap().into_iter().map(row).collect())
    }

    fn input(&self, quad: &Quad) -> String {
        let Readers { family, lent: Picture { width, height, stride, .. } } = self;
        format!("{family:?}, {width} x {height}, pitch {stride}, {quad:?}")
    }

    /// Compares a list in which no id repeats, row by row.
    fn compare_list(&self, quads: &[Quad], original: &[Row], tally: &mut Tally) {
        for rows in self.list(quads) {
            assert_eq!(rows.len(), original.len());
            let all = quads.iter().zip(rows).zip(original);
            all.for_each(|((quad, ours), &original)| tally.same(ours, original, || self.input(quad)));
        }
    }
}

/// Reads each quad alone and in a list of its own, and in one list the first quad of each id and all refused ones: these are compared.
/// The list of all quads may repeat ids, so it is not compared with the original, and not counted. It is held to document 02's rule.
fn read_all(picture: &quads::Picture, corners: &[quads::Quad], lines: &mut Lines, tally: &mut Tally) {
    let (family, shape) = (FAMILIES[picture.number as usize], Shape { width: picture.width, height: picture.height });
    let readers = Readers { family, lent: lines.lend(picture.pixels.clone(), shape) };
    let clear: Vec<&quads::Quad> = corners.iter().filter(|corners| picture.is_clear(corners)).collect();
    let quads: Vec<Quad> = clear.iter().map(|corners| quad_of(corners)).collect();
    let original: Vec<Row> = clear.iter().map(|corners| original_row(picture, corners)).collect();
    let mut alone = Vec::new();
    for (quad, &original) in quads.iter().zip(&original) {
        let [by_number, by_table] = readers.alone(quad);
        tally.same(by_number, original, || readers.input(quad));
        tally.same(by_table, original, || readers.input(quad));
        readers.compare_list(&[*quad], &[original], tally);
        alone.push(by_number);
    }
    let mut ids = BTreeSet::new();
    let first = |(_, row): &(Quad, Row)| row.0 != 0 || ids.insert(row.1);
    let (once, rows): (Vec<Quad>, Vec<Row>) = quads.iter().copied().zip(original).filter(first).unzip();
    readers.compare_list(&once, &rows, tally);
    for rows in readers.list(&quads) {
        assert_eq!(rows, with_repeats(&alone), "a list that begins with {}", readers.input(&quads[0]));
    }
}

/// Document 02's rule for the list of quads that are read so alone: each whose id another one gives too is refused with 18.
fn with_repeats(alone: &[Row]) -> Vec<Row> {
    let giving = |id: usize| alone.iter().filter(|row| row.0 == 0 && row.1 == id).count();
    let listed = |&row: &Row| if row.0 == 0 && giving(row.1) > 1 { (18, 0, 0, 0, [0; 8]) } else { row };
    alone.iter().map(listed).collect()
}

fn tags(part: u64, mut lines: Lines, tally: &mut Tally) {
    let mut numbers = Numbers::from(SEED + 3_000 + part);
    for _ in 0..600 {
        let (dark, light) = (numbers.below(120) as u8, 130 + numbers.below(126) as u8);
        let cell = 1 + numbers.below(5);
        let side = 12 * cell + 12;
        let mut picture = quads::Picture::new((part % 5) as u8, side, side + numbers.below(5), |_| light);
        let codes = picture.detector.code_list().to_vec();
        let places = picture.detector.edge() as usize * picture.detector.edge() as usize;
        let mut word = codes[numbers.below(codes.len())];
        (0..numbers.below(4)).for_each(|_| word ^= 1 << numbers.below(places));
        let quad = picture.draw(word, (1 + numbers.below(8), 1 + numbers.below(8)), cell, [dark, light]);
        // Noise, and now and then a shadow that makes modules unsure.
        let (most, shadow) = ([1, 6, 30, 80][numbers.below(4)], numbers.below(3) == 0);
        let edge = numbers.below(side);
        for (place, pixel) in picture.pixels.iter_mut().enumerate() {
            let level = *pixel as usize + numbers.below(most);
            *pixel = if shadow && place % side > edge { level / 2 } else { level.min(255) } as u8;
        }
        let corners = quads_of(&picture, &quad, &mut numbers);
        read_all(&picture, &corners, &mut lines, tally);
    }
}

/// Pictures with up to 48 tags, some misprinted and now and then one of them a second time. Each is lent from one start.
fn many_tags(part: u64, mut lines: Lines, tally: &mut Tally) {
    let mut numbers = Numbers::from(SEED + 3_400 + part);
    for _ in 0..60 {
        let (columns, rows, cell) = (1 + numbers.below(8), 1 + numbers.below(6), [1, 3][numbers.below(2)]);
        // From one tag to the next: at most ten modules, and one between them.
        let step = 11 * cell;
        let mut picture = quads::Picture::new(part as u8, 1 + columns * step, 1 + rows * step, |_| 200);
        let (codes, edge) = (picture.detector.code_list().to_vec(), picture.detector.edge() as usize);
        let (mut id, mut corners) = (numbers.below(codes.len()), Vec::new());
        for (row, column) in (0..rows).flat_map(|row| (0..columns).map(move |column| (row, column))) {
            id = (id + (numbers.below(8) > 0) as usize) % codes.len();
            let word = (0..numbers.below(3)).fold(codes[id], |word, _| word ^ 1 << numbers.below(edge * edge));
            let quad = picture.draw(word, (1 + column * step, 1 + row * step), cell, [40, 200]);
            corners.push(quads::started(&quad, numbers.below(4)));
        }
        picture.pixels.iter_mut().for_each(|pixel| *pixel += numbers.below(30) as u8);
        read_all(&picture, &corners, &mut lines, tally);
    }
}

fn noise(part: u64, mut lines: Lines, tally: &mut Tally) {
    let mut numbers = Numbers::from(SEED + 3_100 + part);
    for _ in 0..500 {
        let (width, height) = (1 + numbers.below(60), 1 + numbers.below(60));
        let (least, range) = (numbers.below(128), 40 + numbers.below(88));
        let picture = quads::Picture::new(part as u8, width, height, |_| (least + numbers.below(range)) as u8);
        let (w, h) = (width as f32 - 1.0, height as f32 - 1.0);
        let corners = quads_of(&picture, &[(0.0, 0.0), (w, 0.0), (w, h), (0.0, h)], &mut numbers);
        read_all(&picture, &corners, &mut lines, tally);
    }
}

/// The painter against a second one, and what documents 01 and 02 say of painted tags at any turn and start.
fn painted(part: u64, mut lines: Lines, tally: &mut Tally) {
    let mut numbers = Numbers::from(SEED + 3_200 + part);
    let family = FAMILIES[part as usize];
    let table = family.table();
    for _ in 0..600 {
        let (dark, cell, turn) = (numbers.below(200) as u8, 1 + numbers.below(9), numbers.below(4) as u8);
        let light = dark + 50 + numbers.below(206 - dark as usize) as u8;
        let (x, y) = (numbers.below(9), numbers.below(9));
        let side = (table.edge + 2 * table.border) as usize * cell;
        let shape = Shape { width: x + side + 1 + numbers.below(4), height: y + side + 1 + numbers.below(4) };
        let (id, misprints) = (numbers.below(table.codes.len()), numbers.below(table.hamming_distance as usize));
        let places = table.edge as usize * table.edge as usize;
        let word = (0..misprints).fold(table.codes[id], |word, k| word ^ 1 << ((7 * k + id) % places));
        let mut picture = lines.lend(vec![7; shape.len()], shape);
        let mut expected = picture.clone();
        let print = Print { x, y, cell, turn, light, dark };
        let quad = family.paint_tag(&mut picture, word, &print).unwrap();
        let input = || format!("{family:?}, {shape:?}, pitch {}, {print:?}, word {word:#x}", picture.stride);
        let second = second(&table, shape, word, &print);
        // Filler stays as it was.
        let (to, from) = (expected.bytes.chunks_mut(picture.stride), second.painted());
        to.zip(from.chunks(shape.width)).for_each(|(to, line)| to[..shape.width].copy_from_slice(line));
        tally.same(&picture.bytes, &expected.bytes, input);
        tally.same(quad, quad_of(&second.quad()), input);
        let mut print_order = quad;
        print_order.corners.reverse();
        let starts = [0, 1, 2, 3].map(|start| quad.started(start));
        for (start, &quad) in starts.iter().enumerate() {
            let read = family.try_decode_quad(&picture, &quad);
            let promised = (id, (4 - start as u8) % 4, misprints as u8, print_order);
            tally.same(read.map(|tag| (tag.id, tag.turn, tag.differing, tag.corners)), Ok(promised), input);
            tally.same(family.try_decode_quads(&picture, &[quad]), Ok(vec![read]), input);
        }
        // One tag four times in one list, by document 02 and not counted.
        assert_eq!(family.try_decode_quads(&picture, &starts), Ok(vec![Err(Refusal::RepeatedId); 4]), "{}", input());
    }
}

/// The same print for the oracle's painter.
fn second(table: &Table, shape: Shape, word: u64, print: &Print) -> painter::Print {
    painter::Print {
        width: shape.width as u64,
        height: shape.height as u64,
        edge: table.edge,
        border: table.border,
        word,
        x: print.x as u64,
        y: print.y as u64,
        cell: print.cell as u64,
        turn: print.turn,
        light: print.light,
        dark: print.dark,
    }
}
