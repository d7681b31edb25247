//! Vectors of the painter of sheets, which the original does not have. The original reads the sheets of its families.

use crate::limits::{self, Plane};
use crate::out::{Digest, File, Frame, Numbers, SEED};
use crate::painter::Print;
use crate::quads::{Picture, push_plane, started};

pub fn files() -> Vec<File> {
    vec![sheets()]
}

/// A table: one that is lent, or that of a family by its number.
pub struct Table {
    pub number: Option<u8>,
    pub edge: u8,
    pub border: u8,
    pub threshold: u8,
    pub codes: Vec<u64>,
}

impl Table {
    /// The original's table of a family, and nothing where there is no such family.
    pub fn of_family(number: u8) -> Table {
        if number > 4 {
            return Table { number: Some(number), edge: 0, border: 0, threshold: 0, codes: vec![] };
        }
        let family = Picture::new(number, 1, 1, |_| 0).detector;
        let (edge, border, threshold) = (family.edge(), family.border(), family.hamming_distance());
        Table { number: Some(number), edge, border, threshold, codes: family.code_list().to_vec() }
    }
}

/// What a sheet takes. The print is that of the upper left tag, with any word.
pub struct Sheet {
    pub table: Table,
    pub rows: u64,
    pub columns: u64,
    pub gap: u64,
    pub print: Print,
}

impl Sheet {
    /// So many tags in a line, with the gaps between them, in pixels.
    fn line(&self, tags: u64) -> u64 {
        tags * self.print.size() + (tags - 1) * self.gap * self.print.cell
    }

    /// The single tags in document 02's words: "The lower left tag is position 0, numbers rise along a row and then upward."
    fn tags(&self) -> Vec<Print> {
        let step = self.print.size() + self.gap * self.print.cell;
        let upward = (0..self.rows).map(|up| self.print.y + (self.rows - 1 - up) * step);
        let places = upward.flat_map(|y| (0..self.columns).map(move |across| (self.print.x + across * step, y)));
        places.zip(&self.table.codes).map(|((x, y), &word)| Print { x, y, word, ..self.print }).collect()
    }

    /// A plane of light, and on it what each single painting has that is not light.
    fn painted(&self) -> Vec<u8> {
        let light = self.print.light;
        let mut plane = vec![light; (self.print.width * self.print.height) as usize];
        for tag in self.tags() {
            let drawn = plane.iter_mut().zip(tag.painted()).filter(|&(_, shade)| shade != light);
            drawn.for_each(|(pixel, shade)| *pixel = shade);
        }
        plane
    }

    /// The output afterwards: the single tags' quads, and 7 as before the call where there are more numbers.
    fn output(&self, numbers: usize) -> Vec<f32> {
        let mut output: Vec<f32> = self.tags().iter().flat_map(|tag| tag.quad()).flat_map(|(x, y)| [x, y]).collect();
        assert!(output.len() <= numbers);
        output.resize(numbers, 7.0);
        output
    }

    /// The sheet on a plane. Pixels are the same at each pitch; those of a refused call are not painted.
    fn frame(&self, plane: &Plane, numbers: usize, refusal: u8) -> Frame {
        let (pixels, output) = if refusal == 0 { (self.painted(), self.output(numbers)) } else { (vec![], vec![7.0; numbers]) };
        assert!(refusal != 0 || self.table.number.is_none_or(|number| self.is_read_by_the_original(number)));
        let (mut painted, mut written) = (Digest::new(), Digest::new());
        painted.bytes(&pixels);
        written.f32s(&output);
        let (table, print) = (&self.table, &self.print);
        let (kind, family, codes) = match table.number {
            Some(number) => (4, [number, 0, 0], &[][..]),
            None => (3, [table.edge, table.border, table.threshold], &table.codes[..]),
        };
        let frame = push_plane(Frame::new().u8(kind), plane).bytes(&family);
        let frame = frame.u64(self.rows).u64(self.columns).u64(self.gap).u64(print.x).u64(print.y).u64(print.cell);
        let frame = frame.u8(print.turn).u8(print.light).u8(print.dark);
        frame.u16(numbers).u8(refusal).u64(painted.0).u64(written.0).u64s(codes)
    }

    /// The original reads each tag at each start where no module lies near a half: the id is the position.
    fn is_read_by_the_original(&self, number: u8) -> bool {
        let painted = self.painted();
        let picture = Picture::new(number, self.print.width as usize, self.print.height as usize, |place| painted[place]);
        let reads = |id: usize, tag: &Print, start: usize| {
            let quad = started(&tag.quad(), start);
            let mut corners = tag.quad();
            corners.reverse();
            !picture.is_clear(&quad) || picture.read(&quad) == (0, id, (4 - start as u8) % 4, 0, corners)
        };
        self.tags().iter().enumerate().all(|(id, tag)| (0..4).all(|start| reads(id, tag, start)))
    }
}

/// Sheets of each family and of tables of each edge, at each turn, and the limits of document 02.
fn sheets() -> File {
    let mut file = File::new("vectors_tags/data/sheets");
    let mut numbers = Numbers::from(SEED + 17);
    for number in 0..5 {
        file.push(drawn(Table::of_family(number), number, &mut numbers));
    }
    for edge in 1..=8u8 {
        let codes = (0..9).map(|_| numbers.next() >> (64 - edge as u32 * edge as u32)).collect();
        let table = Table { number: None, edge, border: 1 + edge / 2 % 4, threshold: edge, codes };
        file.push(drawn(table, edge, &mut numbers));
    }
    for row in limits::sheets() {
        file.push(row.sheet.frame(&row.plane, row.numbers, row.refusal));
    }
    file
}

/// A sheet of at most 3 by 3 tags, whose turn and cell go by a number `k`.
fn drawn(table: Table, k: u8, numbers: &mut Numbers) -> Frame {
    let (rows, columns, gap) = (1 + numbers.below(3) as u64, 1 + numbers.below(3) as u64, 1 + numbers.below(5) as u64);
    let dark = numbers.below(206) as u8;
    let light = dark + 50 + numbers.below(206 - dark as usize) as u8;
    let (x, y, cell) = (numbers.below(5) as u64, numbers.below(5) as u64, 1 + k as u64 % 3);
    let (edge, border) = (table.edge, table.border);
    let print = Print { width: 0, height: 0, edge, border, word: 0, x, y, cell, turn: k % 4, light, dark };
    let mut sheet = Sheet { table, rows, columns, gap, print };
    sheet.print.width = x + sheet.line(columns) + 1 + numbers.below(4) as u64;
    sheet.print.height = y + sheet.line(rows) + 1 + numbers.below(4) as u64;
    sheet.frame(&sheet.print.packed(), 8 * (rows * columns) as usize + numbers.below(3), 0)
}
