//! A call that paints a sheet, through the C interface, and what is to come of it.

use crate::definition::Sheet;
use crate::numbers::Numbers;
use muosleap::{FAMILIES, Family, Grid, Print, Shape, Table, c};

/// Whose codes are painted: those of a family by its number, or a lent table's.
#[derive(Clone, Copy, Debug)]
pub enum Tags<'a> {
    Family(u8),
    Table(Table<'a>),
}

impl<'a> Tags<'a> {
    /// A family by number, and lent.
    pub fn both(family: Family) -> [Tags<'a>; 2] {
        [Tags::Family(family.number()), Tags::Table(family.table())]
    }

    pub fn table(self) -> Table<'a> {
        match self {
            Tags::Family(number) => FAMILIES[number as usize].table(),
            Tags::Table(table) => table,
        }
    }
}

/// All that a call is given; of the buffers their lengths.
#[derive(Clone, Copy, Debug)]
pub struct Call<'a> {
    pub tags: Tags<'a>,
    pub width: usize,
    pub height: usize,
    pub pitch: usize,
    pub bytes: usize,
    pub grid: Grid,
    pub print: Print,
    pub numbers: usize,
}

impl<'a> Call<'a> {
    /// A call whose grid ends one pixel before the right and lower edges, with an output of eight numbers a tag.
    pub fn fitting(tags: Tags<'a>, grid: Grid, print: Print) -> Call<'a> {
        let cells = |count: usize| count * tags.table().side() + (count - 1) * grid.gap;
        let (width, height) = (cells(grid.columns) * print.cell, cells(grid.rows) * print.cell);
        assert_eq!(grid.shape(&tags.table(), print.cell), Shape { width, height });
        let call = Call { tags, width: 0, height: 0, pitch: 0, bytes: 0, grid, print, numbers: 8 * grid.rows * grid.columns };
        call.on(print.x + width + 1, print.y + height + 1)
    }

    /// The same on a plane of these sides, without filler.
    pub fn on(self, width: usize, height: usize) -> Call<'a> {
        Call { width, height, ..self }.padded(0)
    }

    /// The same with so many bytes of filler.
    pub fn padded(self, filler: usize) -> Call<'a> {
        let pitch = self.width + filler;
        Call { pitch, bytes: pitch * (self.height - 1) + self.width, ..self }
    }

    /// Calls the library.
    pub fn answer(&self, plane: &mut [u8], quads: &mut [f32]) -> u32 {
        let &Call { tags, width, height, pitch, grid: Grid { rows, columns, gap }, print, .. } = self;
        let Print { x, y, cell, turn, light, dark } = print;
        match tags {
            Tags::Family(n) => {
                c::paint_sheet_in(plane, width, height, pitch, n, rows, columns, gap, x, y, cell, turn, light, dark, quads)
            }
            Tags::Table(Table { edge, border, hamming_distance: t, codes }) => c::paint_sheet(
                plane, width, height, pitch, edge, border, t, codes, rows, columns, gap, x, y, cell, turn, light, dark, quads,
            ),
        }
    }

    /// A plane of noise, and an output of NaN with payloads, quiet and signalling.
    pub fn lent(&self) -> (Vec<u8>, Vec<f32>) {
        let mut numbers = Numbers(0x9e37_79b9 + self.bytes as u64);
        let plane = numbers.bytes(self.bytes);
        (plane, (0..self.numbers).map(|_| f32::from_bits(numbers.next() as u32 | 0x7f80_0001)).collect())
    }

    /// The call is refused with this number, and both buffers stay as they were, bit for bit.
    pub fn is_refused(&self, number: u32) {
        let (plane, quads) = self.lent();
        let (mut plane_after, mut quads_after) = (plane.clone(), quads.clone());
        assert_eq!(self.answer(&mut plane_after, &mut quads_after), number, "{self:?}");
        assert!(plane_after == plane, "a refused call painted: {self:?}");
        assert!(bits(&quads_after) == bits(&quads), "a refused call wrote quads: {self:?}");
    }

    /// The call is accepted: every pixel and every number of the quads is the definition's, and filler and the output beyond the
    /// quads stay as they were. Answers the plane and the quads.
    pub fn is_painted(&self) -> (Vec<u8>, Vec<[f32; 8]>) {
        let (mut plane, mut quads) = self.lent();
        let sheet = Sheet::new(&self.tags.table(), &self.grid, &self.print, self.width, self.height);
        let (expected, corners) = (sheet.painted(&plane, self.pitch), sheet.quads());
        let mut numbers = quads.clone();
        numbers[..8 * corners.len()].copy_from_slice(corners.as_flattened());
        assert_eq!(self.answer(&mut plane, &mut quads), 0, "{self:?}");
        assert!(plane == expected, "other pixels: {self:?}");
        assert!(bits(&quads) == bits(&numbers), "other quads: {self:?}");
        (plane, corners)
    }

    /// Painted as the definition says, and every tag read at all starts, alone and in lists that hold each tag once: id the position,
    /// turn (4 − s) modulo 4, no differing module, corners in print order, which is fourth, third, second, first.
    pub fn is_painted_and_read(&self) {
        let (plane, quads) = self.is_painted();
        // Four lists, each at one start, and a fifth with all starts.
        let start_of = |list: usize, position: usize| if list < 4 { list } else { position % 4 };
        for list in 0..5 {
            let (mut starts, mut rows, mut corners) = (Vec::new(), Vec::new(), Vec::new());
            for (position, quad) in quads.iter().enumerate() {
                let (start, mut started) = (start_of(list, position), *quad);
                started.rotate_left(2 * start);
                let answer = ([0, position as u64, (4 - start as u64) % 4, 0], [6, 7, 4, 5, 2, 3, 0, 1].map(|place| quad[place]));
                assert_eq!(self.read(&plane, &started), answer, "{self:?}");
                starts.push(started);
                rows.push(answer.0);
                corners.push(answer.1);
            }
            assert!(self.read_list(&plane, &starts) == (rows, corners), "in a list: {self:?}");
        }
    }

    /// The reading of one quad as a row and corners.
    pub fn read(&self, plane: &[u8], quad: &[f32; 8]) -> ([u64; 4], [f32; 8]) {
        let &Call { tags, width: w, height: h, pitch, .. } = self;
        let (mut id, mut turn, mut differing, mut out) = (77, 88, 66, [0.5; 8]);
        let (i, t, d) = (&mut id, &mut turn, &mut differing);
        let answer = match tags {
            Tags::Family(number) => c::try_decode_quad_in(plane, w, h, pitch, number, quad, i, t, d, &mut out),
            Tags::Table(Table { edge, border, hamming_distance: most, codes }) => {
                c::try_decode_quad(plane, w, h, pitch, edge, border, most, codes, quad, i, t, d, &mut out)
            }
        };
        ([answer as u64, id as u64, turn as u64, differing as u64], out)
    }

    /// The reading of a list.
    fn read_list(&self, plane: &[u8], quads: &[[f32; 8]]) -> (Vec<[u64; 4]>, Vec<[f32; 8]>) {
        let &Call { tags, width: w, height: h, pitch, .. } = self;
        let (mut rows, mut out) = (vec![[7; 4]; quads.len()], vec![[0.5; 8]; quads.len()]);
        let (list, r, o) = (quads.as_flattened(), rows.as_flattened_mut(), out.as_flattened_mut());
        let answer = match tags {
            Tags::Family(number) => c::try_decode_quads_in(plane, w, h, pitch, number, list, r, o),
            Tags::Table(Table { edge, border, hamming_distance: most, codes }) => {
                c::try_decode_quads(plane, w, h, pitch, edge, border, most, codes, list, r, o)
            }
        };
        assert_eq!(answer, 0);
        (rows, out)
    }
}

fn bits(numbers: &[f32]) -> Vec<u32> {
    numbers.iter().map(|number| number.to_bits()).collect()
}
