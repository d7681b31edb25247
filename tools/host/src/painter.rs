//! Paints a tag, or a sheet of tags.

use crate::refusal::accepted;
use crate::{Family, Picture, Quad, Refusal, Shape, Table, c};

/// How a tag, or a sheet of tags, is painted.
#[derive(Clone, Copy, PartialEq, Eq, Debug)]
pub struct Print {
    /// Column of the upper left pixel of the tag, or of the sheet's grid.
    pub x: usize,
    /// Row of the upper left pixel of the tag, or of the sheet's grid.
    pub y: usize,
    /// Pixels along one side of a module, 1 to 64.
    pub cell: usize,
    /// Where the print's first corner is: 0 upper left, 1 upper right, 2 lower right, 3 lower left.
    pub turn: u8,
    /// Shade of light modules and of the picture around tags, at least 50 above `dark`.
    pub light: u8,
    /// Shade of dark modules.
    pub dark: u8,
}

/// How the tags of a sheet stand: the lower left tag is position 0, and positions rise along a row and then upward.
#[derive(Clone, Copy, PartialEq, Eq, Debug)]
pub struct Grid {
    /// Rows of tags, 1 to 32.
    pub rows: usize,
    /// Tags in a row, 1 to 32.
    pub columns: usize,
    /// Light cells between two tags, 1 to 16.
    pub gap: usize,
}

impl Grid {
    /// How many tags it has; `usize::MAX` where the product is larger.
    pub const fn tags(&self) -> usize {
        self.rows.saturating_mul(self.columns)
    }

    /// The pixels that it takes with tags of this table and so many pixels a module; `usize::MAX` where there are more. A picture
    /// has to go on for at least one pixel to the right and below.
    ///
    /// ```
    /// use muosleap::{Family, Grid, Shape};
    ///
    /// // Six tags of eight modules, and the gaps between them.
    /// let grid = Grid { rows: 2, columns: 3, gap: 5 };
    /// assert_eq!(grid.shape(&Family::T16H5.table(), 10), Shape { width: 340, height: 210 });
    /// ```
    pub const fn shape(&self, table: &Table, cell: usize) -> Shape {
        let (across, down) = (self.side(self.columns, table), self.side(self.rows, table));
        Shape { width: across.saturating_mul(cell), height: down.saturating_mul(cell) }
    }

    /// Cells of so many tags in a line.
    const fn side(&self, tags: usize, table: &Table) -> usize {
        tags.saturating_mul(table.side()).saturating_add(tags.saturating_sub(1).saturating_mul(self.gap))
    }
}

/// Fills the picture with light and paints a tag of any edge and border; filler stays as it was. Answers the tag's outer corners,
/// clockwise from the print's first. Refusals 1, 6 for edge and border, 14.
///
/// ```
/// use muosleap::{Picture, Print, Refusal, painter::paint_tag};
///
/// // Ten bytes a line, the last of them filler.
/// let mut picture = Picture { bytes: [7; 10 * 8 + 9], width: 9, height: 9, stride: 10 };
/// let print = Print { x: 1, y: 1, cell: 1, turn: 0, light: 255, dark: 0 };
/// let quad = paint_tag(&mut picture, 4, 1, 0x231B, &print)?;
/// assert_eq!(<[f32; 8]>::from(quad), [0.5, 0.5, 6.5, 0.5, 6.5, 6.5, 0.5, 6.5]);
/// assert_eq!(picture.bytes[2 * 10..3 * 10], [255, 0, 0, 0, 255, 0, 0, 255, 255, 7]);
///
/// let turned = Print { turn: 4, ..print };
/// assert_eq!(paint_tag(&mut picture, 4, 1, 0x231B, &turned), Err(Refusal::Painting));
/// # Ok::<(), Refusal>(())
/// ```
pub fn paint_tag(
    picture: &mut Picture<impl AsMut<[u8]>>,
    edge: u8,
    border: u8,
    word: u64,
    print: &Print,
) -> Result<Quad, Refusal> {
    let &mut Picture { ref mut bytes, width, height, stride } = picture;
    let (bytes, Print { x, y, cell, turn, light, dark }) = (bytes.as_mut(), *print);
    let mut quad = [0.0; 8];
    accepted(c::paint_tag(bytes, width, height, stride, edge, border, word, x, y, cell, turn, light, dark, &mut quad))?;
    Ok(quad.into())
}

impl Table<'_> {
    /// Fills the picture with light and paints a sheet: a grid of the table's codes, the first of them lower left, the next ones along
    /// a row and then upward; filler stays as it was. Answers the tags' outer corners in this order, each clockwise from the print's
    /// first. Where the table passes [the likeness check](Table::check_likeness), which is not made here, each tag is read under its
    /// position, in a list too where no other quad gives its id. Refusals 1, 6, 14 for cell, turn and shades, 17.
    ///
    /// ```
    /// use muosleap::{Grid, Picture, Print, Refusal, Table};
    ///
    /// let table = Table { edge: 4, border: 1, hamming_distance: 1, codes: &[0x231B, 0x2EA5, 0x346A, 0x45B9] };
    /// table.check_likeness()?;
    /// let mut picture = Picture::packed(vec![0; 80 * 60], 80, 60);
    /// let grid = Grid { rows: 2, columns: 2, gap: 1 };
    /// let print = Print { x: 10, y: 4, cell: 4, turn: 0, light: 255, dark: 0 };
    /// let quads = table.paint_sheet(&mut picture, &grid, &print)?;
    ///
    /// // The last tag is upper right. Read from its third corner:
    /// assert_eq!(<[f32; 8]>::from(quads[3]), [37.5, 3.5, 61.5, 3.5, 61.5, 27.5, 37.5, 27.5]);
    /// let tag = table.try_decode_quad(&picture, &quads[3].started(2))?;
    /// assert_eq!((tag.id, tag.turn, tag.differing), (3, 2, 0));
    ///
    /// // There is no fifth code.
    /// let larger = Grid { rows: 1, columns: 5, ..grid };
    /// assert_eq!(table.paint_sheet(&mut picture, &larger, &Print { cell: 1, ..print }), Err(Refusal::Sheet));
    /// # Ok::<(), Refusal>(())
    /// ```
    pub fn paint_sheet(&self, picture: &mut Picture<impl AsMut<[u8]>>, grid: &Grid, print: &Print) -> Result<Vec<Quad>, Refusal> {
        let &mut Picture { ref mut bytes, width, height, stride } = picture;
        let (&Table { edge, border, hamming_distance, codes }, bytes) = (self, bytes.as_mut());
        let (&Grid { rows, columns, gap }, &Print { x, y, cell, turn, light, dark }) = (grid, print);
        listed(grid, |quads| {
            c::paint_sheet(
                bytes,
                width,
                height,
                stride,
                edge,
                border,
                hamming_distance,
                codes,
                rows,
                columns,
                gap,
                x,
                y,
                cell,
                turn,
                light,
                dark,
                quads,
            )
        })
    }
}

impl Family {
    /// Fills the picture with light and paints a tag of this family; filler stays as it was. Answers the tag's outer corners,
    /// clockwise from the print's first. Refusals 1, 14.
    pub fn paint_tag(self, picture: &mut Picture<impl AsMut<[u8]>>, word: u64, print: &Print) -> Result<Quad, Refusal> {
        let &mut Picture { ref mut bytes, width, height, stride } = picture;
        let (bytes, number, Print { x, y, cell, turn, light, dark }) = (bytes.as_mut(), self.number(), *print);
        let mut quad = [0.0; 8];
        accepted(c::paint_tag_in(bytes, width, height, stride, number, word, x, y, cell, turn, light, dark, &mut quad))?;
        Ok(quad.into())
    }

    /// Fills the picture with light and paints a sheet of this family's tags: number 0 lower left, numbers rising along a row and then
    /// upward; filler stays as it was. Answers the tags' outer corners in the order of their numbers, each clockwise from the
    /// print's first. Refusals 1, 14 for cell, turn and shades, 17.
    ///
    /// ```
    /// use muosleap::{Family, Grid, Picture, Print, Refusal};
    ///
    /// let family = Family::T36H11;
    /// let mut picture = Picture::packed(vec![0; 200 * 150], 200, 150);
    /// let grid = Grid { rows: 2, columns: 3, gap: 3 };
    /// let print = Print { x: 8, y: 8, cell: 5, turn: 0, light: 255, dark: 0 };
    /// let quads = family.paint_sheet(&mut picture, &grid, &print)?;
    /// let rows = family.try_decode_quads(&picture, &quads)?;
    /// assert!(rows.iter().map(|row| row.unwrap().id).eq(0..6));
    ///
    /// // The grid takes 180 pixels across. It has to end one pixel before the edge.
    /// assert!(family.paint_sheet(&mut picture, &grid, &Print { x: 19, ..print }).is_ok());
    /// assert_eq!(family.paint_sheet(&mut picture, &grid, &Print { x: 20, ..print }), Err(Refusal::Sheet));
    /// # Ok::<(), Refusal>(())
    /// ```
    pub fn paint_sheet(self, picture: &mut Picture<impl AsMut<[u8]>>, grid: &Grid, print: &Print) -> Result<Vec<Quad>, Refusal> {
        let &mut Picture { ref mut bytes, width: w, height: h, stride } = picture;
        let (bytes, number) = (bytes.as_mut(), self.number());
        let (&Grid { rows, columns, gap }, &Print { x, y, cell, turn, light, dark }) = (grid, print);
        listed(grid, |quads| {
            c::paint_sheet_in(bytes, w, h, stride, number, rows, columns, gap, x, y, cell, turn, light, dark, quads)
        })
    }
}

/// Lends an output of eight numbers a tag to `paint`, and takes it apart. A grid of more tags than a sheet can have is refused
/// whatever the output's length.
fn listed(grid: &Grid, paint: impl FnOnce(&mut [f32]) -> u32) -> Result<Vec<Quad>, Refusal> {
    let mut quads = vec![[0f32; 8]; grid.tags().min(32 * 32)];
    accepted(paint(quads.as_flattened_mut()))?;
    Ok(quads.into_iter().map(Quad::from).collect())
}
