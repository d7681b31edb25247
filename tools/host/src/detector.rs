//! Words, levels and quads.
//!
//! # Wear
//!
//! Each answer says in how many modules the tag differs from its code: [`Tag::differing`], 0 for a clean tag of a table that
//! passes the likeness check. Where the number of a sheet's tag rises from picture to picture, the tag is wearing out or getting
//! dirty, and can be cleaned or replaced before it fails: at the match threshold it is not read as this tag any more. A family's
//! is then refused (13); with a table of your own that only just passes the check it may even be read as another.
//!
//! | family | match threshold | `differing` of a tag that is read |
//! |---|---|---|
//! | T16H5 | 1 | 0: one differing module is one too many, so these tags give no warning |
//! | T25H7, T25H9 | 2 | 0 or 1 |
//! | T36H11, T36H11B1 | 3 | 0, 1 or 2 |
//!
//! It is the picture that is read: a module that glare or noise turns counts as one that is worn. And a module that fades counts
//! only once it shows the other shade. Before that it is unsure, and more than three unsure modules are refusal 12, a tag that
//! fades as a whole refusal 11, while the number may still be 0: watch for these refusals too.
//!
//! # The same number twice
//!
//! In a list an id that two quads give is not trusted: each of these quads is refused with [`Refusal::RepeatedId`], 18, and none is
//! picked. It tells that two sheets overlap, or that one tag was found twice. So lend each found quad once: a search that finds a
//! tag twice, be it from two starts or as the very same quad, loses it. A quad that is refused by itself, 8 to 13, keeps its
//! refusal; it gives no id, and makes no other quad 18. Reading one quad alone never gives 18.

use crate::refusal::accepted;
use crate::{Family, Picture, Quad, Refusal, Table, c};
use std::{error::Error, fmt};

/// What a word shows.
#[derive(Clone, Copy, PartialEq, Eq, Debug)]
#[non_exhaustive]
pub struct Found {
    /// The code's position in the table.
    pub id: usize,
    /// How often the word was turned to meet the code, 0 to 3.
    pub turn: u8,
    /// In how many bits the code differs from the word turned so often, the fewest that a code of the table does: below the match
    /// threshold, so 63 at most. Bits above the square count too, at turn 0 alone: a turned word has none.
    pub differing: u8,
    /// The count of codes compared: each code met in each turn begun, up to the one that ends the search, which is the first that
    /// differs in no bit. So in a table of n codes it is turn × n + id + 1 where `differing` is 0; where it is not, each turn begun went
    /// through the table, and it is (turn + 1) × n. The four turns of one word may have different counts.
    pub compared: usize,
}

/// Why a word shows no code: one of two refusals, and what is known beside it.
///
/// ```
/// use muosleap::{Family, NotFound, Refusal, Table};
///
/// // T16H5 has 30 codes, all of which were compared in each of four turns.
/// let table = Family::T16H5.table();
/// assert_eq!(table.best_tag(0x231A), Err(NotFound::NoCode { compared: 120 }));
///
/// let none = Table { codes: &[], ..table };
/// assert_eq!(none.best_tag(0x231A), Err(NotFound::BadTable));
/// assert_eq!(Refusal::from(NotFound::BadTable), Refusal::BadTable);
/// ```
#[derive(Clone, Copy, PartialEq, Eq, Debug)]
pub enum NotFound {
    /// [`Refusal::NoCode`], 13: no code is near in four turns.
    NoCode {
        /// The count of codes compared, four times the table's length.
        compared: usize,
    },
    /// [`Refusal::BadTable`], 6: no code was compared.
    BadTable,
}

impl From<NotFound> for Refusal {
    fn from(not_found: NotFound) -> Refusal {
        match not_found {
            NotFound::NoCode { .. } => Refusal::NoCode,
            NotFound::BadTable => Refusal::BadTable,
        }
    }
}

impl fmt::Display for NotFound {
    fn fmt(&self, f: &mut fmt::Formatter<'_>) -> fmt::Result {
        Refusal::from(*self).fmt(f)
    }
}

impl Error for NotFound {}

/// A tag that was read.
#[derive(Clone, Copy, PartialEq, Debug)]
#[non_exhaustive]
pub struct Tag {
    /// The tag's number: its code's position in the table.
    pub id: usize,
    /// How the quad was begun: turns from the quad's first corner to the print's, 0 to 3.
    pub turn: u8,
    /// How many modules differ from the tag's code, always fewer than the match threshold. With a table that passes the likeness
    /// check it is 0 for a clean tag, and the same from every corner that the quad begins with. It tells [wear](self#wear).
    pub differing: u8,
    /// The quad's corners in print order, whatever corner the quad began with.
    pub corners: Quad,
}

/// A word of edge² bits, turned once. Refusal 6 for an edge outside 1 to 8.
///
/// ```
/// use muosleap::{Refusal, detector::rotate_bits};
///
/// assert_eq!(rotate_bits(0x231B, 4), Ok(0x7D01));
/// assert_eq!(rotate_bits(0x231B, 9), Err(Refusal::BadTable));
/// ```
pub fn rotate_bits(bits: u64, edge: u8) -> Result<u64, Refusal> {
    let mut word = 0;
    accepted(c::rotate_bits(bits, edge, &mut word))?;
    Ok(word)
}

/// The bits that 1 to 64 levels show: 1 above the middle between the least and the greatest, the first level as the highest bit.
/// A level nearer to the middle than `band` is unsure. Refusals 15, 11, 12.
///
/// ```
/// use muosleap::{Refusal, detector::bit_code};
///
/// assert_eq!(bit_code(&[200, 30, 190, 40], 10, 0), Ok(0b1010));
/// assert_eq!(bit_code(&[0, 49], 10, 0), Err(Refusal::LowContrast));
/// assert_eq!(bit_code(&[0, 51, 17, 35], 10, 1), Err(Refusal::UnsureModules));
/// ```
pub fn bit_code(levels: &[u8], band: u8, allowed: u32) -> Result<u64, Refusal> {
    let mut word = 0;
    accepted(c::bit_code(levels, band, allowed, &mut word))?;
    Ok(word)
}

impl Table<'_> {
    /// The code that a word shows: turns 0 to 3, in each the nearest code, the first turn that has one nearer than the match
    /// threshold. A code that differs in no bit ends the search at once; the answer is that of a search through all codes. The
    /// border plays no part. Refusals 6, 13.
    ///
    /// ```
    /// use muosleap::{Family, NotFound};
    ///
    /// let table = Family::T16H5.table();
    /// let read = |word: u64| table.best_tag(word).map(|found| (found.id, found.turn, found.compared));
    /// assert_eq!(read(0x231B), Ok((0, 0, 1)));
    /// assert_eq!(read(0x7D01), Ok((0, 3, 91)));
    /// assert_eq!(read(0x231A), Err(NotFound::NoCode { compared: 120 }));
    ///
    /// // A match threshold of 3 takes up to two misprinted modules. To tell them, a turn goes through all 587 codes.
    /// let table = Family::T36H11.table();
    /// let differing = |word: u64| table.best_tag(word).map(|found| (found.differing, found.compared));
    /// assert_eq!(differing(table.codes[7]), Ok((0, 8)));
    /// assert_eq!(differing(table.codes[7] ^ 1 << 20), Ok((1, 587)));
    /// assert_eq!(differing(table.codes[7] ^ 1 << 20 ^ 1 << 35), Ok((2, 587)));
    /// assert_eq!(differing(table.codes[7] ^ 1 << 20 ^ 1 << 35 ^ 1), Err(NotFound::NoCode { compared: 2_348 }));
    /// ```
    pub fn best_tag(&self, bits: u64) -> Result<Found, NotFound> {
        let (mut id, mut turn, mut differing, mut compared) = (0, 0, 0, 0);
        let Table { edge, hamming_distance, codes, .. } = *self;
        match accepted(c::best_tag(bits, hamming_distance, codes, edge, &mut id, &mut turn, &mut differing, &mut compared)) {
            Ok(()) => Ok(Found { id, turn, differing, compared }),
            Err(Refusal::NoCode) => Err(NotFound::NoCode { compared }),
            Err(Refusal::BadTable) => Err(NotFound::BadTable),
            Err(other) => panic!("libmuosleap_c.a is of another version: {other}"),
        }
    }

    /// Whether every word that is near a code is near one code only, and in one turn. Check a list of your own once, before its
    /// first use: the readers do not. Refusals 6, 7.
    ///
    /// ```
    /// use muosleap::{Refusal, Table};
    ///
    /// // 0x231B and 0x7D01 are one tag and the same tag turned.
    /// let table = Table { edge: 4, border: 2, hamming_distance: 1, codes: &[0x231B, 0x7D01] };
    /// assert_eq!(table.check_likeness(), Err(Refusal::CodesAlike));
    /// ```
    pub fn check_likeness(&self) -> Result<(), Refusal> {
        accepted(c::check_likeness(self.edge, self.border, self.hamming_distance, self.codes))
    }

    /// Reads the tag in a quad of a picture. Refusals 1, 6, 8 to 13.
    ///
    /// ```
    /// use muosleap::{Picture, Print, Refusal, Table, painter::paint_tag};
    ///
    /// let table = Table { edge: 4, border: 1, hamming_distance: 2, codes: &[0x231B] };
    /// let mut picture = Picture::packed([0; 400], 20, 20);
    /// let print = Print { x: 1, y: 1, cell: 3, turn: 2, light: 220, dark: 30 };
    ///
    /// // The last module is misprinted.
    /// let quad = paint_tag(&mut picture, 4, 1, 0x231B ^ 1, &print)?;
    /// let tag = table.try_decode_quad(&picture, &quad)?;
    /// assert_eq!((tag.id, tag.turn, tag.differing), (0, 0, 1));
    ///
    /// assert_eq!(table.try_decode_quad(&Picture::packed([128; 400], 20, 20), &quad), Err(Refusal::LowContrast));
    /// assert_eq!(table.try_decode_quad(&Picture::packed([128; 399], 20, 20), &quad), Err(Refusal::PlaneSize));
    /// # Ok::<(), Refusal>(())
    /// ```
    pub fn try_decode_quad(&self, picture: &Picture<impl AsRef<[u8]>>, quad: &Quad) -> Result<Tag, Refusal> {
        let (mut id, mut turn, mut differing, mut corners) = (0, 0, 0, [0.0; 8]);
        accepted(c::try_decode_quad(
            picture.bytes.as_ref(),
            picture.width,
            picture.height,
            picture.stride,
            self.edge,
            self.border,
            self.hamming_distance,
            self.codes,
            &(*quad).into(),
            &mut id,
            &mut turn,
            &mut differing,
            &mut corners,
        ))?;
        Ok(Tag { id, turn, differing, corners: corners.into() })
    }

    /// Reads a list of quads: for each quad its tag, or why it was refused. That is 8 to 13 by itself, and 18 where another quad of the
    /// list [gives the same id](self#the-same-number-twice). The call's own refusals: 1, 6, 16.
    ///
    /// ```
    /// use muosleap::{Picture, Print, Quad, Refusal, Table, painter::paint_tag};
    ///
    /// let table = Table { edge: 4, border: 1, hamming_distance: 2, codes: &[0x231B] };
    /// let mut picture = Picture::packed([0; 400], 20, 20);
    /// let print = Print { x: 1, y: 1, cell: 3, turn: 0, light: 220, dark: 30 };
    ///
    /// // A tag with a misprinted module, read from its third corner.
    /// let quad = paint_tag(&mut picture, 4, 1, 0x231B ^ 1, &print)?;
    /// let rows = table.try_decode_quads(&picture, &[quad.started(2), Quad::from([0.0; 8]), Quad::from([20.0; 8])])?;
    /// let tag = rows[0].unwrap();
    /// assert_eq!((tag.id, tag.turn, tag.differing), (0, 2, 1));
    /// assert_eq!(rows[1..], [Err(Refusal::LowContrast), Err(Refusal::CornerOutside)]);
    ///
    /// // Found twice, from its first corner and from its third: neither is trusted.
    /// let rows = table.try_decode_quads(&picture, &[quad, Quad::from([0.0; 8]), quad.started(2)])?;
    /// assert_eq!(rows, [Err(Refusal::RepeatedId), Err(Refusal::LowContrast), Err(Refusal::RepeatedId)]);
    /// # Ok::<(), Refusal>(())
    /// ```
    pub fn try_decode_quads(
        &self,
        picture: &Picture<impl AsRef<[u8]>>,
        quads: &[Quad],
    ) -> Result<Vec<Result<Tag, Refusal>>, Refusal> {
        listed(quads, |quads, rows, corners| {
            c::try_decode_quads(
                picture.bytes.as_ref(),
                picture.width,
                picture.height,
                picture.stride,
                self.edge,
                self.border,
                self.hamming_distance,
                self.codes,
                quads,
                rows,
                corners,
            )
        })
    }
}

impl Family {
    /// Reads the tag in a quad of a picture. Refusals 1, 8 to 13.
    ///
    /// ```
    /// use muosleap::{Family, Picture, Print, Refusal};
    ///
    /// let family = Family::T25H9;
    /// let mut picture = Picture::packed(vec![0; 50 * 40], 50, 40);
    /// let print = Print { x: 3, y: 2, cell: 3, turn: 0, light: 200, dark: 20 };
    /// let quad = family.paint_tag(&mut picture, family.codes()[34], &print)?;
    /// let tag = family.try_decode_quad(&picture, &quad)?;
    /// assert_eq!((tag.id, tag.turn, tag.differing), (34, 0, 0));
    /// // Another family does not know it.
    /// assert_eq!(Family::T25H7.try_decode_quad(&picture, &quad), Err(Refusal::NoCode));
    ///
    /// // One misprinted module is read and told, a second one is too many for this family.
    /// family.paint_tag(&mut picture, family.codes()[34] ^ 1 << 12, &print)?;
    /// let tag = family.try_decode_quad(&picture, &quad)?;
    /// assert_eq!((tag.id, tag.turn, tag.differing), (34, 0, 1));
    /// family.paint_tag(&mut picture, family.codes()[34] ^ 1 << 12 ^ 1 << 3, &print)?;
    /// assert_eq!(family.try_decode_quad(&picture, &quad), Err(Refusal::NoCode));
    /// # Ok::<(), Refusal>(())
    /// ```
    pub fn try_decode_quad(self, picture: &Picture<impl AsRef<[u8]>>, quad: &Quad) -> Result<Tag, Refusal> {
        let (mut id, mut turn, mut differing, mut corners) = (0, 0, 0, [0.0; 8]);
        let quad = (*quad).into();
        accepted(c::try_decode_quad_in(
            picture.bytes.as_ref(),
            picture.width,
            picture.height,
            picture.stride,
            self.number(),
            &quad,
            &mut id,
            &mut turn,
            &mut differing,
            &mut corners,
        ))?;
        Ok(Tag { id, turn, differing, corners: corners.into() })
    }

    /// Reads a list of quads: for each quad its tag, or why it was refused. That is 8 to 13 by itself, and 18 where another quad of the
    /// list [gives the same id](self#the-same-number-twice). The call's own refusals: 1, 16.
    ///
    /// ```
    /// use muosleap::{Family, Grid, Picture, Print, Quad, Refusal, Table};
    ///
    /// // A tag with two misprinted modules.
    /// let family = Family::T36H11;
    /// let mut picture = Picture::packed(vec![0; 50 * 50], 50, 50);
    /// let print = Print { x: 4, y: 4, cell: 4, turn: 0, light: 200, dark: 20 };
    /// let quad = family.paint_tag(&mut picture, family.codes()[9] ^ 1 << 3 ^ 1 << 30, &print)?;
    /// let outside = Quad::from([0.0, 0.0, 50.0, 0.0, 50.0, 50.0, 0.0, 50.0]);
    /// let rows = family.try_decode_quads(&picture, &[quad, outside])?;
    /// let tag = rows[0].unwrap();
    /// assert_eq!((tag.id, tag.differing), (9, 2));
    /// assert_eq!(rows[1], Err(Refusal::CornerOutside));
    ///
    /// // A picture with two tags 7: which is the right one, if any, cannot be told. Tag 5 is read.
    /// let [five, seven] = [5, 7].map(|id| family.codes()[id]);
    /// let printed = Table { codes: &[seven, five, seven], ..family.table() };
    /// let mut picture = Picture::packed(vec![0; 80 * 30], 80, 30);
    /// let quads = printed.paint_sheet(&mut picture, &Grid { rows: 1, columns: 3, gap: 2 }, &Print { cell: 2, ..print })?;
    /// let rows = family.try_decode_quads(&picture, &quads)?;
    /// assert_eq!((rows[0], rows[2]), (Err(Refusal::RepeatedId), Err(Refusal::RepeatedId)));
    /// assert_eq!(rows[1]?.id, 5);
    /// # Ok::<(), Refusal>(())
    /// ```
    pub fn try_decode_quads(
        self,
        picture: &Picture<impl AsRef<[u8]>>,
        quads: &[Quad],
    ) -> Result<Vec<Result<Tag, Refusal>>, Refusal> {
        let &Picture { ref bytes, width, height, stride } = picture;
        listed(quads, |quads, rows, corners| {
            c::try_decode_quads_in(bytes.as_ref(), width, height, stride, self.number(), quads, rows, corners)
        })
    }
}

/// Lends the list's numbers and outputs of their length to `read`, and takes the rows apart.
fn listed(
    quads: &[Quad],
    read: impl FnOnce(&[f32], &mut [u64], &mut [f32]) -> u32,
) -> Result<Vec<Result<Tag, Refusal>>, Refusal> {
    let numbers: Vec<[f32; 8]> = quads.iter().map(|&quad| quad.into()).collect();
    let mut rows = vec![[0u64; 4]; quads.len()];
    let mut corners = vec![[0f32; 8]; quads.len()];
    accepted(read(numbers.as_flattened(), rows.as_flattened_mut(), corners.as_flattened_mut()))?;
    Ok(rows.into_iter().zip(corners).map(said).collect())
}

/// What a row of numbers and its corner numbers say: a tag, or a refusal.
pub(crate) fn said(([refusal, id, turn, differing], corners): ([u64; 4], [f32; 8])) -> Result<Tag, Refusal> {
    accepted(refusal as u32)?;
    Ok(Tag { id: id as usize, turn: turn as u8, differing: differing as u8, corners: corners.into() })
}
