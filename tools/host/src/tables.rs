//! Tables of codes: the built-in families, and tables of the host's own.

/// The code lists, from the file that the proved code is compiled from.
#[rustfmt::skip]
#[allow(missing_docs)]
#[path = "../../../crates/tag_families/src/codes.rt"]
mod codes;

/// A table of codes with what describes its tags: a table of the host's own, or a family's.
///
/// Refusal 6 meets a table with an edge outside 1 to 8, a border outside 1 to 4, a match threshold outside 1 to 64, no code or more
/// than 1,024, or a code that does not fit in edge² bits.
#[derive(Clone, Copy, PartialEq, Eq, Debug)]
pub struct Table<'a> {
    /// Modules along one side of the code's square.
    pub edge: u8,
    /// Dark modules around the square, on each side.
    pub border: u8,
    /// The match threshold: a word is read where it differs from a code in fewer bits.
    pub hamming_distance: u8,
    /// The codes. A code's position is the id of its tag.
    pub codes: &'a [u64],
}

impl Table<'_> {
    /// Modules along one side of a tag, its border included.
    pub const fn side(&self) -> usize {
        self.edge as usize + 2 * self.border as usize
    }
}

/// A built-in family of tags.
#[derive(Clone, Copy, PartialEq, Eq, Hash, Debug)]
#[repr(u8)]
pub enum Family {
    /// 30 tags of 4 × 4 modules.
    T16H5 = 0,
    /// 242 tags of 5 × 5 modules.
    T25H7 = 1,
    /// 35 tags of 5 × 5 modules.
    T25H9 = 2,
    /// 587 tags of 6 × 6 modules.
    T36H11 = 3,
    /// The tags of T36H11 in a border of one module.
    T36H11B1 = 4,
}

/// The families in the order of their numbers.
pub const FAMILIES: [Family; 5] = [Family::T16H5, Family::T25H7, Family::T25H9, Family::T36H11, Family::T36H11B1];

impl Family {
    /// The number that the C interface gives it.
    pub const fn number(self) -> u8 {
        self as u8
    }

    /// Its codes.
    pub const fn codes(self) -> &'static [u64] {
        match self {
            Family::T16H5 => &codes::T16H5,
            Family::T25H7 => &codes::T25H7,
            Family::T25H9 => &codes::T25H9,
            Family::T36H11 | Family::T36H11B1 => &codes::T36H11,
        }
    }

    /// The same family as a table.
    ///
    /// ```
    /// use muosleap::Family;
    ///
    /// let table = Family::T16H5.table();
    /// assert_eq!((table.edge, table.border, table.hamming_distance, table.codes[0]), (4, 2, 1, 0x231B));
    /// assert!(table.check_likeness().is_ok());
    /// ```
    pub const fn table(self) -> Table<'static> {
        let (edge, border, hamming_distance) = match self {
            Family::T16H5 => (4, 2, 1),
            Family::T25H7 | Family::T25H9 => (5, 2, 2),
            Family::T36H11 => (6, 2, 3),
            Family::T36H11B1 => (6, 1, 3),
        };
        Table { edge, border, hamming_distance, codes: self.codes() }
    }
}
