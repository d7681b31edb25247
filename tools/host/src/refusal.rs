//! The refusals. Each is written once, in the list below; the enum, its comments and its texts are made of it, and a test
//! (tests/documents.rs) holds the tables in README.md and in include/muosleap.h to it.

use std::{error::Error, fmt};

/// Writes out a list of refusals, each with its number, its name, what is wrong (in the papers' words) and what to do.
macro_rules! refusals {
    ($($number:literal $name:ident: $wrong:literal, $to_do:literal;)*) => {
        /// Why a call, or a quad of a list, was refused. A refused call has written nothing, but for the count that a search gives
        /// beside 13: [`NotFound::NoCode`](crate::NotFound::NoCode).
        ///
        /// Its number is what the C functions answer and what a row of a list reading holds; shown as text it says what is wrong and
        /// what to do.
        ///
        /// ```
        /// use muosleap::Refusal;
        ///
        /// let refusal = Refusal::try_from(11).unwrap();
        /// assert_eq!(refusal, Refusal::LowContrast);
        /// assert_eq!(refusal.number(), 11);
        /// assert!(refusal.to_string().starts_with("refusal 11: greatest minus least level below 50; "));
        /// assert!(Refusal::try_from(0).is_err());
        /// ```
        #[derive(Clone, Copy, PartialEq, Eq, PartialOrd, Ord, Hash, Debug)]
        #[non_exhaustive]
        #[repr(u8)]
        pub enum Refusal {
            $(#[doc = concat!($number, ": ", $wrong, ".")] $name = $number,)*
        }

        /// The refusals in the order of their numbers.
        pub const REFUSALS: &[Refusal] = &[$(Refusal::$name),*];

        impl Refusal {
            /// What is wrong.
            pub const fn reason(self) -> &'static str {
                match self {
                    $(Refusal::$name => $wrong,)*
                }
            }

            /// What to do about it.
            pub const fn advice(self) -> &'static str {
                match self {
                    $(Refusal::$name => $to_do,)*
                }
            }
        }
    };
}

refusals! {
    1 PlaneSize:
        "a plane side is 0 or above 4,096; a float plane's length is not width × height; an 8-bit plane's pitch is below its width \
         or above 8,192, or its length is not pitch × (height - 1) + width",
        "give each plane its own sides and pitch; the last line has no filler";
    2 Weights:
        "weights not an odd number from 1 to 15, or one outside 0.0 to 1.0 or NaN",
        "mend the kernel: sigma is 3.5 at most";
    3 SampleRange:
        "a sample to be blurred outside 0.0 to 1.0, a sample lent to the response, threshold or clusters of magnitude above 65,536, \
         or NaN in any of them",
        "scale the picture to 0.0 to 1.0 (samples of 0 to 255 can give responses above 65,536); make a clustered response anew";
    4 Threshold:
        "threshold infinite or NaN",
        "take it from `response_threshold`";
    5 Worklist:
        "worklist shorter than 3 × width × height + 1",
        "lend a longer one";
    6 BadTable:
        "table with edge outside 1..8, border outside 1..4, no code or above 1,024 codes, match threshold outside 1..64, or a code \
         of 2^(edge²) or more; or no such family",
        "mend the code list, or the family's number";
    7 CodesAlike:
        "the table fails the likeness check",
        "choose other codes: a sheet of these could be read in two ways";
    8 CornerRange:
        "a corner coordinate is NaN or of magnitude 16,384 or more",
        "mend the quad search";
    9 CornerOutside:
        "a corner rounds outside the picture",
        "move the sheet, so that the whole tag is in view, or mend the quad search";
    10 SampleOutside:
        "a sample rounds outside the picture",
        "move the sheet away from the picture's edge, or mend the quad search";
    11 LowContrast:
        "greatest minus least level below 50",
        "clean the sheet or light it better, or no tag is there";
    12 UnsureModules:
        "more unsure modules than allowed",
        "focus the camera, keep shadows off the tag, or clean it";
    13 NoCode:
        "no code near in four turns",
        "check that the tag is one of this table, and clean or replace it";
    14 Painting:
        "painting word of 2^(edge²) or more, cell outside 1..64 pixels, turn above 3, light less than 50 above dark, or a tag that \
         does not end at least one pixel before the right and lower edges",
        "mend the print";
    15 Count:
        "no levels, or more than 64; for a centre, a sum or count of 2^24 or more, or a count of 0",
        "lend 1 to 64 levels; leave such a cluster out";
    16 ListLength:
        "quad list not a multiple of 8 numbers or above 1,024 quads, or an output shorter than four numbers and eight corner \
         numbers a quad; for a sheet, an output shorter than eight numbers a tag",
        "lend whole quads in lists of at most 1,024, and outputs that are long enough";
    17 Sheet:
        "a sheet's side of 0 or above 32 tags, a gap outside 1..16 cells, more tags than codes, or a grid that does not end at \
         least one pixel before the right and lower edges",
        "mend the grid: other sides or gap, a longer table, smaller cells, or a larger plane";
    18 RepeatedId:
        "another quad of the list gives the same id",
        "two sheets overlap, or one tag was found twice: leave one sheet on the belt, or mend the quad search";
    19 ReportLength:
        "more than 1,024 whole rows, in a report by its first two bytes, or an output too short",
        "write at most 1,024 rows in a report, and lend outputs that are long enough; a file whose first two bytes say more is no report";
    20 BadReport:
        "rows that are not whole, are no such reading or have not eight corner numbers each, or bytes that none writes, spare bytes \
         included",
        "write rows and corners as the list reader gave them; a file that is refused is damaged or no report: copy it again";
}

impl Refusal {
    /// The number that documents 01 and 02 and the C interface give it.
    pub const fn number(self) -> u32 {
        self as u32
    }
}

impl TryFrom<u32> for Refusal {
    type Error = NoRefusal;

    fn try_from(number: u32) -> Result<Refusal, NoRefusal> {
        REFUSALS.iter().copied().find(|refusal| refusal.number() == number).ok_or(NoRefusal(number))
    }
}

impl fmt::Display for Refusal {
    fn fmt(&self, f: &mut fmt::Formatter<'_>) -> fmt::Result {
        write!(f, "refusal {}: {}; {}", self.number(), self.reason(), self.advice())
    }
}

impl Error for Refusal {}

/// A number that no refusal has.
#[derive(Clone, Copy, PartialEq, Eq, Debug)]
pub struct NoRefusal(pub u32);

impl fmt::Display for NoRefusal {
    fn fmt(&self, f: &mut fmt::Formatter<'_>) -> fmt::Result {
        write!(f, "{} is not the number of a refusal", self.0)
    }
}

impl Error for NoRefusal {}

/// A C function's answer as a result.
///
/// # Panics
/// At a number that is no refusal: the archive is not the one that these wrappers were written for.
#[inline]
pub(crate) fn accepted(answer: u32) -> Result<(), Refusal> {
    if answer == 0 {
        return Ok(());
    }
    Err(Refusal::try_from(answer).unwrap_or_else(|unknown| panic!("libmuosleap_c.a is of another version: {unknown}")))
}
