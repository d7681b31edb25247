//! What the command line says.

use crate::number::number;
use muosleap::{FAMILIES, Family, Grid, Print};
use std::ffi::OsString;
use std::ops::RangeInclusive;
use std::path::PathBuf;

pub const USAGE: &str = "\
usage: sheet FILE --family NAME --rows TAGS --columns TAGS [OPTION VALUE] ..
       sheet FILE --codes LIST --edge MODULES --border MODULES --threshold BITS --rows TAGS --columns TAGS [OPTION VALUE] ..
FILE ends in .pgm or .png. LIST is a file with a hexadecimal code on each line.
options: --cell PIXELS (12), --gap CELLS (3), --turn QUARTERS (0), --light SHADE (255), --dark SHADE (0),
         --margin PIXELS (as wide as the gap), --dpi PIXELS (300)";

/// The options that have a value.
const NAMES: [&str; 14] = [
    "--family",
    "--codes",
    "--edge",
    "--border",
    "--threshold",
    "--rows",
    "--columns",
    "--cell",
    "--gap",
    "--turn",
    "--light",
    "--dark",
    "--margin",
    "--dpi",
];

/// What to print, how, and where to.
pub struct Options {
    pub file: PathBuf,
    pub format: Format,
    pub tags: Tags,
    pub grid: Grid,
    /// Its place is as far from the left and upper edges as the grid ends from the others: the margin.
    pub print: Print,
    /// Pixels that the printer puts in an inch.
    pub dpi: usize,
}

pub enum Format {
    Pgm,
    Png,
}

/// The tags: those of a family, or of a list of one's own.
pub enum Tags {
    Family(Family),
    List { codes: PathBuf, edge: u8, border: u8, hamming_distance: u8 },
}

impl Options {
    /// The options, or what is wrong with them.
    pub fn read(words: impl Iterator<Item = OsString>) -> Result<Options, String> {
        let mut given = Given::read(words)?;
        let file = PathBuf::from(given.file.take().ok_or("the file's name is missing")?);
        let ending = file.extension().map(|ending| ending.to_string_lossy().to_lowercase());
        let format = match ending.as_deref() {
            Some("pgm") => Format::Pgm,
            Some("png") => Format::Png,
            _ => return Err(format!("the file's name has to end in .pgm or .png, not {}", file.display())),
        };
        let (rows, columns) = (given.number("--rows", 1..=32, None)?, given.number("--columns", 1..=32, None)?);
        let (cell, gap) = (given.number("--cell", 1..=64, Some(12))?, given.number("--gap", 1..=16, Some(3))?);
        let turn = given.number("--turn", 0..=3, Some(0))? as u8;
        let (light, dark) = (given.number("--light", 0..=255, Some(255))?, given.number("--dark", 0..=255, Some(0))?);
        let margin = given.number("--margin", 1..=4_096, Some(gap * cell))?;
        let dpi = given.number("--dpi", 1..=9_600, Some(300))?;
        let tags = given.tags()?;
        let print = Print { x: margin, y: margin, cell, turn, light: light as u8, dark: dark as u8 };
        Ok(Options { file, format, tags, grid: Grid { rows, columns, gap }, print, dpi })
    }
}

/// The words of the command line.
struct Given {
    file: Option<OsString>,
    named: Vec<(&'static str, Option<OsString>)>,
}

impl Given {
    fn read(words: impl Iterator<Item = OsString>) -> Result<Given, String> {
        let (mut given, mut words) = (Given { file: None, named: Vec::new() }, words.peekable());
        while let Some(word) = words.next() {
            let name = word.to_string_lossy().into_owned();
            let twice = match NAMES.iter().find(|known| **known == name) {
                Some(known) => {
                    let twice = given.has(known);
                    // The next option is no value: this one then has none.
                    let value = words.next_if(|word| !word.as_encoded_bytes().starts_with(b"--"));
                    given.named.push((known, value));
                    twice
                }
                None if name.starts_with('-') => return Err(format!("there is no option {name}")),
                None => given.file.replace(word).is_some(),
            };
            if twice {
                return Err(format!("{name} is one too many"));
            }
        }
        Ok(given)
    }

    fn has(&self, name: &str) -> bool {
        self.named.iter().any(|(known, _)| *known == name)
    }

    /// The value of an option that is on the command line.
    fn word(&self, name: &str) -> Option<OsString> {
        self.named.iter().find(|(known, _)| *known == name).and_then(|(_, word)| word.clone())
    }

    /// The number after an option, or what it is without the option.
    fn number(&self, name: &str, taken: RangeInclusive<usize>, without: Option<usize>) -> Result<usize, String> {
        match without {
            Some(without) if !self.has(name) => Ok(without),
            None if !self.has(name) => Err(format!("{name} is missing")),
            _ => number(name, self.word(name), taken),
        }
    }

    /// A family, or a list with all that describes its tags.
    fn tags(&self) -> Result<Tags, String> {
        let described = ["--edge", "--border", "--threshold"];
        match (self.has("--family"), self.has("--codes")) {
            (true, true) => Err("--family and --codes exclude each other".into()),
            (false, false) => Err("--family is missing, or --codes".into()),
            (true, false) => match described.iter().find(|name| self.has(name)) {
                Some(name) => Err(format!("{name} goes with --codes: a family has its own")),
                None => self.family().map(Tags::Family),
            },
            (false, true) => {
                let codes = self.word("--codes").ok_or("--codes takes the name of a file")?.into();
                let (edge, border) = (self.number("--edge", 1..=8, None)?, self.number("--border", 1..=4, None)?);
                let threshold = self.number("--threshold", 1..=64, None)?;
                Ok(Tags::List { codes, edge: edge as u8, border: border as u8, hamming_distance: threshold as u8 })
            }
        }
    }

    fn family(&self) -> Result<Family, String> {
        let name = self.word("--family").unwrap_or_default();
        let known = FAMILIES.into_iter().find(|family| name == *format!("{family:?}"));
        known.ok_or_else(|| {
            let names = FAMILIES.map(|family| format!("{family:?}")).join(", ");
            format!("--family takes one of {names}, not {}", name.display())
        })
    }
}
