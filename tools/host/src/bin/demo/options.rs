//! What the command line says.

use crate::SIDE;
use crate::camera::PITCHES;
use crate::number::number;
use std::ffi::OsString;
use std::path::PathBuf;

pub const USAGE: &str = "usage: demo [FOLDER] [--noise LEVELS] [--smear TAG] [--pitch BYTES] [--report FILE]";

/// Where to write, and what the picture is to be like.
pub struct Options {
    pub folder: PathBuf,
    /// The deviation of the camera's noise, in levels.
    pub noise: usize,
    /// A tag to be smeared.
    pub smear: Option<usize>,
    /// How many bytes a line takes, with its filler. Without it lines have no filler.
    pub pitch: Option<usize>,
    /// Where to write the list reading of the sheet as a report.
    pub report: Option<PathBuf>,
}

impl Options {
    /// The options, or what is wrong with them: a word that is not known, one too many, a file's name that is missing, or a number
    /// that is missing, too small or too large. Where no folder is named, it is the one in DEMO_FOLDER, which `./demo` sets, else target/demo.
    pub fn read(mut words: impl Iterator<Item = OsString>) -> Result<Options, String> {
        let (mut folder, mut noise, mut smear, mut pitch, mut report) = (None, None, None, None, None);
        while let Some(word) = words.next() {
            let name = word.to_string_lossy().into_owned();
            let twice = match name.as_str() {
                "--noise" => noise.replace(number(&name, words.next(), 0..=255)?).is_some(),
                "--smear" => smear.replace(number(&name, words.next(), 0..=SIDE * SIDE - 1)?).is_some(),
                "--pitch" => pitch.replace(number(&name, words.next(), PITCHES)?).is_some(),
                "--report" => report.replace(file(&name, words.next())?).is_some(),
                "" => return Err("the folder's name is empty".into()),
                _ if name.starts_with('-') => return Err(format!("there is no option {name}")),
                _ => folder.replace(word).is_some(),
            };
            if twice {
                return Err(format!("{name} is one too many"));
            }
        }
        let folder = folder.or_else(|| std::env::var_os("DEMO_FOLDER")).unwrap_or_else(|| "target/demo".into());
        Ok(Options { folder: folder.into(), noise: noise.unwrap_or(6), smear, pitch, report })
    }
}

/// The name of a file after an option. The next option is none.
fn file(option: &str, word: Option<OsString>) -> Result<PathBuf, String> {
    let name = word.filter(|word| !word.is_empty() && !word.as_encoded_bytes().starts_with(b"-"));
    name.map(PathBuf::from).ok_or_else(|| format!("{option} takes the name of a file"))
}
