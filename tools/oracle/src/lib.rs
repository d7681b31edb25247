//! The original functions, cut out of their files by build.rs, and what is asked of them: the vectors of the programs
//! `crates/vectors_*` (README.md has the formats and the seeds), and by `tools/host/compare` the comparison at scale.
//! Where the original's files are not given, only the parts that need none of them are here.

#[cfg(original)]
pub mod levels;
#[cfg(original)]
mod limits;
#[cfg(original)]
mod lists;
pub mod out;
#[cfg(original)]
pub mod painter;
#[cfg(original)]
pub mod planes;
#[cfg(original)]
pub mod quads;
#[cfg(original)]
pub mod sheets;
#[cfg(original)]
pub mod words;

pub use image;

/// The original functions.
#[cfg(original)]
#[allow(dead_code, clippy::all)]
pub mod original {
    include!(concat!(env!("OUT_DIR"), "/original.rs"));
}
