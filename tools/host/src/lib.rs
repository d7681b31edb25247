//! Muosleap for Rust programs: reads the square tags of a printed sheet in a camera picture.
//!
//! What reads and paints is `libmuosleap_c.a`, which is compiled from code that is proved against its definition for all inputs.
//! This crate adds types: a refusal with a name and a sentence instead of a number, small structs for pictures, points, quads and
//! tables. What it does itself, in Rust and not proved, is little: [`image_util::kernel`] and [`image_util::to_unit`], which the proved
//! code leaves to its host, the squares of [`board`], the [`files`], and sums about sizes, as in [`Grid::shape`].
//!
//! - [`Picture`]: an 8-bit picture, with or without filler behind its lines.
//! - [`detector`]: words, levels and quads, by [`Family`] or by a [`Table`] of your own; how a tag's [wear](detector#wear) shows; and
//!   what comes of [the same number twice](detector#the-same-number-twice).
//! - [`image_util`]: blur, response, threshold, clusters and their centres.
//! - [`reports`]: a list reading as bytes, for a file or a line, and read again.
//! - [`painter`]: paints a tag, or a sheet of tags. [`board`]: the squares that an aprilgrid board has beside its tags.
//! - [`files`]: pictures as PGM and PNG.
//! - [`c`]: the C interface as it crosses, for hosts that keep their own buffers.
//!
//! ```
//! use muosleap::{Family, Picture, Print};
//!
//! // Paint tag 7 of the family T36H11, 5 pixels a module, in a picture of 80 × 60 pixels.
//! let mut picture = Picture::packed(vec![0; 80 * 60], 80, 60);
//! let print = Print { x: 12, y: 4, cell: 5, turn: 0, light: 220, dark: 30 };
//! let family = Family::T36H11;
//! let quad = family.paint_tag(&mut picture, family.codes()[7], &print)?;
//!
//! // Read it again, starting at its second corner.
//! let tag = family.try_decode_quad(&picture, &quad.started(1))?;
//! assert_eq!((tag.id, tag.turn, tag.differing), (7, 3, 0));
//! # Ok::<(), muosleap::Refusal>(())
//! ```

#![deny(unsafe_code)]
#![warn(missing_docs)]

pub mod board;
#[allow(unsafe_code)]
pub mod c;
pub mod detector;
pub mod files;
pub mod image_util;
pub mod painter;
mod picture;
mod points;
mod refusal;
pub mod reports;
mod tables;

pub use detector::{Found, NotFound, Tag};
pub use image_util::Cluster;
pub use painter::{Grid, Print};
pub use picture::Picture;
pub use points::{Point, Quad, Shape};
pub use refusal::{NoRefusal, REFUSALS, Refusal};
pub use reports::Report;
pub use tables::{FAMILIES, Family, Table};

/// The README's example compiles.
#[cfg(doctest)]
#[doc = include_str!("../README.md")]
struct Readme;

/// So does that of the page on reports.
#[cfg(doctest)]
#[doc = include_str!("../../../docs/REPORTS.md")]
struct Reports;
