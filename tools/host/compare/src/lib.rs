//! What the comparison and the benchmark share.

pub mod pictures;

pub use oracle::out::{Numbers, SEED};

/// What to say where the original's files are not given.
pub const SKIPPED: &str = "skipped: the original's files are not given. Set ORIGINAL to the full path of the folder that holds \
detector.rs, image_util.rs and tag_families.rs of aprilgrid-rs";
