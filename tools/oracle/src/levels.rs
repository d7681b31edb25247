//! Vectors of `bit_code`.

use crate::limits::{self, Answer};
use crate::original::detector::bit_code;
use crate::out::{Digest, File, Frame, Numbers, SEED};
use image::GrayImage;

pub fn files() -> Vec<File> {
    vec![rows()]
}

/// What the original says of levels: a refusal number and the bits. It reads them from a picture of one row. It has one answer for
/// both refusals; with every unsure module allowed only 11 is left.
pub fn read(levels: &[u8], band: u8, allowed: u32) -> (u8, u64) {
    let picture = GrayImage::from_raw(levels.len() as u32, 1, levels.to_vec()).unwrap();
    let places: Vec<(f32, f32)> = (0..levels.len()).map(|x| (x as f32, 0.0)).collect();
    match (bit_code(&picture, &places, band, allowed), bit_code(&picture, &places, band, u32::MAX)) {
        (Some(word), _) => (0, word),
        (None, Some(_)) => (12, 0),
        (None, None) => (11, 0),
    }
}

fn push(file: &mut File, levels: &[u8], band: u8, allowed: u32, (refusal, word): (u8, u64)) {
    file.push(Frame::new().u8(1).u8(band).u32(allowed).u8(refusal).u64(word).bytes(levels));
}

fn rows() -> File {
    let mut file = File::new("vectors_tags/data/bit_code");
    let mut numbers = Numbers::from(SEED + 64);
    let mut original = |levels: &[u8], band: u8, allowed: u32| {
        push(&mut file, levels, band, allowed, read(levels, band, allowed));
    };
    for length in 1..=64 {
        for round in 0..4 {
            let least = numbers.below(200) as u8;
            let range = [256 - least as usize, 52, 50, 120.min(256 - least as usize)][round];
            let levels: Vec<u8> = (0..length).map(|_| least + numbers.below(range) as u8).collect();
            let unsure = numbers.below(length + 1) as u32;
            original(&levels, 10, 3);
            original(&levels, numbers.below(40) as u8, unsure);
        }
    }
    for row in limits::levels() {
        let answer = match row.answer {
            Answer::Word(word) => (0, word),
            Answer::Refused(number) => (number, 0),
            Answer::Tag(..) => panic!("levels answer a word"),
        };
        let known = answer.0 == 15 || answer == read(&row.levels, row.band, row.allowed);
        assert!(known, "limits.txt and the original differ");
        push(&mut file, &row.levels, row.band, row.allowed, answer);
    }
    for varied in [0, 1] {
        file.push(digest(varied));
    }
    file
}

/// A frame with a digest of the answers to 65,536 lists of levels, one for each two levels. The bands and what is allowed are 10
/// and 64, or they vary.
fn digest(varied: u8) -> Frame {
    let mut digest = Digest::new();
    for k in 0..65_536usize {
        let (band, allowed) = if varied == 0 { (10, 64) } else { (k % 32, k / 32 % 64) };
        let (refusal, word) = read(&spread(k), band as u8, allowed as u32);
        digest.u8(refusal);
        digest.u64(word);
    }
    Frame::new().u8(2).u8(varied).u64(digest.0)
}

/// 64 levels: two, and 62 in steps of one about half their sum.
fn spread(k: usize) -> Vec<u8> {
    let (one, other) = (k % 256, k / 256);
    let middle = (one + other) / 2;
    let about = (0..62).map(|j| (middle + j).saturating_sub(30).min(255));
    [one, other].into_iter().chain(about).map(|level| level as u8).collect()
}
