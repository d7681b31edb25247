//! Frames and files of vectors, the generator of numbers and the digest. The crate `vectors` has the same generator and digest.

use std::{fs, path::Path};

/// The bytes of one frame.
#[derive(Clone, Default)]
pub struct Frame(Vec<u8>);

impl Frame {
    pub fn new() -> Frame {
        Frame::default()
    }

    pub fn u8(mut self, value: u8) -> Frame {
        self.0.push(value);
        self
    }

    pub fn u16(mut self, value: usize) -> Frame {
        self.0.extend(u16::try_from(value).unwrap().to_le_bytes());
        self
    }

    pub fn u32(mut self, value: u32) -> Frame {
        self.0.extend(value.to_le_bytes());
        self
    }

    pub fn u64(mut self, value: u64) -> Frame {
        self.0.extend(value.to_le_bytes());
        self
    }

    pub fn f32(self, value: f32) -> Frame {
        self.u32(value.to_bits())
    }

    pub fn f32s(self, values: &[f32]) -> Frame {
        values.iter().fold(self, |frame, &value| frame.f32(value))
    }

    pub fn u64s(self, values: &[u64]) -> Frame {
        values.iter().fold(self, |frame, &value| frame.u64(value))
    }

    pub fn bytes(mut self, values: &[u8]) -> Frame {
        self.0.extend(values);
        self
    }
}

/// A file of frames, each after its length in two bytes, low byte first.
#[derive(Clone)]
pub struct File {
    path: &'static str,
    bytes: Vec<u8>,
    frames: usize,
}

/// The programs read a file into a buffer of this size.
const MOST: usize = 65_536;

impl File {
    /// A file of the crates folder, as "vectors_tags/data/rotate_bits".
    pub fn new(path: &'static str) -> File {
        File { path, bytes: Vec::new(), frames: 0 }
    }

    pub fn push(&mut self, frame: Frame) {
        self.bytes.extend(u16::try_from(frame.0.len()).unwrap().to_le_bytes());
        self.bytes.extend(frame.0);
        self.frames += 1;
    }

    pub fn write(&self, crates: &str) {
        assert!(self.bytes.len() <= MOST, "{} has {} bytes", self.path, self.bytes.len());
        let path = Path::new(crates).join(self.path);
        fs::create_dir_all(path.parent().unwrap()).unwrap();
        fs::write(path, &self.bytes).unwrap();
        println!("{} frames, {} bytes: {}", self.frames, self.bytes.len(), self.path);
    }
}

/// What every seed is counted from.
pub const SEED: u64 = 0x9e37_79b9_7f4a_7c15;

/// Numbers of 64 bits from a seed, which is not 0: xorshift with the shifts 13, 7, 17.
pub struct Numbers(u64);

impl Numbers {
    pub fn from(seed: u64) -> Numbers {
        assert_ne!(seed, 0);
        Numbers(seed)
    }

    pub fn next(&mut self) -> u64 {
        self.0 ^= self.0 << 13;
        self.0 ^= self.0 >> 7;
        self.0 ^= self.0 << 17;
        self.0
    }

    /// A float from 0.0 to below 1.0, a multiple of 2^-24.
    pub fn unit(&mut self) -> f32 {
        (self.next() >> 40) as f32 / 16_777_216.0
    }

    /// A number below `most`.
    pub fn below(&mut self, most: usize) -> usize {
        (self.next() % most as u64) as usize
    }
}

/// The digest FNV-1a of 64 bits.
pub struct Digest(pub u64);

impl Digest {
    pub fn new() -> Digest {
        Digest(0xcbf2_9ce4_8422_2325)
    }

    pub fn u8(&mut self, byte: u8) {
        self.0 = (self.0 ^ byte as u64).wrapping_mul(0x100_0000_01b3);
    }

    pub fn bytes(&mut self, bytes: &[u8]) {
        bytes.iter().for_each(|&byte| self.u8(byte));
    }

    pub fn u16(&mut self, value: usize) {
        self.bytes(&u16::try_from(value).unwrap().to_le_bytes());
    }

    pub fn u64(&mut self, value: u64) {
        self.bytes(&value.to_le_bytes());
    }

    pub fn f32s(&mut self, values: &[f32]) {
        values.iter().for_each(|value| self.bytes(&value.to_bits().to_le_bytes()));
    }
}
