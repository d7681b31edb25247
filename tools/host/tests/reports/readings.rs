//! Readings to write, made of random numbers.

use crate::definition::Row;
use crate::lists::below;
use crate::numbers::Numbers;

/// Corner numbers that are easily lost: zeros of both signs, the least and the largest subnormal numbers, the largest that 8 lets
/// through, and others about them.
pub const CORNERS: [u32; 14] = [
    0x0000_0000, // 0.0
    0x8000_0000, // -0.0
    0x0000_0001, // the least above 0.0
    0x8000_0001,
    0x007f_ffff, // the largest subnormal
    0x807f_ffff,
    0x0080_0000, // the least normal
    0x8080_0000,
    0x467f_ffff, // the largest below 16,384
    0xc67f_ffff,
    0x467f_fffe,
    0x3f7f_ffff, // the largest below 1.0
    0x3f80_0001,
    0x44f0_0000, // 1,920
];

/// Corner numbers that 8 refuses: 16,384 and the next one, infinities, NaN quiet and signalling.
pub const NO_CORNERS: [u32; 12] = [
    0x4680_0000,
    0xc680_0000,
    0x4680_0001,
    0xc680_0001,
    0x7f7f_ffff,
    0xff7f_ffff,
    0x7f80_0000,
    0xff80_0000,
    0x7f80_0001,
    0xffa0_0000,
    0x7fc0_0000,
    0xffff_ffff,
];

/// The numbers of a reading, as they are lent.
#[derive(Clone)]
pub struct Reading {
    pub rows: Vec<u64>,
    pub corners: Vec<f32>,
}

impl From<&[Row]> for Reading {
    fn from(rows: &[Row]) -> Reading {
        let corners = rows.iter().flat_map(|row| row.1.map(f32::from_bits)).collect();
        Reading { rows: rows.iter().flat_map(|row| row.0).collect(), corners }
    }
}

impl Reading {
    /// The same as rows.
    pub fn said(&self) -> Vec<Row> {
        let corners = self.corners.as_chunks().0.iter().map(|corners| corners.map(f32::to_bits));
        self.rows.as_chunks().0.iter().copied().zip(corners).collect()
    }

    /// So many rows, most of them tags, with all five maps.
    pub fn random(count: usize, numbers: &mut Numbers) -> Reading {
        let mut ids: Vec<u64> = (0..1_024).collect();
        (0..count).for_each(|place| ids.swap(place, place + below(1_024 - place, numbers)));
        let rows: Vec<Row> = ids[..count].iter().map(|&id| row(id, numbers)).collect();
        Reading::from(&rows[..])
    }
}

/// A row of a tag, or a refused one.
pub fn row(id: u64, numbers: &mut Numbers) -> Row {
    if below(5, numbers) == 0 {
        return ([[8, 9, 10, 11, 12, 13, 18][below(7, numbers)], 0, 0, 0], [0; 8]);
    }
    let turn = [0, 1 + below(3, numbers)][below(2, numbers)] as u64;
    let differing = [0, [1, 63, 1 + below(63, numbers)][below(3, numbers)]][below(2, numbers)] as u64;
    ([0, id, turn, differing], [0; 8].map(|_: u32| corner(numbers)))
}

/// The bits of a corner number that 8 lets through.
fn corner(numbers: &mut Numbers) -> u32 {
    match below(3, numbers) {
        0 => CORNERS[below(CORNERS.len(), numbers)],
        1 => (below(4 * 4_096, numbers) as f32 / 4.0 - 0.5).to_bits(),
        _ => any_corner(numbers),
    }
}

/// Any bits that 8 lets through, each as likely.
pub fn any_corner(numbers: &mut Numbers) -> u32 {
    let magnitude = (numbers.next() >> 16) as u32 % 0x4680_0000;
    magnitude | [0, 0x8000_0000][below(2, numbers)]
}
