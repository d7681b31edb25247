//! 8-bit pictures, whose lines may have filler behind them.

use crate::Shape;

/// An 8-bit picture as it lies in memory: its bytes, its sides, and its stride, which is the pitch of the C interface.
///
/// The bytes may be borrowed or owned: `&[u8]`, `&mut [u8]`, `Vec<u8>` and arrays can be read, and all but the first painted on.
/// No call copies a picture.
///
/// The lines stand from the top down. Behind each line but the last are `stride - width` bytes of filler, as many cameras send
/// them, and pixel (x, y) is byte `y * stride + x`. So there are `stride * (height - 1) + width` bytes. Filler may hold anything;
/// it is never read, and never written.
///
/// Every number may stand here. Where a side is 0 or above 4,096, the stride is below the width or above 8,192, or there are not so
/// many bytes, the call that takes the picture is refused: [`Refusal::PlaneSize`](crate::Refusal::PlaneSize).
///
/// ```
/// use muosleap::{Family, Picture, Print, Refusal};
///
/// // A camera of 80 × 60 pixels, which sends 128 bytes for each line and does not care what the last 48 of them hold.
/// let mut buffer = vec![77; 128 * 59 + 80];
/// let mut picture = Picture { bytes: &mut buffer[..], width: 80, height: 60, stride: 128 };
/// let print = Print { x: 12, y: 4, cell: 5, turn: 0, light: 220, dark: 30 };
/// let family = Family::T36H11;
/// let quad = family.paint_tag(&mut picture, family.codes()[7], &print)?;
/// assert_eq!(family.try_decode_quad(&picture, &quad)?.id, 7);
/// assert!(buffer[80..128].iter().all(|&filler| filler == 77));
///
/// // With the filler of the last line too, these are not the bytes of a picture.
/// let longer = Picture { bytes: vec![77; 128 * 60], width: 80, height: 60, stride: 128 };
/// assert_eq!(family.try_decode_quad(&longer, &quad), Err(Refusal::PlaneSize));
/// # Ok::<(), Refusal>(())
/// ```
#[derive(Clone, Copy, Debug)]
pub struct Picture<Bytes> {
    /// The lines and their filler.
    pub bytes: Bytes,
    /// Pixels in a line.
    pub width: usize,
    /// Lines.
    pub height: usize,
    /// Bytes from the first pixel of a line to that of the next.
    pub stride: usize,
}

impl<Bytes> Picture<Bytes> {
    /// A picture without filler: one line right after the other.
    ///
    /// ```
    /// use muosleap::Picture;
    ///
    /// assert_eq!(Picture::packed(&[0u8; 6], 3, 2).stride, 3);
    /// ```
    pub const fn packed(bytes: Bytes, width: usize, height: usize) -> Picture<Bytes> {
        Picture { bytes, width, height, stride: width }
    }

    /// Its sides, which are those of the float plane that is made of it.
    pub const fn shape(&self) -> Shape {
        Shape { width: self.width, height: self.height }
    }
}

impl<Bytes: AsRef<[u8]>> Picture<Bytes> {
    /// The lines from the top, without filler. Of a picture that would be refused these are the lines that its bytes have.
    ///
    /// ```
    /// use muosleap::Picture;
    ///
    /// let picture = Picture { bytes: [1, 2, 0, 3, 4, 0, 5, 6], width: 2, height: 3, stride: 3 };
    /// assert_eq!(picture.lines().collect::<Vec<_>>(), [[1, 2], [3, 4], [5, 6]]);
    /// ```
    pub fn lines(&self) -> impl ExactSizeIterator<Item = &[u8]> {
        let lines = self.bytes.as_ref().chunks(self.stride.max(1)).take(self.height);
        lines.map(|line| &line[..self.width.min(line.len())])
    }
}
