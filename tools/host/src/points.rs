//! Sides of a plane, points, quads.

/// Width and height. A plane of floats has nothing more: it is a slice with its rows one right after the other. An 8-bit
/// [`Picture`](crate::Picture) has a stride too.
#[derive(Clone, Copy, PartialEq, Eq, Debug)]
pub struct Shape {
    /// Samples in a row.
    pub width: usize,
    /// Rows.
    pub height: usize,
}

impl Shape {
    /// How many samples a plane of these sides holds; `usize::MAX` where the product is larger.
    pub const fn len(self) -> usize {
        self.width.saturating_mul(self.height)
    }

    /// Whether a side is 0.
    pub const fn is_empty(self) -> bool {
        self.len() == 0
    }
}

/// A point of a picture. y grows downward, and the middle of the first pixel is (0, 0).
#[derive(Clone, Copy, PartialEq, Debug, Default)]
pub struct Point {
    /// To the right.
    pub x: f32,
    /// Downward.
    pub y: f32,
}

/// Four corners, in order around the quad.
///
/// ```
/// use muosleap::Quad;
///
/// let quad = Quad::from([0.0, 1.0, 9.0, 1.0, 9.0, 8.0, 0.0, 8.0]);
/// assert_eq!(quad.corners[1].x, 9.0);
/// assert_eq!(quad.started(1).corners[0], quad.corners[1]);
/// assert_eq!(<[f32; 8]>::from(quad)[7], 8.0);
/// ```
#[derive(Clone, Copy, PartialEq, Debug, Default)]
pub struct Quad {
    /// The corners.
    pub corners: [Point; 4],
}

impl Quad {
    /// The same quad begun at another corner: corner `start`, modulo 4, comes first.
    pub fn started(mut self, start: usize) -> Quad {
        self.corners.rotate_left(start % 4);
        self
    }
}

/// From x0 y0 x1 y1 x2 y2 x3 y3.
impl From<[f32; 8]> for Quad {
    #[inline]
    fn from(numbers: [f32; 8]) -> Quad {
        Quad { corners: [0, 1, 2, 3].map(|k| Point { x: numbers[2 * k], y: numbers[2 * k + 1] }) }
    }
}

/// As x0 y0 x1 y1 x2 y2 x3 y3.
impl From<Quad> for [f32; 8] {
    #[inline]
    fn from(quad: Quad) -> [f32; 8] {
        let [p, q, r, s] = quad.corners;
        [p.x, p.y, q.x, q.y, r.x, r.y, s.x, s.y]
    }
}
