//! What an aprilgrid board has beside its tags. This is host code, and itself not proved.

use crate::{Picture, Point, Quad};

/// Draws a square of so many pixels a side beside each corner of each tag, outside of the tag and diagonal from it. On a sheet with
/// gaps of this size these are the crossings of the gaps, and squares around the outer tags: every outer corner of a tag then meets
/// the corner of a square and is a saddle point. Where a side is no more than the gap between two tags, no pixel of a tag changes;
/// larger squares can reach into the next tag. What does not fit into the picture is left out.
///
/// ```
/// use muosleap::{Family, Grid, Picture, Print, board::corner_squares};
///
/// let (family, grid) = (Family::T16H5, Grid { rows: 2, columns: 2, gap: 2 });
/// let print = Print { x: 6, y: 6, cell: 3, turn: 0, light: 210, dark: 30 };
/// let mut picture = Picture::packed(vec![0; 70 * 70], 70, 70);
/// let quads = family.paint_sheet(&mut picture, &grid, &print)?;
/// let tags = picture.clone();
/// corner_squares(&mut picture, &quads, grid.gap * print.cell, print.dark);
///
/// // Nine squares of 6 × 6 pixels, all of them on light, and the tags are read as before.
/// assert_eq!((0..4_900).filter(|&k| tags.bytes[k] == 210 && picture.bytes[k] == 30).count(), 9 * 36);
/// assert_eq!(family.try_decode_quads(&picture, &quads)?, family.try_decode_quads(&tags, &quads)?);
/// # Ok::<(), muosleap::Refusal>(())
/// ```
pub fn corner_squares(picture: &mut Picture<impl AsMut<[u8]>>, quads: &[Quad], side: usize, shade: u8) {
    let &mut Picture { ref mut bytes, width, height, stride } = picture;
    for quad in quads {
        let middle = |of: fn(&Point) -> f32| quad.corners.iter().map(of).sum::<f32>() / 4.0;
        let (x, y) = (middle(|corner| corner.x), middle(|corner| corner.y));
        for corner in &quad.corners {
            let (columns, rows) = (away(corner.x, x, side, width), away(corner.y, y, side, height));
            let lines = bytes.as_mut().chunks_mut(stride.max(1)).take(rows.end).skip(rows.start);
            lines.filter_map(|line| line.get_mut(columns.clone())).for_each(|part| part.fill(shade));
        }
    }
}

/// The pixels of a line of this length that begin at a corner and lead away from the tag's middle. A corner lies between two
/// pixels.
fn away(corner: f32, middle: f32, side: usize, length: usize) -> std::ops::Range<usize> {
    let edge = (corner + 0.5) as usize;
    let (start, end) = if corner < middle { (edge.saturating_sub(side), edge) } else { (edge, edge.saturating_add(side)) };
    start.min(length)..end.min(length)
}
