//! What the printer says about the sheet that it has written.

use crate::counted::counted;
use crate::options::{Options, Tags};
use muosleap::{Shape, Table};

/// What was written, and how large it is on paper.
pub fn report(table: &Table, options: &Options, Shape { width, height }: Shape) -> String {
    let Options { file, tags, grid, print, dpi, .. } = options;
    let name = match tags {
        Tags::Family(family) => format!("{family:?}"),
        Tags::List { codes, .. } => codes.display().to_string(),
    };
    let (rows, columns) = (counted(grid.rows, "row"), counted(grid.columns, "tag"));
    let numbers = match grid.tags() - 1 {
        0 => "It is tag 0.".into(),
        last => format!("Tag 0 is lower left;\nnumbers rise along a row and then upward, to tag {last} upper right."),
    };
    let mm = |pixels: usize| pixels as f64 * 25.4 / *dpi as f64;
    let [tag, gap, step] = [table.side(), grid.gap, table.side() + grid.gap].map(|cells| mm(cells * print.cell));
    let apart = |tags: usize, way: &str, side: &str| match tags {
        1 => String::new(),
        _ => format!("{way}: gaps of {gap:.2} mm between the tags, {step:.2} mm from a tag's {side} side to the next one's.\n"),
    };
    format!(
        "Written: {}, {width} x {height} pixels, 8-bit grey.
{rows} of {columns} of {name}, {} a module. {numbers}
Before it was written, every tag was read under its own number from all four starts.
Printed at {dpi} dpi, not scaled: {:.1} x {:.1} mm in all, each tag {tag:.2} mm a side.
{}{}",
        file.display(),
        counted(print.cell, "pixel"),
        mm(width),
        mm(height),
        apart(grid.columns, "Along a row", "left"),
        apart(grid.rows, "From row to row", "lower")
    )
}
