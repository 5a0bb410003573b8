//! The bend from each piece that touches a pixel, by the words of 02, #102.

use crate::element::Exact;
use crate::fraction::Fraction;
use crate::sheet::Sheet;

/// "At most eight pieces touch a pixel", "three numbers each".
pub const LEAST_PLACES: usize = 24;

/// The list of a pixel inside the mesh, before its numbers are rounded.
pub fn exact(sheet: &Sheet, x: u32, y: u32) -> Vec<[Fraction; 3]> {
    from_each_piece(sheet, x, y).iter().flatten().map(|exact| exact.bend).collect()
}

/// What is read at a pixel inside the mesh from each piece that touches it: "by cells row by row,
/// then pieces by number", so a list for each cell.
pub fn from_each_piece(sheet: &Sheet, x: u32, y: u32) -> Vec<Vec<Exact>> {
    let mut cells = Vec::new();
    for row in touching(&sheet.y_lines, y) {
        cells.extend(touching(&sheet.x_lines, x).map(|column| sheet.exact_in(column, row, x, y)));
    }
    let first = &cells[0][0];
    for other in cells.iter().flatten() {
        let same = other.level == first.level && other.tilt == first.tilt;
        assert!(same, "level and tilt are the same from every piece listed");
    }
    cells
}

/// The cells along an axis that a position touches: each runs from a line to the next, both its own.
fn touching(lines: &[u32], position: u32) -> impl Iterator<Item = usize> + '_ {
    let touches = move |cell: &usize| (lines[*cell]..=lines[*cell + 1]).contains(&position);
    (0..lines.len() - 1).filter(touches)
}
