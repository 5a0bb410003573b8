//! Slopes from heights alone, by the words of 02, #101.

use crate::fraction::Fraction;
use crate::sheet::{in_bounds, Sheet};

/// The stiffness runs from 0 to this.
pub const MOST_STIFFNESS: u32 = 64;

/// The slopes along x and y of each node, row by row, before they are rounded.
pub fn exact(sheet: &Sheet, stiffness: u32) -> Vec<[Fraction; 2]> {
    let height = |column: u32, row: u32| {
        let [height, _, _] = sheet.numbers(column, row).expect("a node of the sheet");
        i128::from(height)
    };
    let of_row = |row| along(stiffness, &sheet.x_lines, |column| height(column, row));
    let of_column = |column| along(stiffness, &sheet.y_lines, |row| height(column, row));
    let x_slopes: Vec<Vec<Fraction>> = (0..sheet.rows()).map(of_row).collect();
    let y_slopes: Vec<Vec<Fraction>> = (0..sheet.columns()).map(of_column).collect();
    let mut slopes = Vec::new();
    for (row, along_x) in x_slopes.iter().enumerate() {
        slopes.extend(along_x.iter().zip(&y_slopes).map(|(&x, along_y)| [x, along_y[row]]));
    }
    slopes
}

/// "t × (next height − previous height) / (next x − previous x)" at each node of a row or column.
fn along(stiffness: u32, lines: &[u32], height: impl Fn(u32) -> i128) -> Vec<Fraction> {
    let position = |node: u32| i128::from(lines[node as usize]);
    let last = lines.len() as u32 - 1;
    let slope = |node: u32| {
        // "An end node uses itself in place of the missing neighbour."
        let previous = if node == 0 { node } else { node - 1 };
        let next = if node == last { node } else { node + 1 };
        let rise = height(next) - height(previous);
        Fraction::new(i128::from(stiffness) * rise, position(next) - position(previous))
    };
    (0..=last).map(slope).collect()
}

/// Whether every slope may stand in a sheet once it is rounded.
pub fn may_stand(slopes: &[[Fraction; 2]]) -> bool {
    slopes.as_flattened().iter().all(|slope| in_bounds(slope.rounded() as i32))
}

/// The greatest stiffness with which the sheet can be filled.
pub fn stiffest(sheet: &Sheet) -> u32 {
    let (mut fills, mut too_stiff) = (0, MOST_STIFFNESS + 1);
    while too_stiff - fills > 1 {
        let middle = (fills + too_stiff) / 2;
        if may_stand(&exact(sheet, middle)) {
            fills = middle;
        } else {
            too_stiff = middle;
        }
    }
    fills
}
