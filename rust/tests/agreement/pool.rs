//! Two sheets on the same lines pooled, by the words of 02, #104.

use crate::draft::Draft;
use crate::sheet::{in_bounds, Sheet};

/// The pool's bytes, in a target so long, or the refusal: "15 when the second sheet would be refused
/// by 1 to 6 …; 16 when the lines differ, after 15; 17 when the target's length is not the first
/// sheet's, after 16". "A sum out of range is refused with 11, last."
pub fn pooled(first: &Sheet, second: &Result<Sheet, u32>, target: usize) -> Result<Vec<u8>, u32> {
    let second = second.as_ref().map_err(|_| 15u32)?;
    if first.x_lines != second.x_lines || first.y_lines != second.y_lines {
        return Err(16);
    }
    if target != first.length() {
        return Err(17);
    }
    let sums = sums(first, second);
    if !sums.as_flattened().iter().all(|&sum| in_bounds(sum)) {
        return Err(11);
    }
    let nodes = sums.iter().map(|sums| sums.map(|sum| sum as i16)).collect();
    // "Header and lines are copied": of an accepted sheet they say no more than these lines.
    Ok(Draft { nodes, ..Draft::on(first) }.bytes())
}

/// "Each height and slope is the sum of the two", of each node, row by row.
fn sums(first: &Sheet, second: &Sheet) -> Vec<[i32; 3]> {
    let pairs = first.nodes.iter().zip(&second.nodes);
    pairs.map(|(one, other)| [0, 1, 2].map(|k| i32::from(one[k]) + i32::from(other[k]))).collect()
}
