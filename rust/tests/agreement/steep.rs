//! Sheets one of whose slopes, filled, is the steepest that may stand, or one rise beyond it.

use crate::draft::Draft;
use crate::fraction::Fraction;
use crate::sheet::in_bounds;

const STIFFNESSES: [u32; 13] = [1, 2, 3, 7, 16, 19, 31, 32, 33, 48, 62, 63, 64];
/// Pixels between the neighbours of an end node, itself one of them.
const GAPS: [u16; 9] = [1, 2, 3, 4, 7, 16, 31, 63, 64];
/// Pixels between the neighbours of an inner node.
const WIDE_GAPS: [u16; 8] = [2, 3, 5, 32, 65, 66, 127, 128];
/// The greatest rise that heights allow.
const MOST_RISE: i16 = 8190;

/// A sheet, and the stiffness to fill it with.
pub type Steep = (Draft, u32);

/// Rises about the steepest one, up and down, along x and y, at end nodes and at inner ones.
pub fn sheets() -> Vec<Steep> {
    let mut steep = Vec::new();
    for stiffness in STIFFNESSES {
        for gap in GAPS {
            for rise in rises(stiffness, gap) {
                steep.extend(both_ways(&[0, gap], &ends(rise)).map(|draft| (draft, stiffness)));
            }
        }
        for gap in WIDE_GAPS {
            let lines = [0, 64, 64 + gap / 2, 64 + gap, 128 + gap];
            for rise in rises(stiffness, gap) {
                steep.extend(both_ways(&lines, &inner(rise)).map(|draft| (draft, stiffness)));
            }
        }
    }
    steep
}

/// The greatest rise whose slope may stand, those beside it, and their opposites.
fn rises(stiffness: u32, gap: u16) -> Vec<i16> {
    let slope = |rise: i16| Fraction::new(i128::from(stiffness) * i128::from(rise), gap.into());
    let stands = |rise: i16| in_bounds(slope(rise).rounded() as i32);
    let steepest = (0..=MOST_RISE).rev().find(|&rise| stands(rise)).expect("no rise at all");
    let about = [steepest - 1, steepest, steepest + 1].into_iter();
    about.filter(|&rise| rise <= MOST_RISE).flat_map(|rise| [rise, -rise]).collect()
}

/// Two heights, so far apart.
fn ends(rise: i16) -> [i16; 2] {
    let low = (-rise).div_euclid(2);
    [low, low + rise]
}

/// Five heights: the neighbours of the middle one lie so far apart, all other slopes are less.
fn inner(rise: i16) -> [i16; 5] {
    let [low, high] = ends(rise);
    [low, low, low + rise / 2, high, high]
}

/// Two rows alike with these heights, and two columns.
fn both_ways(lines: &[u16], heights: &[i16]) -> [Draft; 2] {
    let across = [0, 64];
    let mut rows = Draft::flat(lines, &across);
    let mut columns = Draft::flat(&across, lines);
    for (k, node) in rows.nodes.iter_mut().enumerate() {
        node[0] = heights[k % heights.len()];
    }
    for (k, node) in columns.nodes.iter_mut().enumerate() {
        node[0] = heights[k / 2];
    }
    [rows, columns]
}
