//! Sheets of one cell on which a reading is as great as it can be: they would show a wrapped sum.

use crate::bends;
use crate::draft::Draft;
use crate::fraction::Fraction;
use crate::pixels::Pixel;
use crate::sheet::Sheet;

const SIZES: [(u16, u16); 6] = [(64, 64), (64, 1), (1, 64), (1, 1), (63, 62), (2, 4)];
const MOST: i16 = 4095;

/// For each size, for some pixels and each of the six readings, the greatest and the least.
pub fn sheets() -> Vec<Draft> {
    let mut drafts = Vec::new();
    for (width, height) in SIZES {
        let flat = Draft::flat(&[0, width], &[0, height]);
        let pixels = [
            (0, 0),
            (width / 2, height / 2),
            (width / 2, 0),
            (width, height / 2),
            (width / 3, height - height / 8),
            (width / 8, height / 3),
        ];
        for ((x, y), reading) in pixels.iter().flat_map(|&pixel| (0..6).map(move |k| (pixel, k))) {
            drafts.extend(ends(&flat, |sheet| sheet.exact(x.into(), y.into()).all()[reading]));
        }
    }
    drafts
}

/// For each size, at the corners and in the middle, for each bend from each piece that touches, the
/// greatest and the least, and the pixel.
pub fn creased_sheets() -> Vec<(Draft, Pixel)> {
    let mut drafts = Vec::new();
    for (width, height) in SIZES {
        let flat = Draft::flat(&[0, width], &[0, height]);
        let (right, bottom) = (u32::from(width), u32::from(height));
        let middle = (right / 2, bottom / 2);
        for (x, y) in [(0, 0), (right, 0), (0, bottom), (right, bottom), middle] {
            for k in 0..3 * bends::exact(&flat.sheet(), x, y).len() {
                let ends = ends(&flat, |sheet| bends::exact(sheet, x, y).as_flattened()[k]);
                drafts.extend(ends.map(|draft| (draft, (x, y))));
            }
        }
    }
    drafts
}

/// The sheets on which a reading is the greatest and the least: each number at the end that raises
/// it, for it is a sum of one share from each; and all of them turned round.
fn ends(flat: &Draft, reading: impl Fn(&Sheet) -> Fraction) -> [Draft; 2] {
    let mut greatest = flat.clone();
    for (node, place) in (0..flat.nodes.len()).flat_map(|node| [0, 1, 2].map(|k| (node, k))) {
        let mut alone = flat.clone();
        alone.nodes[node][place] = 1;
        let share = reading(&alone.sheet()).numerator;
        greatest.nodes[node][place] = if share < 0 { -MOST } else { MOST };
    }
    let mut least = greatest.clone();
    least.nodes.iter_mut().flatten().for_each(|number| *number = -*number);
    [greatest, least]
}
