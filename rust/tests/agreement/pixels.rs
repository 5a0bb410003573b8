//! Pixels of a mesh: all of them, some of every sort, and those about its ends.

use crate::random::Random;
use crate::sheet::Sheet;

/// x and y.
pub type Pixel = (u32, u32);

/// Pixels of a whole row.
pub fn width(sheet: &Sheet) -> u32 {
    sheet.last_x() - sheet.x_lines[0] + 1
}

/// Every pixel of the mesh if there are no more than this many.
pub fn every_up_to(sheet: &Sheet, most: usize) -> Option<Vec<Pixel>> {
    let rows = sheet.y_lines[0]..=sheet.last_y();
    let columns = sheet.x_lines[0]..=sheet.last_x();
    (columns.clone().count() * rows.clone().count() <= most)
        .then(|| rows.flat_map(|y| columns.clone().map(move |x| (x, y))).collect())
}

/// Pixels in equal parts anywhere, on nodes and beside them, on lines, and on diagonals.
pub fn of_every_sort(sheet: &Sheet, random: &mut Random, count: usize) -> Vec<Pixel> {
    let mut pixels = Vec::new();
    while pixels.len() < count {
        let anywhere = any(sheet, random);
        let node = (random.pick(&sheet.x_lines), random.pick(&sheet.y_lines));
        pixels.extend([anywhere, node, (node.0, anywhere.1), (anywhere.0, node.1)]);
        pixels.push(beside(sheet, random, node));
        pixels.extend(on_diagonals(sheet, random));
    }
    pixels
}

pub fn any(sheet: &Sheet, random: &mut Random) -> Pixel {
    let mut between = |first: u32, last: u32| random.between(first.into(), last.into()) as u32;
    (between(sheet.x_lines[0], sheet.last_x()), between(sheet.y_lines[0], sheet.last_y()))
}

/// A pixel next to this one, or itself, inside the mesh.
pub fn beside(sheet: &Sheet, random: &mut Random, (x, y): Pixel) -> Pixel {
    let mut step = |from: u32| from.wrapping_add_signed(random.between(-1, 1) as i32);
    let (beside_x, beside_y) = (step(x), step(y));
    if sheet.holds(beside_x, beside_y) {
        (beside_x, beside_y)
    } else {
        (x, y)
    }
}

/// A pixel on each diagonal of a random cell.
pub fn on_diagonals(sheet: &Sheet, random: &mut Random) -> [Pixel; 2] {
    let (column, row) =
        (random.index(sheet.x_lines.len() - 1), random.index(sheet.y_lines.len() - 1));
    let (left, right) = (sheet.x_lines[column], sheet.x_lines[column + 1]);
    let (top, bottom) = (sheet.y_lines[row], sheet.y_lines[row + 1]);
    let (width, height) = (right - left, bottom - top);
    let on_both: Vec<u32> = (0..=width).filter(|across| across * height % width == 0).collect();
    let across = random.pick(&on_both);
    let down = across * height / width;
    [(left + across, top + down), (right - across, top + down)]
}

/// Pixels on the ends, one outside each, and where a number cut to 16 bits would be inside.
pub fn about_the_ends(mesh: &Sheet) -> Vec<Pixel> {
    let around = |first: u32, last: u32| {
        [first, first + 1, last, first.wrapping_sub(1), last + 1, first + 65_536, u32::MAX]
    };
    let (first, last) = ((mesh.x_lines[0], mesh.y_lines[0]), (mesh.last_x(), mesh.last_y()));
    let mut pixels = cross(first, around(first.0, last.0), around(first.1, last.1));
    pixels.extend([last, (last.0 + 1, last.1 + 1), (last.0, last.1 + 1)]);
    pixels
}

/// Each place across with the first one's down, each place down with the first one's across.
pub fn cross<const N: usize>(
    first: (u32, u32),
    across: [u32; N],
    down: [u32; N],
) -> Vec<(u32, u32)> {
    [across.map(|place| (place, first.1)), down.map(|place| (first.0, place))].concat()
}
