//! Bends from each piece that touches a pixel, on any sheet, accepted or not.

use crate::bench::{Bench, FAR, MOST_PLACES};
use crate::bends;
use crate::call::{Call, Written};
use crate::pixels::{self, Pixel};
use crate::random::Random;
use crate::sheet::Sheet;

/// Every pixel is looked at if there are no more than this many.
const FEW_PIXELS: usize = 40;
/// Else so many times a pixel of each sort.
const TURNS: usize = 4;
/// Enough places for any list, and more.
const ENOUGH: [usize; 4] = [24, 24, 25, MOST_PLACES];
/// On both sides of what is enough.
const PLACES: [usize; 9] = [0, 1, 3, 6, 12, 23, 24, 25, MOST_PLACES];
/// Far more than enough, though the first two, cut to 32 bits, would not be.
const FAR_PLACES: [usize; 3] = [1 << 32, (1 << 32) + 23, FAR];

/// Pixels where pieces meet, and arguments on both sides of conditions 7 and 14.
pub fn run(bench: &mut Bench, random: &mut Random, mesh: &Sheet) {
    if let Some(sheet) = bench.sheet().cloned() {
        for pixel in of_every_sort(&sheet, random) {
            beside_the_reading(bench, random, &sheet, pixel);
        }
    }
    for (x, y) in pixels::about_the_ends(mesh) {
        bench.compare(Call::Bends { x, y, places: random.pick(&PLACES) });
    }
    let (x, y) = (random.pick(&mesh.x_lines), random.pick(&mesh.y_lines));
    for places in PLACES.into_iter().chain(FAR_PLACES) {
        bench.compare(Call::Bends { x, y, places });
    }
}

/// The list at a pixel, and the bend that is read there: "the entry for the right or lower cell and
/// its lowest piece".
pub fn beside_the_reading(bench: &mut Bench, random: &mut Random, sheet: &Sheet, (x, y): Pixel) {
    bench.compare(Call::Bends { x, y, places: random.pick(&ENOUGH) });
    let read = bench.compare(Call::Read { x, y, kind: 2 });
    let cells = bends::from_each_piece(sheet, x, y);
    let entry = cells[cells.len() - 1][0].bend.map(|bend| bend.rounded() as f64 / 4096.0);
    assert_eq!(read.written, Written::Values(entry.to_vec()));
}

/// The corners of the mesh; nodes, and pixels on lines, inside it where there are such; pixels on
/// outer lines, anywhere, in the middle of a cell and on diagonals.
fn of_every_sort(sheet: &Sheet, random: &mut Random) -> Vec<Pixel> {
    if let Some(pixels) = pixels::every_up_to(sheet, FEW_PIXELS) {
        return pixels;
    }
    let (left, top) = (sheet.x_lines[0], sheet.y_lines[0]);
    let (right, bottom) = (sheet.last_x(), sheet.last_y());
    let mut pixels = vec![(left, top), (right, top), (left, bottom), (right, bottom)];
    for _ in 0..TURNS {
        let (x, y) = pixels::any(sheet, random);
        let node = (inner(&sheet.x_lines, random), inner(&sheet.y_lines, random));
        pixels.extend([(x, y), node, (node.0, y), (x, node.1)]);
        pixels.push(random.pick(&[(left, y), (right, y), (x, top), (x, bottom)]));
        pixels.push((middle(&sheet.x_lines, random), middle(&sheet.y_lines, random)));
        pixels.extend(pixels::on_diagonals(sheet, random));
    }
    pixels
}

/// A line that is not an outer one, if there is one.
fn inner(lines: &[u32], random: &mut Random) -> u32 {
    let inner = &lines[1..lines.len() - 1];
    random.pick(if inner.is_empty() { lines } else { inner })
}

/// The middle of a cell along one axis, or the pixel before it.
fn middle(lines: &[u32], random: &mut Random) -> u32 {
    let cell = random.index(lines.len() - 1);
    (lines[cell] + lines[cell + 1]) / 2
}
