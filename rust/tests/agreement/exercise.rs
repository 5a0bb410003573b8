//! What is compared on a sheet that is accepted.

use crate::bench::Bench;
use crate::call::{Call, Written};
use crate::pixels;
use crate::random::Random;
use crate::sheet::{Sheet, GRAINS_PER_STEP};

/// How much is compared on one sheet.
#[derive(Clone, Copy)]
pub struct Depth {
    /// Every pixel is read if there are no more than this many, else this many are.
    pub pixels: usize,
    /// As many rows are filled whole, and as many runs at random.
    pub runs: usize,
    /// As many nodes are looked up, and as many set and read back.
    pub nodes: usize,
}

pub fn run(bench: &mut Bench, random: &mut Random, depth: Depth) {
    let Some(sheet) = bench.sheet().cloned() else {
        return;
    };
    let pixels = pixels::every_up_to(&sheet, depth.pixels)
        .unwrap_or_else(|| pixels::of_every_sort(&sheet, random, depth.pixels));
    for (x, y) in pixels {
        for kind in 0..3 {
            bench.compare(Call::Read { x, y, kind });
        }
    }
    for _ in 0..depth.runs {
        whole_row(bench, random, &sheet);
        part_of_row(bench, random, &sheet);
    }
    for _ in 0..depth.nodes {
        let (column, row) = any_node(&sheet, random);
        bench.compare(Call::NodeRefusal { column, row });
        bench.compare(Call::NodeOffset { column, row });
        set_and_read_back(bench, random, &sheet);
    }
}

fn whole_row(bench: &mut Bench, random: &mut Random, sheet: &Sheet) {
    let (_, anywhere) = pixels::any(sheet, random);
    let on_line = random.pick(&sheet.y_lines);
    let y = random.pick(&[anywhere, on_line]);
    bench.compare(Call::FillRun { x: sheet.x_lines[0], y, count: pixels::width(sheet) as usize });
}

/// A run that mostly ends inside, and at times beyond.
fn part_of_row(bench: &mut Bench, random: &mut Random, sheet: &Sheet) {
    let (x, y) = pixels::any(sheet, random);
    let to_last = i64::from(sheet.last_x() - x) + 1;
    bench.compare(Call::FillRun { x, y, count: random.between(1, to_last + 1) as usize });
    bench.compare(Call::FillRun { x, y, count: to_last as usize });
}

fn any_node(sheet: &Sheet, random: &mut Random) -> (u32, u32) {
    (random.index(sheet.x_lines.len()) as u32, random.index(sheet.y_lines.len()) as u32)
}

/// Sets a node, and reads its numbers back at its pixel, beside it, and by looking it up.
fn set_and_read_back(bench: &mut Bench, random: &mut Random, sheet: &Sheet) {
    let (column, row) = any_node(sheet, random);
    let numbers = [0, 1, 2].map(|_| random.between(-4095, 4095) as i32);
    bench.compare(Call::SetNode { column, row, numbers });
    let (x, y) = (sheet.x_lines[column as usize], sheet.y_lines[row as usize]);
    let level = bench.compare(Call::Read { x, y, kind: 0 });
    let tilt = bench.compare(Call::Read { x, y, kind: 1 });
    let [height, x_slope, y_slope] = numbers.map(f64::from);
    // The independent implementation must read them back as well.
    let slopes_in_steps = vec![x_slope / GRAINS_PER_STEP as f64, y_slope / GRAINS_PER_STEP as f64];
    assert_eq!(level.written, Written::Values(vec![height]));
    assert_eq!(tilt.written, Written::Values(slopes_in_steps));
    let (x, y) = pixels::beside(sheet, random, (x, y));
    bench.compare(Call::Read { x, y, kind: 2 });
    bench.compare(Call::Check);
    bench.compare(Call::NodeOffset { column, row });
}
