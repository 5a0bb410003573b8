//! The arguments on both sides of every condition on a call, made on any sheet, accepted or not.
//!
//! They are chosen around the ends of a mesh: the sheet's own, or the one it had before damage.

use crate::bench::{Bench, FAR, LONGEST_RUN};
use crate::call::Call;
use crate::pixels;
use crate::sheet::Sheet;

/// Makes all of them.
pub fn run(bench: &mut Bench, mesh: &Sheet) {
    bench.compare(Call::Check);
    for (column, row) in nodes(mesh) {
        bench.compare(Call::NodeRefusal { column, row });
        bench.compare(Call::NodeOffset { column, row });
    }
    for (x, y) in pixels::about_the_ends(mesh) {
        for kind in [0, 1, 2, 3, 256, 257, u32::MAX] {
            bench.compare(Call::Read { x, y, kind });
        }
        for count in counts(mesh, x) {
            bench.compare(Call::FillRun { x, y, count });
        }
    }
    for count in far_counts(mesh) {
        bench.compare(Call::FillRun { x: mesh.x_lines[0], y: mesh.y_lines[0], count });
    }
    set_nodes(bench, mesh);
}

/// Nodes at the ends, one beyond, and where a number cut to 8 or 16 bits would be inside.
fn nodes(mesh: &Sheet) -> Vec<(u32, u32)> {
    let around =
        |count: u32| [0, 1, count - 1, count, count + 1, 255, 256, 65_536, 1 << 31, u32::MAX];
    let mut nodes = pixels::cross((0, 0), around(mesh.columns()), around(mesh.rows()));
    nodes.extend([
        (mesh.columns() - 1, mesh.rows() - 1),
        (mesh.columns(), mesh.rows()),
        (u32::MAX, u32::MAX),
    ]);
    nodes
}

/// Runs that are empty, end on the last pixel or one beyond it, or wrap 32 bits.
fn counts(mesh: &Sheet, x: u32) -> Vec<usize> {
    let to_last = (mesh.last_x() as usize + 1).saturating_sub(x as usize);
    let wraps_to_first = mesh.x_lines[0].wrapping_sub(x) as usize + 1;
    let mut counts = vec![0, 1, to_last, to_last + 1];
    counts.extend((wraps_to_first < 5_000).then_some(wraps_to_first));
    counts
}

/// Runs longer than any mesh, up to counts that do not fit 32 bits.
fn far_counts(mesh: &Sheet) -> Vec<usize> {
    let wrapped = 1 << 32;
    let wraps_to_last = wrapped + (mesh.last_x() - mesh.x_lines[0]) as usize + 1;
    vec![4_097, 4_098, 5_000, 65_536, LONGEST_RUN, wrapped, wrapped + 1, wraps_to_last, FAR]
}

/// New numbers on both sides of what is allowed, in each place, and some that 16 bits would allow.
fn set_nodes(bench: &mut Bench, mesh: &Sheet) {
    let (columns, rows) = (mesh.columns(), mesh.rows());
    let nodes = [
        (0, 0),
        (columns - 1, rows - 1),
        (columns, 0),
        (0, rows),
        (u32::MAX, 0),
        (0, u32::MAX),
        (256, 0),
    ];
    let numbers = [4095, -4095, 4096, -4096, 32_768, -32_769, 65_536, -65_536, i32::MIN, i32::MAX];
    for (column, row) in nodes {
        bench.compare(Call::SetNode { column, row, numbers: [-4095, 4095, 0] });
        for (place, number) in
            [0, 1, 2].into_iter().flat_map(|place| numbers.map(|number| (place, number)))
        {
            let mut numbers = [1, -2, 3];
            numbers[place] = number;
            bench.compare(Call::SetNode { column, row, numbers });
        }
    }
}
