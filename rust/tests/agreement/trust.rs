//! Why the independent implementation can be trusted: it meets the conditions that define the
//! element, the examples in the format's description, and the vectors. It needs no archive for it.

use std::fmt::Write;

use crate::bends;
use crate::boundaries;
use crate::call::{Beside, Call, Written, NOTHING_BESIDE};
use crate::draft::Draft;
use crate::element::{Cell, Corner, Exact, Piece, Weights};
use crate::fraction::Fraction;
use crate::meshes::{self, Numbers};
use crate::pixels;
use crate::pool;
use crate::random::Random;
use crate::reach;
use crate::requests::{self, Requests};
use crate::sheet::Sheet;
use crate::vectors::Vector;
use crate::zones::{self, Zone};

/// Points looked at on a half diagonal and on an edge, the ends included.
const POINTS: i128 = 12;

/// Stops at the first doubt.
pub fn check(random: &mut Random, vectors: &[Vector], requests: &Requests) {
    for _ in 0..2_000 {
        let cell = any_cell(random);
        meets_the_conditions(&cell);
    }
    worked_examples();
    filled_example();
    creased_examples();
    pooled_example();
    zoned_example();
    for _ in 0..200 {
        let draft = meshes::any(random);
        reads_beside_creases(&draft.sheet());
        pools_add_up(random, &draft);
        nudges_reach(random, &draft);
    }
    for boundary in boundaries::all(random) {
        let refusal = Sheet::decode(&boundary.bytes).err().unwrap_or(0);
        assert_eq!(refusal, boundary.refusal, "{}", boundary.name);
    }
    for vector in vectors {
        agrees_with(vector);
    }
    for case in &requests.cases {
        let [sheet, second] = [&case.sheet, &case.second].map(|bytes| Sheet::decode(bytes));
        let beside = Beside { second, zones: zones::decode(&case.zones) };
        let outcome = case.call.outcome_beside(&sheet, &beside);
        assert!(requests::answer(&case.sheet, &outcome) == case.answer, "{}", case.name);
    }
    for input in &requests.inputs {
        let found = reach::of_input(&input.bytes);
        assert_eq!(reach::answer(&found), input.answer, "{}", input.name);
    }
}

fn any_cell(random: &mut Random) -> Cell {
    let corners = [0, 1, 2, 3].map(|_| Corner {
        height: i128::from(random.between(-4095, 4095)) * 64,
        x_slope: random.between(-4095, 4095).into(),
        y_slope: random.between(-4095, 4095).into(),
    });
    let (width, height) = (random.between(1, 64).into(), random.between(1, 64).into());
    Cell { width, height, corners }
}

/// Section 2 of NISTIR 6718: (3) at the corners, (4) along the edges, (5) to (8) on the diagonals.
fn meets_the_conditions(cell: &Cell) {
    let pieces = cell.pieces();
    for (k, piece) in pieces.iter().enumerate() {
        let next = (k + 1) % 4;
        has_corner(piece, [1, 0, 0], cell.corners[k]);
        has_corner(piece, [0, 1, 0], cell.corners[next]);
        // The cross-edge slope: the y-slope along top and bottom, the x-slope along right and left.
        let across = (k + 1) % 2;
        let cross_slopes: Vec<Fraction> =
            (0..=POINTS).map(|i| piece.at([POINTS - i, i, 0]).tilt[across]).collect();
        for three in cross_slopes.windows(3) {
            let [before, middle, after] = [0, 1, 2].map(|i| three[i].numerator);
            assert_eq!(
                before - 2 * middle + after,
                0,
                "the cross-edge slope of piece {k} is linear"
            );
        }
        for i in 0..=POINTS {
            let (before, after) =
                (piece.at([0, i, POINTS - i]), pieces[next].at([i, 0, POINTS - i]));
            assert!(
                before.level == after.level && before.tilt == after.tilt,
                "pieces {k} and {next} meet"
            );
        }
    }
}

fn has_corner(piece: &Piece, point: Weights, corner: Corner) {
    let Exact { level, tilt, .. } = piece.at(point);
    assert!(level == Fraction::new(corner.height, 1));
    assert!(tilt == [Fraction::new(corner.x_slope, 1), Fraction::new(corner.y_slope, 1)]);
}

/// Level, tilt and bend at a pixel, rounded.
fn readings(sheet: &Sheet, x: u32, y: u32) -> [i64; 6] {
    sheet.exact(x, y).all().map(Fraction::rounded)
}

fn square(side: u16, nodes: [[i16; 3]; 4]) -> Sheet {
    Draft { nodes: nodes.to_vec(), ..Draft::flat(&[0, side], &[0, side]) }.sheet()
}

fn worked_examples() {
    let flat = [0, 0, 0];
    let a = square(2, [[1, 0, 0], flat, flat, flat]);
    assert_eq!(readings(&a, 0, 0), [64, 0, 0, -6144, 0, -6144]);
    assert_eq!(readings(&a, 1, 1), [16, -24, -24, 0, 3072, 0]);
    let printed = "0 0 64 0 0\n1 0 32 -48 0\n2 0 0 0 0\n0 1 32 0 -48\n1 1 16 -24 -24\n2 1 0 0 0\n\
                   0 2 0 0 0\n1 2 0 0 0\n2 2 0 0 0\n";
    assert_eq!(lines(&a, 5), printed);

    let slope = square(4, [[0, 64, 0], flat, flat, flat]);
    assert_eq!(readings(&slope, 1, 1)[..4], [30, 14, -12, -2560]);
    for (slope, level) in [(1, 0), (2, 1), (3, 1), (-2, 0), (-3, -1)] {
        let sheet = square(2, [[0, slope, 0], flat, flat, flat]);
        assert_eq!(readings(&sheet, 1, 0)[0], level, "slope {slope}");
    }
    let ramp = square(2, [[0, 64, 0], [2, 64, 0], [0, 64, 0], [2, 64, 0]]);
    assert_eq!(readings(&ramp, 1, 1)[0], 64);
}

/// The sheet of three by two nodes whose slopes the format's description works out.
fn filled_example() {
    let mut draft = Draft::flat(&[1, 3, 6], &[2, 6]);
    for (node, height) in draft.nodes.iter_mut().zip([1, 4, 2, 4, 1, 2]) {
        node[0] = height;
    }
    let outcome = Call::FillSlopes { stiffness: 7 }.outcome(&Ok(draft.sheet()));
    let slopes = [(11, 5), (1, -5), (-5, 0), (-10, 5), (-3, -5), (2, 0)];
    for (node, (x_slope, y_slope)) in draft.nodes.iter_mut().zip(slopes) {
        *node = [node[0], x_slope, y_slope];
    }
    let bytes = draft.bytes()[18..].to_vec();
    assert_eq!(outcome.written, Written::Nodes { offset: 18, bytes });
    assert_eq!(outcome.ties, [1, 1]);
}

/// The bends from each piece that touches a pixel, rounded.
fn bends_at(sheet: &Sheet, x: u32, y: u32) -> Vec<[i64; 3]> {
    bends::exact(sheet, x, y).iter().map(|bend| bend.map(Fraction::rounded)).collect()
}

/// The lists of bends that the format's description works out: both sides of a diagonal, the middle
/// of a cell, and the eight pieces about an inner node.
fn creased_examples() {
    let flat = [0, 0, 0];
    let a = square(2, [[1, 0, 0], flat, flat, flat]);
    assert_eq!(bends_at(&a, 0, 0), [[-6144, 0, -6144]; 2]);
    assert_eq!(bends_at(&a, 1, 1), [[0, 3072, 0]; 4]);
    assert_eq!(bends_at(&a, 1, 0), [[0, 0, -3072]]);

    let slope = square(4, [[0, 64, 0], flat, flat, flat]);
    assert_eq!(bends_at(&slope, 1, 1), [[-2560, 256, -768], [-1792, -512, 0]]);

    let mut draft = Draft::flat(&[0, 2, 6], &[0, 1, 3]);
    draft.nodes[4] = [0, 64, 0];
    let top = [[6144, 4096, 0], [8192, 0, 8192], [-4096, 0, -16384], [-3072, 4096, 0]];
    let bottom = [[8192, 0, 2048], [6144, -2048, 0], [-4096, 0, -4096], [-3072, -2048, 0]];
    assert_eq!(bends_at(&draft.sheet(), 2, 1), [top, bottom].concat());
}

/// The pool that the format's description works out.
fn pooled_example() {
    let on_lines =
        |nodes: [[i16; 3]; 4]| Draft { nodes: nodes.to_vec(), ..Draft::flat(&[0, 2], &[0, 3]) };
    let screen = on_lines([[200, -1, 0], [-300, 64, -128], [4000, 12, -7], [0, -4000, 5]]);
    let mut lens = on_lines([[100, 1, -64], [50, -32, 128], [95, -12, -9], [0, -95, 250]]);
    let pool = on_lines([[300, 0, -64], [-250, 32, 0], [4095, 0, -16], [0, -4095, 255]]);
    let call = Call::Pool { target: 40 };
    let outcome = |lens: &Draft| {
        let beside = Beside { second: Ok(lens.sheet()), ..NOTHING_BESIDE };
        call.outcome_beside(&Ok(screen.sheet()), &beside)
    };
    assert_eq!(outcome(&lens).written, Written::Target(pool.bytes()));
    lens.nodes[2][0] = 96;
    assert_eq!(outcome(&lens).refusal, 11);
}

/// An exit lamp and subtitles over sheet A, whose levels are 64 32 0, 32 16 0 and 0 0 0. Both hold
/// its middle, where the later one has the last word.
fn zoned_example() {
    let flat = [0, 0, 0];
    let a = Ok(square(2, [[1, 0, 0], flat, flat, flat]));
    let lamp = Zone { left: 0, top: 0, right: 1, bottom: 1, floor: -4095, ceiling: 0 };
    let subtitles = Zone { left: 1, top: 1, right: 9, bottom: 9, floor: 1, ceiling: 4095 };
    for (zones, middle_row) in [
        (vec![], [32, 16, 0]),
        (vec![lamp], [0, 0, 0]),
        (vec![subtitles], [32, 64, 64]),
        (vec![lamp, subtitles], [0, 64, 64]),
        (vec![subtitles, lamp], [0, 0, 64]),
    ] {
        let zones = zones::decode(&zones::encode(&zones));
        let beside = Beside { zones, ..NOTHING_BESIDE };
        let run = Call::FillZonedRun { x: 0, y: 1, count: 3 }.outcome_beside(&a, &beside);
        assert_eq!(run.written, Written::Levels(middle_row.to_vec()));
    }
}

/// At pixels of every sort the exact surface of a pool is the sum of the two, in all its readings.
fn pools_add_up(random: &mut Random, draft: &Draft) {
    let [first, second] =
        [0, 1].map(|_| meshes::renumbered(random, draft, Numbers::UpTo(2047)).sheet());
    let bytes = pool::pooled(&first, &Ok(second.clone()), first.length()).expect("a pool");
    let pool = Sheet::decode(&bytes).expect("a pool is a sheet");
    for (x, y) in pixels::of_every_sort(&pool, random, 24) {
        let [first, second, pool] = [&first, &second, &pool].map(|sheet| sheet.exact(x, y).all());
        for ((first, second), pool) in first.iter().zip(second).zip(pool) {
            // All three have the cell's denominator.
            let sum = Fraction::new(first.numerator + second.numerator, first.denominator);
            assert!(first.denominator == second.denominator && sum == pool, "the sum at {x}, {y}");
        }
    }
}

/// A height of a small sheet is nudged. The exact level changes inside the lines that its node
/// reaches to, up to the pixels beside them, nowhere against the sign, and by at most 64 grains a
/// step; what is read of it likewise. At the node it changes by as much.
fn nudges_reach(random: &mut Random, draft: &Draft) {
    let node = [random.index(draft.x_lines.len()), random.index(draft.y_lines.len())];
    let before = draft.sheet();
    let (after, grains) = nudged(random, draft, node);
    let at = [before.x_lines[node[0]], before.y_lines[node[1]]];
    let reach = reach::of_node(&before, node[0] as u32, node[1] as u32).expect("a node").lines;
    let beside = |pixel: [u32; 2], axis: usize| {
        let (low, high) = (reach[axis], reach[axis + 2]);
        [low + 1, high - 1].contains(&pixel[axis]) && pixel[1 - axis] == at[1 - axis]
    };
    let inside = |pixel: [u32; 2], axis: usize| {
        let (low, high, place) = (reach[axis], reach[axis + 2], pixel[axis]);
        place == at[axis] || low < place && place < high
    };
    for pixel in
        pixels::every_up_to(&before, 2_000).unwrap_or_default().into_iter().map(<[u32; 2]>::from)
    {
        let [before, after] = [&before, &after].map(|sheet| sheet.exact(pixel[0], pixel[1]).level);
        let change = after.numerator - before.numerator;
        let read = i128::from(after.rounded()) - i128::from(before.rounded());
        assert_eq!(before.denominator, after.denominator, "that of the cell");
        let all_inside = inside(pixel, 0) && inside(pixel, 1);
        assert!(change == 0 || all_inside, "a change outside the lines, at {pixel:?}");
        assert!(change * grains >= 0 && read * grains >= 0, "a change against the sign");
        let most = grains.abs();
        assert!(
            change.abs() <= most * before.denominator && read.abs() <= most,
            "too large a change"
        );
        if pixel == at {
            assert!(
                change == grains * before.denominator && read == grains,
                "the change at the node"
            );
        }
        if grains != 0 && all_inside && (beside(pixel, 0) || beside(pixel, 1)) {
            assert!(change != 0, "no change at {pixel:?}, beside a line");
        }
    }
}

/// The sheet with the height of one node changed, and by how many grains.
fn nudged(random: &mut Random, draft: &Draft, node: [usize; 2]) -> (Sheet, i128) {
    let mut draft = draft.clone();
    let height = &mut draft.nodes[node[1] * draft.x_lines.len() + node[0]][0];
    let held = i128::from(*height);
    *height = random.pick(&[-4095, *height - 1, *height + 1, 4095]).clamp(-4095, 4095);
    let grains = 64 * (i128::from(*height) - held);
    (draft.sheet(), grains)
}

/// At every pixel of a small sheet the bend reading is the entry for the right or lower cell and its
/// lowest piece, and the cells that touch are twice as many for each inner line that it lies on.
fn reads_beside_creases(sheet: &Sheet) {
    for (x, y) in pixels::every_up_to(sheet, 2_000).unwrap_or_default() {
        let cells = bends::from_each_piece(sheet, x, y);
        assert!(cells[cells.len() - 1][0].bend == sheet.exact(x, y).bend, "the entry that is read");
        let inner = |lines: &[u32], at: u32| lines[1..lines.len() - 1].contains(&at);
        let on_lines = [inner(&sheet.x_lines, x), inner(&sheet.y_lines, y)].map(usize::from);
        assert_eq!(cells.len(), (1 + on_lines[0]) * (1 + on_lines[1]), "the cells that touch");
    }
}

/// A line per pixel: x, y and the first readings, `count` numbers in all.
fn lines(sheet: &Sheet, count: usize) -> String {
    let mut text = String::new();
    for y in sheet.y_lines[0]..=sheet.last_y() {
        for x in sheet.x_lines[0]..=sheet.last_x() {
            write!(text, "{x} {y}").unwrap();
            for reading in &readings(sheet, x, y)[..count - 2] {
                write!(text, " {reading}").unwrap();
            }
            text.push('\n');
        }
    }
    text
}

fn agrees_with(vector: &Vector) {
    let name = &vector.name;
    let decoded = Sheet::decode(&vector.bytes);
    match &decoded {
        Ok(sheet) => assert!(lines(sheet, 5) == vector.printed, "{name} prints another text"),
        Err(refusal) => assert_eq!(format!("refused {refusal}\n"), vector.printed, "{name}"),
    }
    if let Some(expected) = &vector.readings {
        let sheet = decoded.as_ref().expect("a sheet with readings is accepted");
        assert!(lines(sheet, 8) == *expected, "{name} has other readings");
        runs_agree(sheet, &decoded);
        reads_beside_creases(sheet);
    }
    for (call, refusal) in &vector.calls {
        assert_eq!(call.outcome(&decoded).refusal, *refusal, "{call:?} on {name}");
    }
}

/// A whole row's run is the row's levels.
fn runs_agree(sheet: &Sheet, decoded: &Result<Sheet, u32>) {
    let (first, last) = (sheet.x_lines[0], sheet.last_x());
    for y in sheet.y_lines[0]..=sheet.last_y() {
        let levels = (first..=last).map(|x| readings(sheet, x, y)[0] as i32).collect();
        let run = Call::FillRun { x: first, y, count: (last - first) as usize + 1 };
        assert_eq!(run.outcome(decoded).written, Written::Levels(levels));
    }
}
