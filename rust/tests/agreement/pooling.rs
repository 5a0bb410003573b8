//! Pools, on any first sheet, accepted or not.

use crate::bench::{Bench, FAR, LONGEST_SHEET};
use crate::boundaries;
use crate::call::{Call, Written};
use crate::damage;
use crate::draft::Draft;
use crate::meshes::MOST;
use crate::random::Random;
use crate::sheet::{is_mesh, Sheet, NODE_BYTES};

/// What refuses a pool besides its first sheet, in 02's order.
const CONDITIONS: [u32; 4] = [15, 16, 17, 11];
/// Lines along x and y of two sheets whose line bytes are the same, exchanged in the second.
const SAME_BYTES: [(usize, usize); 6] = [(2, 3), (3, 2), (2, 65), (65, 2), (7, 5), (40, 33)];

/// Second sheets on both sides of each condition, and targets of many lengths.
pub fn run(bench: &mut Bench, random: &mut Random, mesh: &Sheet) {
    let first = bench.sheet().unwrap_or(mesh).clone();
    with_zeros(bench, &first);
    sets_of_conditions(bench, random, &first);
    damaged_seconds(bench, random, &first);
}

/// Pooled with zeros a sheet is itself; with a target of another length it is refused.
fn with_zeros(bench: &mut Bench, first: &Sheet) {
    bench.lay_second(&Draft::on(first).bytes());
    let pooled = bench.compare(Call::Pool { target: first.length() });
    if bench.sheet().is_some() {
        assert_eq!(pooled.written, Written::Target(bench.bytes().to_vec()), "pooled with zeros");
    }
    for target in other_lengths(first.length()) {
        bench.compare(Call::Pool { target });
    }
}

/// Every set of conditions once, and none and the last one more often.
fn sets_of_conditions(bench: &mut Bench, random: &mut Random, first: &Sheet) {
    for set in (0..1 << CONDITIONS.len()).chain([0, 0, 1 << 3, 1 << 3]) {
        let held = (0..CONDITIONS.len()).filter(|k| set & (1 << k) != 0);
        refused_by(bench, random, first, held.map(|k| CONDITIONS[k]).collect());
    }
}

fn damaged_seconds(bench: &mut Bench, random: &mut Random, first: &Sheet) {
    for _ in 0..2 {
        let draft = fitting(random, first);
        let (_, bytes) = damage::damaged(random, &draft);
        bench.lay_second(&bytes);
        bench.compare(Call::Pool { target: first.length() });
    }
}

/// Lengths that are not the first sheet's; the last three do not fit 32 bits.
fn other_lengths(len: usize) -> [usize; 12] {
    let (less, more) = (len - NODE_BYTES, len + NODE_BYTES);
    let (half, twice, far) = (len / 2, 2 * len, 1 << 32);
    [0, 1, half, less, len - 1, len + 1, more, twice, LONGEST_SHEET, far, far + len, FAR]
}

/// A pool to which these conditions apply, in their order: the first of them, if any, refuses it.
fn refused_by(bench: &mut Bench, random: &mut Random, first: &Sheet, mut conditions: Vec<u32>) {
    let mut draft = fitting(random, first);
    if conditions.contains(&11) && !exceed(random, first, &mut draft) {
        conditions.retain(|&condition| condition != 11);
    }
    if conditions.contains(&16) {
        draft = on_other_lines(random, draft);
    }
    let mut bytes = draft.bytes();
    if conditions.contains(&15) {
        boundaries::make_hold(&mut bytes, random.between(1, 6) as u32);
    }
    let len = first.length();
    let target = if conditions.contains(&17) { random.pick(&other_lengths(len)) } else { len };
    bench.lay_second(&bytes);
    let outcome = bench.compare(Call::Pool { target });
    if bench.sheet().is_some() {
        assert_eq!(outcome.refusal, conditions.first().copied().unwrap_or(0), "{conditions:?}");
    }
}

/// A second sheet on the lines of the first: every sum may stand.
fn fitting(random: &mut Random, first: &Sheet) -> Draft {
    let mut draft = Draft::on(first);
    let numbers = draft.nodes.as_flattened_mut().iter_mut();
    for (number, &other) in numbers.zip(first.nodes.as_flattened()) {
        let other = i64::from(other);
        *number = random.between((-MOST - other).max(-MOST), (MOST - other).min(MOST)) as i16;
    }
    draft
}

/// Makes one sum exceed the range, by 1 or by more, if a number of the first sheet allows it: the
/// first or the last that does, or one between.
fn exceed(random: &mut Random, first: &Sheet, draft: &mut Draft) -> bool {
    let numbers = first.nodes.as_flattened();
    let last = numbers.len() - 1;
    let anywhere = random.index(numbers.len());
    let start = random.pick(&[0, last, anywhere]);
    let mut places = (start..=last).chain(0..start);
    let Some(place) = places.find(|&place| numbers[place] != 0) else {
        return false;
    };
    let (most, number) = (MOST as i16, numbers[place]);
    let least = most + 1 - number.abs();
    draft.nodes.as_flattened_mut()[place] = random.pick(&[least, most]) * number.signum();
    true
}

/// An accepted sheet on other lines, along one axis: one more, one less, all of them aside, or one.
fn on_other_lines(random: &mut Random, mut draft: Draft) -> Draft {
    let lines = if random.once_in(2) { &mut draft.x_lines } else { &mut draft.y_lines };
    let mut others = match random.index(3) {
        0 => more_or_less(lines),
        1 => aside(lines),
        _ => Vec::new(),
    };
    if others.is_empty() {
        others = moved(lines);
    }
    lines.clone_from(&others[random.index(others.len())]);
    draft.nodes.resize(draft.x_lines.len() * draft.y_lines.len(), [0; 3]);
    draft
}

/// Lines that a sheet may have, one of them a pixel beside these.
fn moved(lines: &[u16]) -> Vec<Vec<u16>> {
    let moves = (0..lines.len()).flat_map(|line| [(line, -1), (line, 1)]);
    let moved = moves.map(|(line, step)| {
        let mut moved = lines.to_vec();
        moved[line] = moved[line].wrapping_add_signed(step);
        moved
    });
    moved.filter(|lines| is_mesh(lines)).collect()
}

/// All lines moved alike, at times so that only the high bytes change; none where there is no room.
fn aside(lines: &[u16]) -> Vec<Vec<u16>> {
    let steps = [-1, 1, -256, 256].into_iter();
    let aside = steps.map(|step| lines.iter().map(|line| line.wrapping_add_signed(step)).collect());
    aside.filter(|lines: &Vec<u16>| is_mesh(lines)).collect()
}

/// The same lines without the last, or with one more at an end.
fn more_or_less(lines: &[u16]) -> Vec<Vec<u16>> {
    let (first, last) = (lines[0], lines[lines.len() - 1]);
    let before = [&[first.wrapping_sub(1)], lines].concat();
    let others = [lines[..lines.len() - 1].to_vec(), [lines, &[last + 1]].concat(), before];
    others.into_iter().filter(|lines| (2..=65).contains(&lines.len()) && is_mesh(lines)).collect()
}

/// Sheets whose line bytes are the same, though another line is the first along y: 16.
pub fn same_line_bytes(bench: &mut Bench, name: &str) {
    for (columns, rows) in SAME_BYTES {
        let lines: Vec<u16> = (0..).take(columns + rows).collect();
        let first = Draft::flat(&lines[..columns], &lines[columns..]).bytes();
        let second = Draft::flat(&lines[..rows], &lines[rows..]).bytes();
        assert!(first.len() == second.len() && first[8..] == second[8..], "the same but counts");
        assert!(pool(bench, name, &first, &second).is_none(), "the lines differ");
    }
}

/// The pool of two sheets, unless it is refused.
pub fn pool(bench: &mut Bench, name: &str, first: &[u8], second: &[u8]) -> Option<Vec<u8>> {
    bench.lay_again(name, first);
    bench.lay_second(second);
    match bench.compare(Call::Pool { target: first.len() }).written {
        Written::Target(bytes) => Some(bytes),
        _ => None,
    }
}
