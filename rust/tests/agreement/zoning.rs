//! Zoned levels and runs, on any sheet, accepted or not.

use crate::bench::{Bench, FAR, LONGEST_RUN};
use crate::call::Call;
use crate::meshes::MOST;
use crate::pixels::{self, Pixel};
use crate::random::Random;
use crate::sheet::Sheet;
use crate::zones::{self, Zone, ZONE_SIZE};

/// What refuses a zoned call besides its sheet, in 02's order; 8 refuses only a run.
const CONDITIONS: [u32; 4] = [7, 8, 18, 19];
/// Lengths of lists on both sides of condition 18.
const LENGTHS: [usize; 14] = [0, 1, 6, 11, 12, 13, 16, 24, 180, 191, 192, 193, 204, 384];
/// Runs longer than any mesh, up to counts that do not fit 32 bits.
const FAR_COUNTS: [usize; 6] = [4_098, 65_536, LONGEST_RUN, 1 << 32, (1 << 32) + 1, FAR];
/// So many runs are cut by zones about them.
const RUNS: usize = 10;
/// The longest of them, but for one that goes on to the last pixel.
const LONG: i64 = 40;
/// 16 zones cut a row at most into so many.
const MOST_STRETCHES: u32 = 33;
/// Numbers that a zone may have and may not: sides, then limits.
const SIDES: [[u16; 2]; 7] =
    [[0, 0], [5, 5], [6, 5], [65_535, 65_535], [65_535, 0], [0, 65_535], [256, 1]];
const LIMITS: [[i16; 2]; 12] = [
    [-4095, 4095],
    [4095, 4095],
    [-4095, -4095],
    [-4096, 4095],
    [-4095, 4096],
    [-4096, -4096],
    [4096, 4096],
    [1, 0],
    [0, -1],
    [4095, -4095],
    [-32_768, 0],
    [0, 32_767],
];

/// A run: its first pixel and how many there are.
#[derive(Clone, Copy)]
struct Run {
    x: u32,
    y: u32,
    count: usize,
}

/// Zones about runs, and arguments on both sides of conditions 7, 8, 18 and 19.
pub fn run(bench: &mut Bench, random: &mut Random, mesh: &Sheet) {
    if let Some(sheet) = bench.sheet().cloned() {
        for _ in 0..RUNS {
            about_a_run(bench, random, &sheet);
        }
        most_stretches(bench, random, &sheet);
    }
    let mesh = &bench.sheet().unwrap_or(mesh).clone();
    sets_of_conditions(bench, random, mesh);
    lists_of_all_lengths(bench, random, mesh);
    zones_of_all_sorts(bench, random, mesh);
    outside(bench, random, mesh);
}

/// A run, zones whose borders lie about its ends and lines, and levels at these borders.
fn about_a_run(bench: &mut Bench, random: &mut Random, sheet: &Sheet) {
    let run = any_run(random, sheet);
    let count = random.pick(&[1, 1, 2, 3, 5, 16]);
    let zones: Vec<Zone> = (0..count).map(|_| zone_about(random, sheet, run)).collect();
    bench.lay_zones(&zones::encode(&zones));
    bench.compare(Call::FillZonedRun { x: run.x, y: run.y, count: run.count });
    for _ in 0..3 {
        let zone = random.pick(&zones);
        let (x, y) = at_border(random, zone);
        bench.compare(Call::ZonedLevel { x, y });
    }
    bench.compare(Call::ZonedLevel { x: run.x, y: run.y });
}

fn any_run(random: &mut Random, sheet: &Sheet) -> Run {
    let (anywhere, y) = pixels::any(sheet, random);
    let on_line = random.pick(&sheet.x_lines);
    let x = random.pick(&[sheet.x_lines[0], anywhere, on_line]);
    let to_last = i64::from(sheet.last_x() - x) + 1;
    let short = random.between(1, to_last.min(LONG));
    let count = if random.once_in(12) { to_last } else { short } as usize;
    Run { x, y, count }
}

/// A zone with each border at an end of the run, at a line or anywhere, or a pixel beside these; one
/// in five is a pixel wide. Most hold the run's row.
fn zone_about(random: &mut Random, sheet: &Sheet, run: Run) -> Zone {
    let last = run.x + run.count as u32 - 1;
    let (any_x, any_y) = pixels::any(sheet, random);
    let lines = [random.pick(&sheet.x_lines), random.pick(&sheet.y_lines)];
    let [left, mut right] = sides(random, &[run.x, run.x, last, last, any_x, lines[0]]);
    let [mut top, mut bottom] = sides(random, &[run.y, run.y, any_y, lines[1]]);
    if random.once_in(5) {
        right = left;
    }
    if !random.once_in(4) {
        [top, bottom] = [top.min(run.y as u16), bottom.max(run.y as u16)];
    }
    let level = sheet.exact(any_x, run.y).level.rounded();
    let [floor, ceiling] = limits(random, level);
    Zone { left, top, right, bottom, floor, ceiling }
}

/// Two borders at these places or a pixel beside them, or at the ends of what a zone can have.
fn sides(random: &mut Random, places: &[u32]) -> [u16; 2] {
    let sides = [0, 1].map(|_| {
        let place = random.pick(places).saturating_add_signed(random.between(-1, 1) as i32);
        random.pick(&[place, place, place, place, 0, 65_535]) as u16
    });
    in_order(sides)
}

/// Limits about a level, in grains, or anywhere; one pair in six is the same twice.
fn limits(random: &mut Random, level: i64) -> [i16; 2] {
    let [floor, ceiling] = in_order([0, 1].map(|_| {
        let near = (level / 64 + random.between(-2, 2)).clamp(-MOST, MOST);
        let anywhere = random.between(-MOST, MOST);
        random.pick(&[near, near, near, anywhere, 0, -MOST, MOST]) as i16
    }));
    [if random.once_in(6) { ceiling } else { floor }, ceiling]
}

fn in_order<T: Ord>(mut two: [T; 2]) -> [T; 2] {
    two.sort();
    two
}

/// A pixel in a corner of the zone, or just outside of it.
fn at_border(random: &mut Random, zone: Zone) -> Pixel {
    let mut place = |first: u16, last: u16| {
        let (first, last) = (u32::from(first), u32::from(last));
        random.pick(&[first, first, last, last, first.saturating_sub(1), last + 1])
    };
    (place(zone.left, zone.right), place(zone.top, zone.bottom))
}

/// A row cut by all zones of the longest list: side by side with gaps, or each inside the one before.
fn most_stretches(bench: &mut Bench, random: &mut Random, sheet: &Sheet) {
    let widest = (pixels::width(sheet) / MOST_STRETCHES).min(3);
    if widest == 0 {
        return;
    }
    let width = random.between(1, widest.into()) as u32;
    let count = MOST_STRETCHES * width;
    let last_start = sheet.last_x() + 1 - count;
    let x = random.between(sheet.x_lines[0].into(), last_start.into()) as u32;
    let (_, y) = pixels::any(sheet, random);
    let nested = random.once_in(2);
    let mut zone = |k: u32| {
        let (from, to) =
            if nested { (1 + k, MOST_STRETCHES - 1 - k) } else { (2 * k + 1, 2 * k + 2) };
        let about = zone_about(random, sheet, Run { x, y, count: 1 });
        let [left, right] = [x + from * width, x + to * width - 1].map(|side| side as u16);
        let (top, bottom) = (about.top.min(y as u16), about.bottom.max(y as u16));
        Zone { left, top, right, bottom, ..about }
    };
    let zones: Vec<Zone> = (0..16).map(&mut zone).collect();
    let count = count as usize;
    assert_eq!(stretches(&zones, x, y, count), MOST_STRETCHES as usize);
    bench.lay_zones(&zones::encode(&zones));
    bench.compare(Call::FillZonedRun { x, y, count });
}

/// Into how many stretches the zones' borders cut so many pixels of a row.
fn stretches(zones: &[Zone], x: u32, y: u32, count: usize) -> usize {
    let holding = |x: u32| zones.iter().map(|zone| zone.holds(x, y)).collect::<Vec<bool>>();
    1 + (x..).take(count - 1).filter(|&x| holding(x) != holding(x + 1)).count()
}

/// Every set of conditions once, for a level and for a run: the first of them refuses it.
fn sets_of_conditions(bench: &mut Bench, random: &mut Random, mesh: &Sheet) {
    for set in 0..1 << CONDITIONS.len() {
        let held = (0..CONDITIONS.len()).filter(|k| set & (1 << k) != 0);
        let conditions: Vec<u32> = held.map(|k| CONDITIONS[k]).collect();
        refused_by(bench, random, mesh, &conditions);
    }
}

fn refused_by(bench: &mut Bench, random: &mut Random, mesh: &Sheet, conditions: &[u32]) {
    let holds = |condition: u32| conditions.contains(&condition);
    let (x, y) = if holds(7) { outside_of(random, mesh) } else { pixels::any(mesh, random) };
    bench.lay_zones(&list_with(random, mesh, holds(18), holds(19)));
    let count = if holds(8) { 0 } else { 1 };
    let run = bench.compare(Call::FillZonedRun { x, y, count });
    let level = bench.compare(Call::ZonedLevel { x, y });
    if bench.sheet().is_some() {
        let first = conditions.first().copied().unwrap_or(0);
        assert_eq!(run.refusal, first, "{conditions:?}");
        let first = conditions.iter().copied().find(|&condition| condition != 8).unwrap_or(0);
        assert_eq!(level.refusal, first, "{conditions:?}");
    }
}

fn outside_of(random: &mut Random, mesh: &Sheet) -> Pixel {
    let (x, y) = pixels::any(mesh, random);
    random.pick(&[(mesh.last_x() + 1, y), (x, mesh.last_y() + 1), (x, u32::MAX), (u32::MAX, y)])
}

/// A list to which conditions 18 and 19 apply, or not.
fn list_with(random: &mut Random, mesh: &Sheet, wrong_length: bool, wrong_zone: bool) -> Vec<u8> {
    let count = random.between(1, 16) as usize;
    let mut zones = some_zones(random, mesh, if wrong_length { 17 } else { count });
    if wrong_zone {
        let place = random.index(count);
        spoil(random, &mut zones[place]);
    }
    let mut list = zones::encode(&zones);
    if wrong_length && random.once_in(2) {
        // Every zone that counts is still there.
        list.truncate(ZONE_SIZE * count + random.index(ZONE_SIZE - 1) + 1);
    }
    list
}

/// Zones about pixels of the mesh.
fn some_zones(random: &mut Random, mesh: &Sheet, count: usize) -> Vec<Zone> {
    let (x, y) = pixels::any(mesh, random);
    (0..count).map(|_| zone_about(random, mesh, Run { x, y, count: 1 })).collect()
}

/// Makes condition 19 hold.
fn spoil(random: &mut Random, zone: &mut Zone) {
    match random.index(5) {
        0 => (zone.left, zone.right) = (zone.left.max(1), zone.left.max(1) - 1),
        1 => (zone.top, zone.bottom) = (zone.top.max(1), zone.top.max(1) - 1),
        2 => (zone.floor, zone.ceiling) = (zone.ceiling + 1, zone.ceiling),
        3 => zone.floor = -4096,
        _ => zone.ceiling = 4096,
    }
}

fn lists_of_all_lengths(bench: &mut Bench, random: &mut Random, mesh: &Sheet) {
    let zones = zones::encode(&some_zones(random, mesh, 32));
    for len in LENGTHS {
        bench.lay_zones(&zones[..len]);
        any_call(bench, random, mesh);
    }
}

/// A zone of each sort, right or wrong, the only one of a list or the first or last of some.
fn zones_of_all_sorts(bench: &mut Bench, random: &mut Random, mesh: &Sheet) {
    let sides =
        SIDES.into_iter().flat_map(|sides| [(Some(sides), None, None), (None, Some(sides), None)]);
    let limits = LIMITS.into_iter().map(|limits| (None, None, Some(limits)));
    for (across, down, limits) in sides.chain(limits) {
        let count = random.pick(&[1, 2, 16]);
        let mut zones = some_zones(random, mesh, count);
        let zone = &mut zones[random.pick(&[0, count - 1])];
        [zone.left, zone.right] = across.unwrap_or([zone.left, zone.right]);
        [zone.top, zone.bottom] = down.unwrap_or([zone.top, zone.bottom]);
        [zone.floor, zone.ceiling] = limits.unwrap_or([zone.floor, zone.ceiling]);
        bench.lay_zones(&zones::encode(&zones));
        any_call(bench, random, mesh);
    }
}

/// Pixels about the ends of the mesh, and runs that go on beyond it.
fn outside(bench: &mut Bench, random: &mut Random, mesh: &Sheet) {
    bench.lay_zones(&list_with(random, mesh, false, false));
    for (x, y) in pixels::about_the_ends(mesh) {
        bench.compare(Call::ZonedLevel { x, y });
    }
    let (x, y) = (mesh.x_lines[0], mesh.y_lines[0]);
    let beyond = pixels::width(mesh) as usize + 1;
    for count in [beyond].into_iter().chain(FAR_COUNTS) {
        bench.compare(Call::FillZonedRun { x, y, count });
    }
}

/// A level or a short run.
fn any_call(bench: &mut Bench, random: &mut Random, mesh: &Sheet) {
    let (x, y) = pixels::any(mesh, random);
    let to_last = i64::from(mesh.last_x() - x) + 1;
    let count = random.between(1, to_last.min(4)) as usize;
    let call = random.pick(&[Call::ZonedLevel { x, y }, Call::FillZonedRun { x, y, count }]);
    bench.compare(call);
}
