//! The eleven calls, and what each must give and write by the independent implementation.

use std::cmp::Ordering;

use crate::bends::{self, LEAST_PLACES};
use crate::fraction::Fraction;
use crate::pool;
use crate::sheet::{in_bounds, Sheet, NODE_BYTES};
use crate::slopes::{self, MOST_STIFFNESS};
use crate::zones::{self, Zone};

/// A call on a sheet; a pool is with the second sheet that lies beside it, into a target so long, and
/// zoned ones are with the zones there.
#[derive(Clone, Copy, Debug)]
pub enum Call {
    Check,
    NodeRefusal { column: u32, row: u32 },
    NodeOffset { column: u32, row: u32 },
    SetNode { column: u32, row: u32, numbers: [i32; 3] },
    FillSlopes { stiffness: u32 },
    Pool { target: usize },
    Read { x: u32, y: u32, kind: u32 },
    Bends { x: u32, y: u32, places: usize },
    FillRun { x: u32, y: u32, count: usize },
    ZonedLevel { x: u32, y: u32 },
    FillZonedRun { x: u32, y: u32, count: usize },
}

/// The names of the calls, in the order of [`Call::index`].
pub const NAMES: [&str; 11] = [
    "check",
    "node_refusal",
    "node_offset",
    "set_node",
    "fill_slopes",
    "pool",
    "read",
    "bends",
    "fill_run",
    "zoned_level",
    "fill_zoned_run",
];

/// What lies beside the sheet of a call.
#[derive(Clone)]
pub struct Beside {
    /// The second sheet of a pool, or its refusal.
    pub second: Result<Sheet, u32>,
    /// The zones of a list, or its refusal.
    pub zones: Result<Vec<Zone>, u32>,
}

/// No second sheet and no zones.
pub const NOTHING_BESIDE: Beside = Beside { second: Err(1), zones: Ok(Vec::new()) };

/// What a call writes into lent memory.
#[derive(Clone, Debug, PartialEq)]
pub enum Written {
    Nothing,
    /// Whole nodes, from this byte of the sheet on.
    Nodes {
        offset: usize,
        bytes: Vec<u8>,
    },
    /// The whole target of a pool.
    Target(Vec<u8>),
    Values(Vec<f64>),
    /// Three numbers for each piece; their count is written besides.
    Bends(Vec<i64>),
    Levels(Vec<i32>),
    /// One zoned level.
    Level(i32),
}

/// What a call must come to.
#[derive(Clone, Debug)]
pub struct Outcome {
    /// 0 or the number of the refusal.
    pub refusal: u32,
    /// What the call returns.
    pub returned: usize,
    pub written: Written,
    /// Values rounded that were negative ties and positive ones.
    pub ties: [u64; 2],
    /// Zoned levels below the level and above it.
    pub limited: [u64; 2],
}

impl Call {
    pub fn index(&self) -> usize {
        match self {
            Call::Check => 0,
            Call::NodeRefusal { .. } => 1,
            Call::NodeOffset { .. } => 2,
            Call::SetNode { .. } => 3,
            Call::FillSlopes { .. } => 4,
            Call::Pool { .. } => 5,
            Call::Read { .. } => 6,
            Call::Bends { .. } => 7,
            Call::FillRun { .. } => 8,
            Call::ZonedLevel { .. } => 9,
            Call::FillZonedRun { .. } => 10,
        }
    }

    /// Whether the call looks at zones.
    pub fn is_zoned(&self) -> bool {
        matches!(self, Call::ZonedLevel { .. } | Call::FillZonedRun { .. })
    }

    /// Whether the call is there to write the sheet.
    pub fn writes_sheet(&self) -> bool {
        matches!(self, Call::SetNode { .. } | Call::FillSlopes { .. })
    }

    /// What the call must come to on a sheet, or on bytes that are refused.
    pub fn outcome(&self, sheet: &Result<Sheet, u32>) -> Outcome {
        self.outcome_beside(sheet, &NOTHING_BESIDE)
    }

    /// The same where a second sheet or zones lie beside it.
    pub fn outcome_beside(&self, sheet: &Result<Sheet, u32>, beside: &Beside) -> Outcome {
        let sheet = sheet.as_ref().map_err(|&refusal| refusal);
        match sheet.and_then(|sheet| self.accepted(sheet, beside)) {
            Ok(outcome) => outcome,
            // Only the offset keeps its refusal to itself.
            Err(refusal) => Outcome {
                refusal,
                returned: if matches!(self, Call::NodeOffset { .. }) {
                    0
                } else {
                    refusal as usize
                },
                ..Outcome::writes(Written::Nothing)
            },
        }
    }

    /// What the call comes to if none of its own conditions refuses it.
    fn accepted(&self, sheet: &Sheet, beside: &Beside) -> Result<Outcome, u32> {
        match *self {
            Call::Check => Ok(Outcome::writes(Written::Nothing)),
            Call::NodeRefusal { column, row } => {
                sheet.node_offset(column, row).ok_or(10u32)?;
                Ok(Outcome::writes(Written::Nothing))
            }
            Call::NodeOffset { column, row } => {
                let returned = sheet.node_offset(column, row).ok_or(10u32)?;
                Ok(Outcome { returned, ..Outcome::writes(Written::Nothing) })
            }
            Call::SetNode { column, row, numbers } => set_node(sheet, column, row, numbers),
            Call::FillSlopes { stiffness } => fill_slopes(sheet, stiffness),
            Call::Pool { target } => {
                let pooled = pool::pooled(sheet, &beside.second, target)?;
                Ok(Outcome::writes(Written::Target(pooled)))
            }
            Call::Read { x, y, kind } => read(sheet, x, y, kind),
            Call::Bends { x, y, places } => give_bends(sheet, x, y, places),
            Call::FillRun { x, y, count } => fill_run(sheet, x, y, count),
            Call::ZonedLevel { x, y } => zoned_level(sheet, &beside.zones, x, y),
            Call::FillZonedRun { x, y, count } => fill_zoned_run(sheet, &beside.zones, x, y, count),
        }
    }
}

impl Outcome {
    fn writes(written: Written) -> Outcome {
        Outcome { refusal: 0, returned: 0, written, ties: [0, 0], limited: [0, 0] }
    }

    /// Rounds exact values and counts the ties among them.
    fn rounds(exact: &[Fraction], write: impl Fn(Vec<i64>) -> Written) -> Outcome {
        let rounded = exact.iter().map(|value| value.rounded()).collect();
        let mut outcome = Outcome::writes(write(rounded));
        for value in exact.iter().filter(|value| value.is_tie()) {
            outcome.ties[usize::from(value.numerator > 0)] += 1;
        }
        outcome
    }
}

fn set_node(sheet: &Sheet, column: u32, row: u32, numbers: [i32; 3]) -> Result<Outcome, u32> {
    let offset = sheet.node_offset(column, row).ok_or(10u32)?;
    if !numbers.into_iter().all(in_bounds) {
        return Err(11);
    }
    let bytes = node_bytes(numbers.map(|number| number as i16)).to_vec();
    Ok(Outcome::writes(Written::Nodes { offset, bytes }))
}

/// A node's numbers as they stand in a sheet.
pub fn node_bytes(numbers: [i16; 3]) -> [u8; NODE_BYTES] {
    let [height, x_slope, y_slope] = numbers.map(i16::to_le_bytes);
    [height[0], height[1], x_slope[0], x_slope[1], y_slope[0], y_slope[1]]
}

/// 12 when t exceeds 64, then 13 when a slope would leave −4,095 to 4,095.
fn fill_slopes(sheet: &Sheet, stiffness: u32) -> Result<Outcome, u32> {
    if stiffness > MOST_STIFFNESS {
        return Err(12);
    }
    let exact = slopes::exact(sheet, stiffness);
    if !slopes::may_stand(&exact) {
        return Err(13);
    }
    let offset = sheet.node_offset(0, 0).expect("the first node");
    Ok(Outcome::rounds(exact.as_flattened(), |slopes| {
        let nodes = sheet.heights().zip(slopes.chunks_exact(2));
        let bytes = nodes
            .flat_map(|(height, slopes)| node_bytes([height, slopes[0] as i16, slopes[1] as i16]));
        Written::Nodes { offset, bytes: bytes.collect() }
    }))
}

fn read(sheet: &Sheet, x: u32, y: u32, kind: u32) -> Result<Outcome, u32> {
    if !sheet.holds(x, y) {
        return Err(7);
    }
    if kind > 2 {
        return Err(9);
    }
    let exact = sheet.exact(x, y);
    let values = |divisor: f64| {
        move |rounded: Vec<i64>| {
            Written::Values(rounded.iter().map(|&number| number as f64 / divisor).collect())
        }
    };
    Ok(match kind {
        0 => Outcome::rounds(&[exact.level], values(64.0)),
        1 => Outcome::rounds(&exact.tilt, values(64.0)),
        _ => Outcome::rounds(&exact.bend, values(4096.0)),
    })
}

/// 14 when the buffer has fewer than 24 places, after 7.
fn give_bends(sheet: &Sheet, x: u32, y: u32, places: usize) -> Result<Outcome, u32> {
    if !sheet.holds(x, y) {
        return Err(7);
    }
    if places < LEAST_PLACES {
        return Err(14);
    }
    Ok(Outcome::rounds(bends::exact(sheet, x, y).as_flattened(), Written::Bends))
}

/// 7 when the first or the last pixel is outside the mesh, then 8 when there is none.
fn may_run(sheet: &Sheet, x: u32, y: u32, count: usize) -> Result<(), u32> {
    if !sheet.holds(x, y) {
        return Err(7);
    }
    let to_last = (sheet.last_x() - x) as usize;
    if count > to_last + 1 {
        return Err(7);
    }
    if count == 0 {
        return Err(8);
    }
    Ok(())
}

fn exact_levels(sheet: &Sheet, x: u32, y: u32, count: usize) -> Vec<Fraction> {
    (x..).take(count).map(|x| sheet.exact(x, y).level).collect()
}

fn level(number: i64) -> i32 {
    assert!(number.abs() < 1 << 20, "a level lies strictly within 2^20");
    number as i32
}

fn fill_run(sheet: &Sheet, x: u32, y: u32, count: usize) -> Result<Outcome, u32> {
    may_run(sheet, x, y, count)?;
    Ok(Outcome::rounds(&exact_levels(sheet, x, y, count), |rounded| {
        Written::Levels(rounded.into_iter().map(level).collect())
    }))
}

/// 18 and 19 after 7.
fn zoned_level(
    sheet: &Sheet,
    zones: &Result<Vec<Zone>, u32>,
    x: u32,
    y: u32,
) -> Result<Outcome, u32> {
    if !sheet.holds(x, y) {
        return Err(7);
    }
    let zones = zones.as_ref().map_err(|&refusal| refusal)?;
    Ok(zoned_row(sheet, zones, (x, y), 1, |levels| Written::Level(levels[0])))
}

/// 18 and 19 after 7 and 8.
fn fill_zoned_run(
    sheet: &Sheet,
    zones: &Result<Vec<Zone>, u32>,
    x: u32,
    y: u32,
    count: usize,
) -> Result<Outcome, u32> {
    may_run(sheet, x, y, count)?;
    let zones = zones.as_ref().map_err(|&refusal| refusal)?;
    Ok(zoned_row(sheet, zones, (x, y), count, Written::Levels))
}

/// The zoned levels of a row, and how many are below the level and above it.
fn zoned_row(
    sheet: &Sheet,
    zones: &[Zone],
    (x, y): (u32, u32),
    count: usize,
    write: impl Fn(Vec<i32>) -> Written,
) -> Outcome {
    let exact = exact_levels(sheet, x, y, count);
    let levels: Vec<i64> = exact.iter().map(|level| level.rounded()).collect();
    let zoned: Vec<i64> =
        (x..).zip(&levels).map(|(x, &level)| zones::zoned(zones, x, y, level)).collect();
    let limited = [Ordering::Less, Ordering::Greater].map(|side| {
        zoned.iter().zip(&levels).filter(|(zoned, level)| zoned.cmp(level) == side).count() as u64
    });
    let write = |_| write(zoned.iter().copied().map(level).collect());
    Outcome { limited, ..Outcome::rounds(&exact, write) }
}
