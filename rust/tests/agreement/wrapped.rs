//! The calls through the safe wrapper; what it hands back is put where the bare call writes it.

use std::slice;

use light_sheet::{Node, Reading, Refusal, Zone};

use crate::bare::Places;
use crate::call::Call;
use crate::sheet::Sheet;
use crate::zones;

/// Given for a node whose numbers are not those that the sheet holds; no call returns it.
const OTHER_NUMBERS: usize = usize::MAX;

/// Makes the call and gives what the bare one would return.
///
/// # Safety
///
/// As for the bare call; besides, no pointer is null, and rows, bends and targets may be touched in
/// their whole length.
pub unsafe fn make(call: &Call, places: &Places, by_name: bool) -> usize {
    let Places { sheet: start, len, values, row: levels, bends, pieces, .. } = *places;
    // SAFETY: the caller vouches for what is lent, here and below, and no one else holds it.
    let sheet = unsafe { slice::from_raw_parts(start, len) };
    match *call {
        Call::Check => number(light_sheet::check(sheet)),
        Call::NodeRefusal { column, row } => look_up(sheet, column, row),
        Call::NodeOffset { column, row } => find(sheet, column, row),
        Call::SetNode { column, row, numbers: [height, x_slope, y_slope] } => {
            let node = Node { height, x_slope, y_slope };
            // SAFETY: this sheet may be written, and the slice made above is used no more.
            let sheet = unsafe { slice::from_raw_parts_mut(start, len) };
            number(light_sheet::set_node(sheet, column, row, node))
        }
        Call::FillSlopes { stiffness } => {
            // SAFETY: as for a node that is set.
            let sheet = unsafe { slice::from_raw_parts_mut(start, len) };
            number(light_sheet::fill_slopes(sheet, stiffness))
        }
        // SAFETY: the second sheet and the target are lent, and the target may be touched.
        Call::Pool { target } => unsafe { pool(sheet, places, target) },
        Call::Read { x, y, kind } => {
            let reading = read(sheet, x, y, kind, by_name);
            // SAFETY: there are three places.
            store(&reading, unsafe { &mut *values });
            number(reading.map(drop))
        }
        Call::Bends { x, y, places: count } => {
            // SAFETY: there are as many places, and they may be touched; and one for the count.
            let (list, pieces) = unsafe { (slice::from_raw_parts_mut(bends, count), &mut *pieces) };
            number(light_sheet::bends(sheet, x, y, list).map(|count| *pieces = count as u32))
        }
        Call::FillRun { x, y, count } => {
            // SAFETY: there are as many places, and they may be touched.
            let levels = unsafe { slice::from_raw_parts_mut(levels, count) };
            number(light_sheet::fill_run(sheet, x, y, levels))
        }
        // SAFETY: the zones are lent; there is a place for the level, and as many for a row.
        Call::ZonedLevel { .. } | Call::FillZonedRun { .. } => unsafe {
            zoned(call, sheet, places, by_name)
        },
    }
}

/// A zoned call; the zones as they lie there, or each written anew from its numbers.
///
/// # Safety
///
/// As for [`make`].
unsafe fn zoned(call: &Call, sheet: &[u8], places: &Places, by_name: bool) -> usize {
    // SAFETY: the caller vouches for what is lent, here and below.
    let lent = unsafe { slice::from_raw_parts(places.zones, places.zones_len) };
    let written = if by_name { written_anew(lent) } else { None };
    let zones = written.as_deref().unwrap_or(lent);
    match *call {
        Call::ZonedLevel { x, y } => {
            let place = unsafe { &mut *places.level };
            number(light_sheet::zoned_level(sheet, zones, x, y).map(|level| *place = level))
        }
        Call::FillZonedRun { x, y, count } => {
            let levels = unsafe { slice::from_raw_parts_mut(places.row, count) };
            number(light_sheet::fill_zoned_run(sheet, zones, x, y, levels))
        }
        _ => unreachable!("{call:?} looks at no zones"),
    }
}

/// The bytes of zones, if they are not refused, as the wrapper writes them.
fn written_anew(list: &[u8]) -> Option<Vec<u8>> {
    let bytes = |zone: &zones::Zone| {
        let zones::Zone { left, top, right, bottom, floor, ceiling } = *zone;
        Zone { left, top, right, bottom, floor, ceiling }.to_bytes()
    };
    Some(zones::decode(list).ok()?.iter().flat_map(bytes).collect())
}

/// Pools the sheet with the second one, into a target of so many bytes.
///
/// # Safety
///
/// As for [`make`].
unsafe fn pool(sheet: &[u8], places: &Places, count: usize) -> usize {
    let Places { second, second_len, target, .. } = *places;
    // SAFETY: the caller vouches for both.
    let second = unsafe { slice::from_raw_parts(second, second_len) };
    let target = unsafe { slice::from_raw_parts_mut(target, count) };
    number(light_sheet::pool(sheet, second, target))
}

/// Where a node's bytes start, or 0.
fn find(sheet: &[u8], column: u32, row: u32) -> usize {
    match light_sheet::node(sheet, column, row) {
        Ok(bytes) => bytes.as_ptr() as usize - sheet.as_ptr() as usize,
        Err(_) => 0,
    }
}

/// Looks up a node's numbers, and compares them with those that the sheet holds.
fn look_up(sheet: &[u8], column: u32, row: u32) -> usize {
    match light_sheet::node_numbers(sheet, column, row) {
        Ok(node) if Some(node) != decoded(sheet, column, row) => OTHER_NUMBERS,
        answer => number(answer.map(drop)),
    }
}

/// What a call returned, to be printed.
pub fn returned_text(returned: usize) -> String {
    match returned {
        OTHER_NUMBERS => String::from("other numbers than the node has"),
        _ => returned.to_string(),
    }
}

/// The node that the sheet holds, by the independent implementation.
fn decoded(sheet: &[u8], column: u32, row: u32) -> Option<Node> {
    let numbers = Sheet::decode(sheet).ok()?.numbers(column, row)?;
    let [height, x_slope, y_slope] = numbers.map(i32::from);
    Some(Node { height, x_slope, y_slope })
}

/// Reads by the function that has the kind's name, or by the kind's number.
fn read(sheet: &[u8], x: u32, y: u32, kind: u32, by_name: bool) -> Result<Reading, Refusal> {
    match kind {
        light_sheet::LEVEL if by_name => light_sheet::level(sheet, x, y).map(Reading::Level),
        light_sheet::TILT if by_name => light_sheet::tilt(sheet, x, y).map(Reading::Tilt),
        light_sheet::BEND if by_name => light_sheet::bend(sheet, x, y).map(Reading::Bend),
        _ => light_sheet::read(sheet, x, y, kind),
    }
}

/// Puts the values of a reading in the first places.
fn store(reading: &Result<Reading, Refusal>, places: &mut [f64; 3]) {
    for (place, value) in places.iter_mut().zip(numbers(reading)) {
        *place = *value;
    }
}

fn numbers(reading: &Result<Reading, Refusal>) -> &[f64] {
    match reading {
        Ok(Reading::Level(level)) => slice::from_ref(level),
        Ok(Reading::Tilt(tilt)) => tilt,
        Ok(Reading::Bend(bend)) => bend,
        Err(_) => &[],
    }
}

fn number(answer: Result<(), Refusal>) -> usize {
    answer.map_or_else(|refusal| refusal.number() as usize, |()| 0)
}
