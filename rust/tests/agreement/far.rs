//! A sheet and a list of zones far longer than any: their lengths cut to 32 bits would be right.

use std::slice;

use crate::bare::{self, Places};
use crate::bends::LEAST_PLACES;
use crate::boundaries;
use crate::call::{Beside, Call};
use crate::draft::Draft;
use crate::lent::holding;
use crate::random::Random;
use crate::sheet::Sheet;
use crate::tally::Tally;
use crate::wrapped;
use crate::zones::{self, ZONE_SIZE};

/// The sheet: it starts with the bytes of a right one, and then holds only 0. To be pooled with it
/// there is a flat sheet on the lines of the right one. The list of zones holds only 0 too, and so
/// does a right one.
struct Far {
    first_bytes: Vec<u8>,
    sheet: *mut u8,
    len: usize,
    flat: Vec<u8>,
    zones: *mut u8,
    zones_len: usize,
}

/// Which of what is lent is far: the sheet, the second one of a pool, the zones.
#[derive(Clone, Copy)]
struct Which {
    sheet: bool,
    second: bool,
    zones: bool,
}

/// How a call is made: bare or through the wrapper, where a reading has its kind's number or name.
#[derive(Clone, Copy)]
struct Face {
    wrapped: bool,
    by_name: bool,
}

const FACES: [Face; 3] = [
    Face { wrapped: false, by_name: false },
    Face { wrapped: true, by_name: false },
    Face { wrapped: true, by_name: true },
];

/// Makes every call on it, a pool with it as the second sheet, and zoned calls with the list.
pub fn run(tally: &mut Tally) {
    let far = Far::new();
    tally.count_sheet(&Err(4));
    let pool = Call::Pool { target: far.flat.len() };
    for face in FACES {
        far.compare(tally, &pool, Which { sheet: false, second: true, zones: false }, face);
        for call in zoned_calls() {
            far.compare(tally, &call, Which { sheet: false, second: false, zones: true }, face);
        }
    }
    for call in [pool].into_iter().chain(zoned_calls()).chain(calls()) {
        for face in FACES {
            far.compare(tally, &call, Which { sheet: true, second: false, zones: false }, face);
        }
    }
}

impl Far {
    fn new() -> Far {
        let base = boundaries::base(&mut Random::new(0));
        let (first_bytes, flat) = (base.bytes(), Draft::on(&base.sheet()).bytes());
        let len = (1 << 32) + first_bytes.len();
        let zones_len = (1 << 32) + ZONE_SIZE;
        let (sheet, zones) = (holding(&first_bytes, len), holding(&[], zones_len));
        Far { first_bytes, sheet, len, flat, zones, zones_len }
    }

    /// Makes a call whose first or second sheet is this one, and the other the flat one, or whose
    /// zones are these, and else one zone. What is far is too much to be watched beyond its first
    /// bytes.
    fn compare(&self, tally: &mut Tally, call: &Call, far: Which, face: Face) {
        let held = ([0.5; 3], [77; 4], [55; LEAST_PLACES], 33, 44);
        let held_target = vec![66; self.flat.len()];
        let (mut lent, mut target) = (held, held_target.clone());
        let [(sheet, len), (second, second_len)] =
            [far.sheet, far.second].map(|is_far| self.lent(is_far));
        let zones_len = if far.zones { self.zones_len } else { ZONE_SIZE };
        let places = Places {
            sheet,
            len,
            second,
            second_len,
            target: target.as_mut_ptr(),
            values: &mut lent.0,
            row: lent.1.as_mut_ptr(),
            bends: lent.2.as_mut_ptr(),
            pieces: &mut lent.3,
            zones: self.zones,
            zones_len,
            level: &mut lent.4,
        };
        // SAFETY: this sheet may be read and written in its length, the flat one, which no call has
        // that writes its sheet, and the zones be read, and there are places enough.
        let (returned, first_bytes) = unsafe {
            let returned = if face.wrapped {
                wrapped::make(call, &places, face.by_name)
            } else {
                bare::make(call, &places)
            };
            (returned, slice::from_raw_parts(self.sheet, self.first_bytes.len()))
        };
        let [decoded, second] = [far.sheet, far.second].map(|is_far| self.decoded(is_far));
        // SAFETY: the list is as long and lives on.
        let zones = zones::decode(unsafe { slice::from_raw_parts(self.zones, zones_len) });
        let beside = Beside { second, zones };
        let outcome = call.outcome_beside(&decoded, &beside);
        tally.count_call(call, &outcome, face.wrapped);
        if let (Call::Pool { .. }, Ok(_)) = (call, &decoded) {
            tally.count_second(&beside.second);
        }
        let kept = first_bytes == self.first_bytes && lent == held && target == held_target;
        if returned == outcome.returned && kept {
            return;
        }
        if let Some(number) = tally.count_difference() {
            let face = if face.wrapped { "wrapper" } else { "bare call" };
            println!("difference {number}: {call:?} ({face})");
            println!("  on {len} bytes, beside {second_len} bytes and {zones_len} bytes of zones");
            println!("  returns {}; memory kept: {kept}", wrapped::returned_text(returned));
        }
    }

    fn lent(&self, is_far: bool) -> (*mut u8, usize) {
        if is_far {
            (self.sheet, self.len)
        } else {
            (self.flat.as_ptr().cast_mut(), self.flat.len())
        }
    }

    fn decoded(&self, is_far: bool) -> Result<Sheet, u32> {
        if is_far {
            Err(4)
        } else {
            Sheet::decode(&self.flat)
        }
    }
}

/// Those that look at zones.
fn zoned_calls() -> [Call; 2] {
    let (x, y) = (3, 0);
    [Call::ZonedLevel { x, y }, Call::FillZonedRun { x, y, count: 4 }]
}

/// Each other, and a reading of each kind; they would be accepted were the length right.
fn calls() -> [Call; 10] {
    let (column, row) = (1, 1);
    let (x, y) = (3, 0);
    [
        Call::Check,
        Call::NodeRefusal { column, row },
        Call::NodeOffset { column, row },
        Call::Read { x, y, kind: 0 },
        Call::Read { x, y, kind: 1 },
        Call::Read { x, y, kind: 2 },
        Call::Bends { x, y, places: LEAST_PLACES },
        Call::FillRun { x, y, count: 4 },
        // Last, because what is set or filled stays so.
        Call::SetNode { column, row, numbers: [1, 2, 3] },
        Call::FillSlopes { stiffness: 0 },
    ]
}
