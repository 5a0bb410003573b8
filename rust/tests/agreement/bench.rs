//! The bench: lends a sheet, makes calls on it, and compares all that comes of them.

use crate::bare::{self, Places};
use crate::call::{Beside, Call, Outcome, Written, NOTHING_BESIDE};
use crate::lent::{untouchable, Lent, Place};
use crate::patterns;
use crate::random::Random;
use crate::requests::digits;
use crate::sheet::Sheet;
use crate::tally::Tally;
use crate::wrapped;
use crate::zones;

/// The longest sheet or target and the longest run that are lent memory one may touch.
pub const LONGEST_SHEET: usize = 60_000;
pub const LONGEST_RUN: usize = 70_000;
/// The most places for bends that are lent memory of their own.
pub const MOST_PLACES: usize = 40;
/// The longest list of zones.
pub const LONGEST_LIST: usize = 1_000;
/// The longest run or target at all, always refused, and the most places: the count does not fit 32
/// bits.
pub const FAR: usize = (1 << 32) + 10_000;
/// Of memory that long this many bytes are watched: more than a run, bends or a pool can fill.
const FAR_WATCHED: usize = 26_000;
/// Sheets up to this length are printed whole.
const SHORT: usize = 200;

pub struct Bench {
    name: String,
    sheet: Lent,
    decoded: Result<Sheet, u32>,
    second: Lent,
    zones: Lent,
    beside: Beside,
    target: Lent,
    values: Lent,
    row: Lent,
    bends: Lent,
    pieces: Lent,
    level: Lent,
    far: Lent,
    untouchable: *mut u8,
    turns: Random,
    pub tally: Tally,
}

impl Bench {
    pub fn new(seed: u64) -> Bench {
        let mut far = Lent::new(size_of::<i64>() * FAR);
        far.lend(FAR_WATCHED, Place::First, seed);
        Bench {
            name: String::new(),
            sheet: Lent::new(LONGEST_SHEET),
            decoded: Err(1),
            second: Lent::new(LONGEST_SHEET),
            zones: Lent::new(LONGEST_LIST),
            beside: NOTHING_BESIDE,
            target: Lent::new(LONGEST_SHEET),
            values: Lent::new(size_of::<[f64; 3]>()),
            row: Lent::new(size_of::<i32>() * LONGEST_RUN),
            bends: Lent::new(size_of::<i64>() * MOST_PLACES),
            pieces: Lent::new(size_of::<u32>()),
            level: Lent::new(size_of::<i32>()),
            far,
            untouchable: untouchable(size_of::<i32>() * FAR),
            turns: Random::new(seed),
            tally: Tally::default(),
        }
    }

    /// Lends a sheet to the calls that follow, and counts it.
    pub fn lay(&mut self, name: &str, bytes: &[u8]) {
        self.lay_again(name, bytes);
        self.tally.count_sheet(&self.decoded);
    }

    /// The same, uncounted, for the many pools of a few sheets.
    pub fn lay_again(&mut self, name: &str, bytes: &[u8]) {
        self.name = name.to_string();
        self.sheet.lend_holding(bytes, 1, self.turns.next());
        self.decoded = Sheet::decode(bytes);
    }

    /// Lends a second sheet, only to be read, to the pools that follow.
    pub fn lay_second(&mut self, bytes: &[u8]) {
        self.second.lend_holding(bytes, 1, self.turns.next());
        self.second.allow_writing(false);
        self.beside.second = Sheet::decode(bytes);
    }

    /// Lends a list of zones, only to be read, to the zoned calls that follow.
    pub fn lay_zones(&mut self, list: &[u8]) {
        self.zones.lend_holding(list, 1, self.turns.next());
        self.zones.allow_writing(false);
        self.beside.zones = zones::decode(list);
    }

    /// The sheet that lies there, if it is accepted.
    pub fn sheet(&self) -> Option<&Sheet> {
        self.decoded.as_ref().ok()
    }

    /// The bytes that lie there.
    pub fn bytes(&self) -> &[u8] {
        self.sheet.expected()
    }

    /// Makes a call, one in four through the wrapper, and compares its answer and all lent memory.
    pub fn compare(&mut self, call: Call) -> Outcome {
        let wrapped = self.turns.once_in(4);
        self.compare_by(call, wrapped)
    }

    /// The same, bare or through the wrapper.
    pub fn compare_by(&mut self, call: Call, wrapped: bool) -> Outcome {
        let outcome = call.outcome_beside(&self.decoded, &self.beside);
        self.lend_places(&call);
        // A bare call that is to be refused may not even write a sheet and put it back.
        let writes = wrapped || !matches!(outcome.written, Written::Nothing);
        self.sheet.allow_writing(call.writes_sheet() && writes);
        match call {
            Call::Pool { .. } => self.target.allow_writing(writes),
            Call::ZonedLevel { .. } => self.level.allow_writing(writes),
            Call::FillZonedRun { .. } => self.row.allow_writing(writes),
            _ => {}
        }
        let returned = self.make(&call, wrapped);
        self.expect(&call, &outcome);
        match call {
            Call::Read { .. } if !wrapped => self.tally.count_kept(self.values.expected()),
            Call::Pool { .. } if self.decoded.is_ok() => {
                self.tally.count_second(&self.beside.second);
            }
            _ => {}
        }
        self.judge(&call, &outcome, returned, wrapped);
        if let Written::Nodes { .. } = outcome.written {
            self.decoded = Sheet::decode(self.sheet.expected());
        }
        outcome
    }

    /// Lends what the call is there to write, besides the sheet.
    fn lend_places(&mut self, call: &Call) {
        let turn = self.turns.next();
        match *call {
            Call::Read { .. } => {
                let held = patterns::drawn(turn).map(u64::to_le_bytes);
                self.values.lend_holding(held.as_flattened(), 8, turn);
            }
            Call::Pool { target } if !is_far(call) => {
                self.target.lend_holding(&self.turns.bytes(target), 1, turn);
            }
            Call::Bends { places, .. } => {
                if is_far(call) {
                    self.far.lend(FAR_WATCHED, Place::First, turn);
                } else {
                    self.bends.lend(size_of::<i64>() * places, Place::in_turn(turn, 8), turn);
                }
                let turn = self.turns.next();
                self.pieces.lend(size_of::<u32>(), Place::in_turn(turn, 4), turn);
            }
            Call::ZonedLevel { .. } => {
                self.level.lend(size_of::<i32>(), Place::in_turn(turn, 4), turn);
            }
            Call::FillRun { count, .. } | Call::FillZonedRun { count, .. } if !is_far(call) => {
                self.row.lend(size_of::<i32>() * count, Place::in_turn(turn, 4), turn);
            }
            _ => {}
        }
    }

    /// Writes down what lent memory must now hold.
    fn expect(&mut self, call: &Call, outcome: &Outcome) {
        match &outcome.written {
            Written::Nothing => {}
            Written::Nodes { offset, bytes } => self.sheet.expect(*offset, bytes),
            Written::Target(bytes) => self.target.expect(0, bytes),
            Written::Values(values) => {
                let bytes: Vec<u8> =
                    values.iter().flat_map(|value| value.to_bits().to_le_bytes()).collect();
                self.values.expect(0, &bytes);
            }
            Written::Bends(bends) => {
                let bytes: Vec<u8> = bends.iter().flat_map(|bend| bend.to_le_bytes()).collect();
                if is_far(call) { &mut self.far } else { &mut self.bends }.expect(0, &bytes);
                self.pieces.expect(0, &(bends.len() as u32 / 3).to_le_bytes());
            }
            Written::Levels(levels) => {
                let bytes: Vec<u8> = levels.iter().flat_map(|level| level.to_le_bytes()).collect();
                self.row.expect(0, &bytes);
            }
            Written::Level(level) => self.level.expect(0, &level.to_le_bytes()),
        }
    }

    /// What is lent to the call: its sheets, and what it is there to write.
    fn lent_to(&self, call: &Call) -> Vec<(&'static str, &Lent)> {
        let mut lent = vec![("sheet", &self.sheet)];
        match call {
            Call::Pool { .. } => {
                lent.push(("second sheet", &self.second));
                lent.push(("target", if is_far(call) { &self.far } else { &self.target }));
            }
            Call::Read { .. } => lent.push(("values", &self.values)),
            Call::Bends { .. } => {
                lent.push(("bends", if is_far(call) { &self.far } else { &self.bends }));
                lent.push(("count of pieces", &self.pieces));
            }
            Call::ZonedLevel { .. } => lent.push(("level", &self.level)),
            Call::FillRun { .. } | Call::FillZonedRun { .. } => {
                lent.push(if is_far(call) { ("far row", &self.far) } else { ("row", &self.row) });
            }
            _ => {}
        }
        if call.is_zoned() {
            lent.push(("list of zones", &self.zones));
        }
        lent
    }

    /// Counts the call, and reports and mends whatever differs.
    fn judge(&mut self, call: &Call, outcome: &Outcome, returned: usize, wrapped: bool) {
        self.tally.count_call(call, outcome, wrapped);
        let kept = self.lent_to(call).iter().all(|(_, lent)| lent.is_as_expected());
        if returned == outcome.returned && kept {
            return;
        }
        if let Some(number) = self.tally.count_difference() {
            let face = if wrapped { "wrapper" } else { "bare call" };
            let account = self.account(call, outcome, returned);
            println!("difference {number}: {call:?} ({face})\n{account}");
        }
        let Bench { target, values, row, bends, pieces, level, far, .. } = self;
        for lent in [target, values, row, bends, pieces, level, far] {
            lent.restore();
        }
        if !self.sheet.is_as_expected() {
            self.sheet.restore();
        }
    }

    /// What was expected of a call, and what came of it.
    fn account(&self, call: &Call, outcome: &Outcome, returned: usize) -> String {
        let lent = self.lent_to(call).into_iter();
        let memory: String = lent.filter_map(|(name, lent)| lent.difference(name)).collect();
        let (sheet, held) = (self.sheets_text(call), self.held_text(call));
        let (expected, written) = (outcome.returned, written_text(&outcome.written));
        let returned = wrapped::returned_text(returned);
        format!(
            "  sheet: {sheet}\n  expected: returns {expected}, writes {written}\n  \
             got: returns {returned}{held}\n{memory}"
        )
    }

    fn make(&mut self, call: &Call, wrapped: bool) -> usize {
        let by_name = self.turns.once_in(2);
        let far = self.far.pointer();
        let (row, target, bends) = match (is_far(call), wrapped) {
            (false, _) => (self.row.pointer(), self.target.pointer(), self.bends.pointer()),
            (true, false) => (self.untouchable, self.untouchable, far),
            // A slice of Rust's must be of memory that may be touched, though no one does.
            (true, true) => (far, far, far),
        };
        let places = Places {
            sheet: self.sheet.pointer(),
            len: self.sheet.len(),
            second: self.second.pointer(),
            second_len: self.second.len(),
            target,
            values: self.values.pointer().cast(),
            row: row.cast(),
            bends: bends.cast(),
            pieces: self.pieces.pointer().cast(),
            zones: self.zones.pointer(),
            zones_len: self.zones.len(),
            level: self.level.pointer().cast(),
        };
        // SAFETY: all is lent in the lengths that are passed, though far memory may not be touched.
        // The sheet may be written by a call that is there to write it.
        unsafe {
            if wrapped {
                wrapped::make(call, &places, by_name)
            } else {
                bare::make(call, &places)
            }
        }
    }

    /// What the values, the bends, a level, a short row or a short target hold after the call.
    fn held_text(&self, call: &Call) -> String {
        match call {
            Call::Read { .. } => {
                let places = self.values.bytes().chunks_exact(8);
                let values = places.map(|place| f64::from_le_bytes(place.try_into().unwrap()));
                format!(", values hold {:?}", values.collect::<Vec<f64>>())
            }
            Call::Bends { .. } if !is_far(call) => {
                let places = self.bends.bytes().chunks_exact(8);
                let bends = places.map(|place| i64::from_le_bytes(place.try_into().unwrap()));
                let pieces = u32::from_le_bytes(self.pieces.bytes().try_into().unwrap());
                let bends = bends.collect::<Vec<i64>>();
                format!(", count of pieces holds {pieces}, bends hold {bends:?}")
            }
            Call::Pool { target } if *target <= SHORT => {
                format!(", target holds {}", digits(self.target.bytes()))
            }
            Call::ZonedLevel { .. } => {
                let level = i32::from_le_bytes(self.level.bytes().try_into().unwrap());
                format!(", level holds {level}")
            }
            Call::FillRun { count, .. } | Call::FillZonedRun { count, .. } if *count <= SHORT => {
                let places = self.row.bytes().chunks_exact(4);
                let levels = places.map(|place| i32::from_le_bytes(place.try_into().unwrap()));
                format!(", row holds {:?}", levels.collect::<Vec<i32>>())
            }
            _ => String::new(),
        }
    }

    /// The sheet, of a pool the second one, and zones.
    fn sheets_text(&self, call: &Call) -> String {
        let sheet = format!("{} {}", self.name, bytes_text(self.sheet.expected()));
        match call {
            Call::Pool { .. } => {
                format!("{sheet}\n  second: {}", bytes_text(self.second.expected()))
            }
            _ if call.is_zoned() => {
                format!("{sheet}\n  zones: {}", bytes_text(self.zones.expected()))
            }
            _ => sheet,
        }
    }
}

/// Bytes as they are printed: whole, or where they are many their count.
pub fn bytes_text(bytes: &[u8]) -> String {
    if bytes.len() > SHORT {
        return format!("({} bytes)", bytes.len());
    }
    digits(bytes)
}

/// Whether so many places are lent that the memory for it is another: a row or a target that is
/// never filled, or bends that lie at its start.
fn is_far(call: &Call) -> bool {
    match *call {
        Call::Pool { target } => target > LONGEST_SHEET,
        Call::Bends { places, .. } => places > MOST_PLACES,
        Call::FillRun { count, .. } | Call::FillZonedRun { count, .. } => count > LONGEST_RUN,
        _ => false,
    }
}

/// What a call must write, in full if it is short.
fn written_text(written: &Written) -> String {
    match written {
        Written::Nothing => String::from("nothing"),
        Written::Levels(levels) if levels.len() > SHORT => format!("{} levels", levels.len()),
        Written::Nodes { bytes, .. } if bytes.len() > SHORT => format!("{} bytes", bytes.len()),
        Written::Target(bytes) => bytes_text(bytes),
        _ => format!("{written:?}"),
    }
}
