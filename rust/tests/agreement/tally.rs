//! What was compared, counted, and the differences found.

use crate::call::{Call, Outcome, Written, NAMES};
use crate::patterns;
use crate::reach::Reach;
use crate::sheet::{Sheet, NODE_BYTES};
use crate::watch;

/// Fewer than this many sheets or calls compared is a failure.
const LEAST_SHEETS: u64 = 2_000;
const LEAST_CALLS: u64 = 5_000_000;
/// Differences printed in full; more are only counted.
const SHOWN: u64 = 5;
/// Refusals are numbered from 1 to this.
const REFUSALS: usize = 19;
/// Those of a sheet are numbered from 1 to this.
const SHEET_REFUSALS: usize = 6;
/// What is rounded, apart: readings and runs, filled slopes, bends from each piece.
const ROUNDED: [&str; 3] = ["readings and runs", "filled slopes", "bends from each piece"];
/// How many pieces can touch a pixel.
const TOUCHING: [usize; 4] = [1, 2, 4, 8];
/// The refusals of the program `reach`.
const REACH_REFUSALS: [usize; 7] = [1, 2, 3, 4, 5, 6, 10];
/// How many cells can touch a node: at a corner of the mesh, on an edge of it, inside.
const TOUCHED: [usize; 3] = [1, 2, 4];
/// Fewer inputs than this is a failure.
const LEAST_INPUTS: u64 = 2_000;
/// The ends of what a sum may be.
const ENDS: [i16; 2] = [-4095, 4095];

#[derive(Default)]
pub struct Tally {
    /// Sheets by refusal, 0 where accepted.
    sheets: [u64; SHEET_REFUSALS + 1],
    /// Second sheets of pools whose first is accepted, likewise.
    seconds: [u64; SHEET_REFUSALS + 1],
    /// Calls by name and refusal, 0 where accepted.
    calls: [[u64; REFUSALS + 1]; NAMES.len()],
    wrapped: u64,
    values: u64,
    levels: u64,
    slopes: u64,
    sums: u64,
    /// Zoned levels, and those of them below the level and above it.
    zoned: u64,
    limited: [u64; 2],
    /// Sums at each end of the range.
    ends: [u64; 2],
    /// Lists of bends by how many pieces they have.
    lists: [u64; TOUCHING.len()],
    /// Ties by what is rounded, negative ones and positive ones.
    ties: [[u64; 2]; ROUNDED.len()],
    /// NaN in slots that a bare reading keeps, signalling ones and quiet ones.
    kept_nans: [u64; 2],
    /// Inputs of the program `reach` by refusal, 0 where accepted.
    inputs: [u64; REFUSALS + 1],
    /// Those accepted by how many cells touch the node.
    touched: [u64; TOUCHED.len()],
    differences: u64,
}

impl Tally {
    pub fn count_sheet(&mut self, sheet: &Result<Sheet, u32>) {
        self.sheets[refusal(sheet)] += 1;
    }

    pub fn count_second(&mut self, sheet: &Result<Sheet, u32>) {
        self.seconds[refusal(sheet)] += 1;
    }

    pub fn count_call(&mut self, call: &Call, outcome: &Outcome, wrapped: bool) {
        watch::call_ended();
        self.calls[call.index()][outcome.refusal as usize] += 1;
        self.wrapped += u64::from(wrapped);
        let rounded = match call {
            Call::FillSlopes { .. } => 1,
            Call::Bends { .. } => 2,
            _ => 0,
        };
        match &outcome.written {
            Written::Values(values) => self.values += values.len() as u64,
            Written::Level(_) => self.zoned += 1,
            Written::Levels(levels) if call.is_zoned() => self.zoned += levels.len() as u64,
            Written::Levels(levels) => self.levels += levels.len() as u64,
            Written::Target(bytes) => self.count_sums(bytes),
            Written::Bends(bends) => {
                let count = TOUCHING.iter().position(|count| 3 * count == bends.len());
                self.lists[count.expect("one, two, four or eight pieces touch")] += 1;
            }
            Written::Nodes { bytes, .. } if rounded == 1 => {
                self.slopes += (2 * bytes.len() / NODE_BYTES) as u64;
            }
            Written::Nothing | Written::Nodes { .. } => {}
        }
        let ties = self.ties[rounded].iter_mut().zip(outcome.ties);
        for (all, new) in ties.chain(self.limited.iter_mut().zip(outcome.limited)) {
            *all += new;
        }
    }

    /// Counts the numbers of a pool.
    fn count_sums(&mut self, bytes: &[u8]) {
        let pool = Sheet::decode(bytes).expect("a pool is a sheet");
        let sums = pool.nodes.as_flattened();
        self.sums += sums.len() as u64;
        for (count, end) in self.ends.iter_mut().zip(ENDS) {
            *count += sums.iter().filter(|&&sum| sum == end).count() as u64;
        }
    }

    /// Counts the NaN that must stand in an array after a bare reading: no reading is one, so they are kept.
    pub fn count_kept(&mut self, expected: &[u8]) {
        for slot in expected.chunks_exact(8) {
            if let Some(kind) = patterns::nan_kind(u64::from_le_bytes(slot.try_into().unwrap())) {
                self.kept_nans[kind] += 1;
            }
        }
    }

    /// Counts an input of the program `reach`.
    pub fn count_reach(&mut self, found: &Result<Reach, u32>) {
        watch::call_ended();
        match found {
            Ok(reach) => {
                let sort = TOUCHED.iter().position(|&cells| cells == reach.cells);
                self.touched[sort.expect("one, two or four cells touch")] += 1;
                self.inputs[0] += 1;
            }
            Err(refusal) => self.inputs[*refusal as usize] += 1,
        }
    }

    /// Counts a difference. Gives its number if it is among the first, which are told in full.
    pub fn count_difference(&mut self) -> Option<u64> {
        self.differences += 1;
        (self.differences <= SHOWN).then_some(self.differences)
    }

    pub fn call_count(&self) -> u64 {
        self.calls.iter().flatten().sum()
    }

    /// What keeps the run from passing.
    pub fn complaints(&self) -> Vec<String> {
        let mut complaints = Vec::new();
        if self.differences > 0 {
            complaints.push(format!("{} differences", self.differences));
        }
        if self.sheets.iter().sum::<u64>() < LEAST_SHEETS {
            complaints.push(format!("fewer than {LEAST_SHEETS} sheets"));
        }
        if self.call_count() < LEAST_CALLS {
            complaints.push(format!("fewer than {LEAST_CALLS} calls"));
        }
        for refusal in (1..=REFUSALS).filter(|&refusal| self.refused(refusal) == 0) {
            complaints.push(format!("refusal {refusal} was never met"));
        }
        if self.seconds.contains(&0) || self.ends.contains(&0) {
            complaints.push("no second sheet, or sum, of some sort was ever met".to_string());
        }
        if self.wrapped == 0 || self.levels == 0 || self.slopes == 0 {
            complaints.push("wrapper, levels or filled slopes were never met".to_string());
        }
        if self.limited.contains(&0) {
            complaints.push("no level was ever raised, or none lowered, by zones".to_string());
        }
        if self.lists.contains(&0) {
            complaints.push("no list of some count of pieces was ever met".to_string());
        }
        for (name, _) in ROUNDED.iter().zip(self.ties).filter(|(_, ties)| ties.contains(&0)) {
            complaints.push(format!("no tie of some sign was ever met: {name}"));
        }
        if self.inputs.iter().sum::<u64>() < LEAST_INPUTS {
            complaints.push(format!("fewer than {LEAST_INPUTS} inputs of the program reach"));
        }
        for refusal in REACH_REFUSALS.into_iter().filter(|&refusal| self.inputs[refusal] == 0) {
            complaints.push(format!("refusal {refusal} of the program reach was never met"));
        }
        if self.touched.contains(&0) {
            complaints.push("no node of some sort was ever met by the program reach".to_string());
        }
        if self.kept_nans.contains(&0) {
            complaints.push("no NaN of some kind was ever kept".to_string());
        }
        complaints
    }

    /// All counts.
    pub fn print(&self, seconds: f64) {
        self.print_table();
        let (calls, wrapped) = (self.call_count(), self.wrapped);
        println!("calls: {calls}, of them through the safe wrapper: {wrapped}");
        let pieces: u64 = self.lists.iter().zip(TOUCHING).map(|(n, count)| n * count as u64).sum();
        let lists: u64 = self.lists.iter().sum();
        // A list has three numbers for each piece, and their count.
        let bends = 3 * pieces + lists;
        let written = self.values + self.levels + self.slopes + self.sums + self.zoned + bends;
        println!("single numbers compared: {}", calls + written);
        println!("  of them levels in runs: {}, slopes filled: {}", self.levels, self.slopes);
        let [lowered, raised] = self.limited;
        println!("  zoned levels: {}, of them lowered: {lowered}, raised: {raised}", self.zoned);
        let [lowest, highest] = self.ends;
        println!("  sums in pools: {}, of them -4095: {lowest}, 4095: {highest}", self.sums);
        let [one, two, four, eight] = self.lists;
        println!("lists of bends: {lists}, of {pieces} pieces in all");
        println!("  from one piece: {one}, two: {two}, four: {four}, eight: {eight}");
        for (name, [below, above]) in ROUNDED.iter().zip(self.ties) {
            println!("ties met, {name}: {above} positive, {below} negative");
        }
        let [signalling, quiet] = self.kept_nans;
        println!("NaN kept in arrays: {quiet} quiet, {signalling} signalling");
        let [corners, edges, inside] = self.touched;
        let inputs: u64 = self.inputs.iter().sum();
        println!("inputs of the program reach: {inputs}");
        println!("  nodes at corners of the mesh: {corners}, on edges: {edges}, inside: {inside}");
        println!("differences: {}", self.differences);
        println!("seconds: {seconds:.1}");
    }

    /// Sheets and calls by refusal, 0 where accepted: those that are for every call in columns, a
    /// call's own behind them.
    fn print_table(&self) {
        let numbers: String = (0..=SHEET_REFUSALS).map(|number| format!(" {number:>8}")).collect();
        println!("{:<14}{:>9}{numbers}", "by refusal", "all");
        println!("{}", row("sheets", &self.sheets));
        println!("{}", row("second sheets", &self.seconds));
        for (name, counts) in NAMES.iter().zip(&self.calls) {
            println!("{}", row(name, counts));
        }
        println!("{}", row("reach", &self.inputs));
    }

    fn refused(&self, refusal: usize) -> u64 {
        self.calls.iter().map(|counts| counts[refusal]).sum()
    }
}

/// A row of the table.
fn row(name: &str, counts: &[u64]) -> String {
    let all: u64 = counts.iter().sum();
    let (columns, own) = counts.split_at(SHEET_REFUSALS + 1);
    let columns: String = columns.iter().map(|count| format!(" {count:>8}")).collect();
    let own = (SHEET_REFUSALS + 1..).zip(own).filter(|(_, &count)| count > 0);
    let own: String = own.map(|(refusal, count)| format!("   {refusal}: {count}")).collect();
    format!("{name:<14}{all:>9}{columns}{own}")
}

/// The number of a sheet's refusal, 0 where it is accepted.
fn refusal(sheet: &Result<Sheet, u32>) -> usize {
    sheet.as_ref().err().map_or(0, |&refusal| refusal as usize)
}
