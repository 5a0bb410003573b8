//! The program `reach`, as it is built, beside the independent implementation, on many inputs.

use std::env;
use std::io::{ErrorKind, Write};
use std::path::PathBuf;
use std::process::{Command, Output, Stdio};

use crate::bench::bytes_text;
use crate::boundaries;
use crate::damage;
use crate::draft::Draft;
use crate::meshes;
use crate::random::Random;
use crate::reach::{self, MOST_READ};
use crate::requests::Input;
use crate::tally::Tally;

/// Names the program.
const VARIABLE: &str = "LIGHT_SHEET_REACH";
const BUILT: &str = "../target/bin/program_reach";

const SHEETS: usize = 1_000;
const DAMAGED_SHEETS: usize = 400;
const CUT_INPUTS: usize = 150;
const LONG_INPUTS: usize = 150;
/// Of what is printed wrongly this much is shown.
const SHOWN: usize = 200;

pub struct Program {
    path: PathBuf,
}

impl Program {
    /// The program that the variable names, else the one that is built; both seen from this package.
    /// If it is not there, this says how to build it.
    pub fn found() -> Option<Program> {
        let named = env::var_os(VARIABLE).map_or(PathBuf::from(BUILT), PathBuf::from);
        let path = PathBuf::from(env!("CARGO_MANIFEST_DIR")).join(named);
        if !path.is_file() {
            println!(
                "{} is not there: build it with `tools/build program_reach` at the repository's top, \
                 or name it by {VARIABLE}.",
                path.display()
            );
            return None;
        }
        Some(Program { path })
    }

    /// Every case of its request.
    pub fn run_cases(&self, tally: &mut Tally, inputs: &[Input]) {
        for input in inputs {
            self.compare(tally, &input.name, &input.bytes);
        }
    }

    /// Inputs drawn from a seed.
    pub fn run_drawn(&self, tally: &mut Tally, seed: u64) {
        let random = &mut Random::new(seed);
        for boundary in boundaries::all(random) {
            // Its sheets have three columns and four rows, as far as they are accepted.
            let node = random.pick(&[[0, 0], [2, 3], [1, 2], [3, 0], [0, 4]]);
            let name = format!("seed {seed}, boundary {}, node {node:?}", boundary.name);
            self.compare(tally, &name, &[boundary.bytes, node.to_vec()].concat());
        }
        for k in 0..SHEETS {
            let input = any_input(random);
            self.compare(tally, &format!("seed {seed}, sheet {k}"), &input);
        }
        for k in 0..DAMAGED_SHEETS {
            let draft = meshes::any(random);
            let (damage, mut bytes) = damage::damaged(random, &draft);
            bytes.extend(any_node(random, &draft));
            self.compare(tally, &format!("seed {seed}, damaged sheet {k}: {damage}"), &bytes);
        }
        for k in 0..CUT_INPUTS {
            let input = any_input(random);
            let most = random.pick(&[12, input.len()]);
            let kept = random.index(most);
            self.compare(tally, &format!("seed {seed}, cut input {k}"), &input[..kept]);
        }
        for k in 0..LONG_INPUTS {
            let input = long_input(random);
            self.compare(tally, &format!("seed {seed}, long input {k}"), &input);
        }
    }

    /// Runs the program: it prints the line, writes nothing on standard error, and ends well.
    fn compare(&self, tally: &mut Tally, name: &str, input: &[u8]) {
        let found = reach::of_input(input);
        let expected = reach::printed(&found);
        let output = self.run(input);
        tally.count_reach(&found);
        let is_expected = output.stdout == expected.as_bytes() && output.stderr.is_empty();
        if is_expected && output.status.code() == Some(0) {
            return;
        }
        if let Some(number) = tally.count_difference() {
            let [printed, errors] = [&output.stdout, &output.stderr]
                .map(|text| String::from_utf8_lossy(&text[..text.len().min(SHOWN)]).into_owned());
            println!(
                "difference {number}: reach\n  input: {name} {}\n  expected: {expected:?}\n  \
                 got: {printed:?}, on standard error {errors:?}, {}",
                bytes_text(input),
                output.status
            );
        }
    }

    fn run(&self, input: &[u8]) -> Output {
        let mut command = Command::new(&self.path);
        command.stdin(Stdio::piped()).stdout(Stdio::piped()).stderr(Stdio::piped());
        let mut child = command.spawn().expect("the program starts");
        let mut standard_input = child.stdin.take().expect("a pipe");
        // It may end before all is written: of a long input it leaves a part unread.
        if let Err(error) = standard_input.write_all(input) {
            assert_eq!(error.kind(), ErrorKind::BrokenPipe, "{error}");
        }
        drop(standard_input);
        child.wait_with_output().expect("the program ends")
    }
}

/// A sheet that is accepted, large at times, and a node.
fn any_input(random: &mut Random) -> Vec<u8> {
    let draft = if random.once_in(8) { meshes::large(random) } else { meshes::any(random) };
    let mut input = draft.bytes();
    input.extend(any_node(random, &draft));
    input
}

/// A column and a row: the first, the last, the middle one, any; at times one behind the last.
fn any_node(random: &mut Random, draft: &Draft) -> [u8; 2] {
    [draft.x_lines.len(), draft.y_lines.len()].map(|count| {
        if random.once_in(8) {
            return random.pick(&[count, count + 1, count + 128, 255]) as u8;
        }
        let any = random.index(count);
        random.pick(&[0, any, any, count / 2, count - 1]) as u8
    })
}

/// One that is longer than it should be: by a few bytes, or up to the most that are read and beyond.
fn long_input(random: &mut Random) -> Vec<u8> {
    let longest = random.once_in(2);
    let draft = if longest { meshes::longest(random) } else { meshes::any(random) };
    let mut input = draft.bytes();
    let few = random.index(6);
    let many = random.index(2 * MOST_READ);
    let more = random.pick(&[few, few, many]);
    input.extend(random.bytes(more));
    input.extend(any_node(random, &draft));
    input
}
