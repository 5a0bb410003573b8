//! The vectors of 02's requests: a case a line, from an exact implementation that is a third one.

use std::fs;
use std::path::PathBuf;

use crate::call::{Call, Outcome, Written};

/// The files, and how many cases each has.
const FILES: [(&str, usize); 5] = [
    ("101-slopes.txt", 140),
    ("102-bends.txt", 140),
    ("104-pool.txt", 140),
    ("105-reach.txt", 140),
    ("106-zones.txt", 140),
];
/// The last request that has landed: cases that hold until it, or until an earlier one, do not.
const LANDED: u32 = 106;

/// What is asked of calls, and of the program `reach`.
#[derive(Default)]
pub struct Requests {
    pub cases: Vec<Case>,
    pub inputs: Vec<Input>,
}

/// A call on a sheet, and what it comes to.
pub struct Case {
    pub name: String,
    pub sheet: Vec<u8>,
    /// The second sheet of a pool; else no bytes.
    pub second: Vec<u8>,
    /// The zones of a zoned call; else no bytes.
    pub zones: Vec<u8>,
    pub call: Call,
    /// The number that it returns and what it has written, as they stand in the line.
    pub answer: String,
}

/// An input of the program `reach`, and what it comes to.
pub struct Input {
    pub name: String,
    pub bytes: Vec<u8>,
    /// The number and what is printed, as they stand in the line.
    pub answer: String,
}

/// All that hold now. The tests cannot do without.
pub fn all() -> Requests {
    let folder = PathBuf::from(env!("CARGO_MANIFEST_DIR")).join("../tests/vectors/requests");
    let entries = fs::read_dir(&folder).expect("the requests' vectors");
    let texts =
        entries.filter(|entry| entry.as_ref().unwrap().path().extension().unwrap() == "txt");
    assert_eq!(texts.count(), FILES.len(), "every file of the folder is listed here");
    let mut requests = Requests::default();
    for (file, count) in FILES {
        let text = fs::read_to_string(folder.join(file)).expect(file);
        assert_eq!(text.lines().count(), count, "the cases of {file}");
        for (k, line) in (1..).zip(text.lines()) {
            requests.add(format!("{file}, line {k}"), line);
        }
    }
    requests
}

impl Requests {
    /// A line: the call or the program, its arguments, an arrow, the number, what is written; `until`
    /// and a request.
    fn add(&mut self, name: String, line: &str) {
        let (line, until) = line.split_once(" until ").unwrap_or((line, "4294967295"));
        if until.parse::<u32>().expect("a request") <= LANDED {
            return;
        }
        let (called, answer) = line.split_once(" -> ").expect("an arrow");
        let answer = answer.to_string();
        match called.strip_prefix("reach ") {
            Some(input) => self.inputs.push(Input { name, bytes: bytes(input), answer }),
            None => self.cases.push(case(name, called, answer)),
        }
    }
}

fn case(name: String, called: &str, answer: String) -> Case {
    let words: Vec<&str> = called.split(' ').collect();
    let pixel = |words: [&str; 2]| words.map(|word| word.parse().expect("a pixel"));
    let (sheet, second, zones, call) = match words[..] {
        ["fill_slopes", sheet, stiffness] => {
            let stiffness = stiffness.parse().expect("a stiffness");
            (sheet, "-", "-", Call::FillSlopes { stiffness })
        }
        ["bends", sheet, x, y, places] => {
            let [x, y] = pixel([x, y]);
            (sheet, "-", "-", Call::Bends { x, y, places: places.parse().expect("places") })
        }
        ["pool", first, second, target] => {
            (first, second, "-", Call::Pool { target: target.parse().expect("a length") })
        }
        ["zoned_level", sheet, zones, x, y] => {
            let [x, y] = pixel([x, y]);
            (sheet, "-", zones, Call::ZonedLevel { x, y })
        }
        ["fill_zoned_run", sheet, zones, x, y, count] => {
            let [x, y] = pixel([x, y]);
            (sheet, "-", zones, Call::FillZonedRun { x, y, count: count.parse().expect("places") })
        }
        _ => panic!("{name}: not a call"),
    };
    let [sheet, second, zones] = [sheet, second, zones].map(bytes);
    Case { name, sheet, second, zones, call, answer }
}

/// What a call comes to on this sheet, as a line has it behind the arrow.
pub fn answer(sheet: &[u8], outcome: &Outcome) -> String {
    let number = outcome.returned;
    match &outcome.written {
        Written::Nothing => number.to_string(),
        Written::Nodes { offset, bytes } => {
            let mut left = sheet.to_vec();
            left[*offset..*offset + bytes.len()].copy_from_slice(bytes);
            format!("{number} {}", digits(&left))
        }
        Written::Target(bytes) => format!("{number} {}", digits(bytes)),
        Written::Bends(bends) => {
            let numbers: String = bends.iter().map(|bend| format!(" {bend}")).collect();
            format!("{number} {}{numbers}", bends.len() / 3)
        }
        Written::Level(level) => format!("{number} {level}"),
        Written::Levels(levels) => {
            let levels: String = levels.iter().map(|level| format!(" {level}")).collect();
            format!("{number}{levels}")
        }
        written => panic!("no case writes {written:?}"),
    }
}

/// Bytes in hexadecimal.
pub fn digits(bytes: &[u8]) -> String {
    bytes.iter().map(|byte| format!("{byte:02x}")).collect()
}

/// Bytes from hexadecimal digits, `-` for none.
fn bytes(digits: &str) -> Vec<u8> {
    if digits == "-" {
        return Vec::new();
    }
    assert!(digits.len() % 2 == 0, "two digits a byte");
    let pairs = (0..digits.len()).step_by(2).map(|k| &digits[k..k + 2]);
    pairs.map(|pair| u8::from_str_radix(pair, 16).expect("hexadecimal digits")).collect()
}
