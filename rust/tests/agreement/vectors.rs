//! The vectors: sheets and what they read, from an exact implementation that is a third one.

use std::fs;
use std::path::PathBuf;

use crate::call::Call;

/// A sheet of the vectors, and what is said of it.
pub struct Vector {
    pub name: String,
    pub bytes: Vec<u8>,
    /// What the program prints for it.
    pub printed: String,
    /// x, y, level, tilt x, tilt y, bend xx, xy, yy at every pixel, if it has them.
    pub readings: Option<String>,
    /// The calls on it, and the number each gives.
    pub calls: Vec<(Call, u32)>,
}

/// All of them, by name. The tests cannot do without.
pub fn all() -> Vec<Vector> {
    let folder = PathBuf::from(env!("CARGO_MANIFEST_DIR")).join("../tests/vectors");
    let calls = fs::read_to_string(folder.join("calls.txt")).expect("the vectors' calls");
    let mut paths: Vec<PathBuf> =
        fs::read_dir(&folder).expect("the vectors").map(|entry| entry.unwrap().path()).collect();
    paths.sort();
    let sheets = paths.iter().filter(|path| path.extension().is_some_and(|end| end == "lvs"));
    let vectors: Vec<Vector> = sheets.map(|path| vector(path, &calls)).collect();
    let lines: usize = vectors.iter().map(|vector| vector.calls.len()).sum();
    assert!(lines > 0 && lines == calls.lines().count(), "each call is on a sheet that is there");
    vectors
}

fn vector(path: &PathBuf, calls: &str) -> Vector {
    let name = path.file_stem().unwrap().to_str().unwrap().to_string();
    let calls =
        calls.lines().filter(|line| line.split(' ').nth(1) == Some(&name)).map(parse).collect();
    Vector {
        bytes: fs::read(path).unwrap(),
        printed: fs::read_to_string(path.with_extension("txt")).unwrap(),
        readings: fs::read_to_string(path.with_extension("readings.txt")).ok(),
        name,
        calls,
    }
}

/// A line of `calls.txt`: a name, the sheet's, the arguments, an arrow, the number.
fn parse(line: &str) -> (Call, u32) {
    let (call, refusal) = line.split_once(" -> ").expect("an arrow");
    let mut words = call.split(' ');
    let name = words.next().unwrap();
    let arguments: Vec<i64> = words.skip(1).map(|word| word.parse().unwrap()).collect();
    let call = match (name, arguments[..].as_ref()) {
        ("check", []) => Call::Check,
        ("node", &[column, row]) => Call::NodeRefusal { column: column as u32, row: row as u32 },
        ("set_node", &[column, row, height, x_slope, y_slope]) => Call::SetNode {
            column: column as u32,
            row: row as u32,
            numbers: [height as i32, x_slope as i32, y_slope as i32],
        },
        ("read", &[x, y, kind]) => Call::Read { x: x as u32, y: y as u32, kind: kind as u32 },
        ("fill_run", &[x, y, count]) => {
            Call::FillRun { x: x as u32, y: y as u32, count: count as usize }
        }
        _ => panic!("not a call: {line}"),
    };
    (call, refusal.parse().expect("a number"))
}
