//! Sheets on both sides of every condition, with the refusal that the format's description gives.

use crate::draft::Draft;
use crate::random::Random;
use crate::sheet::{HEADER, NODE_BYTES};

/// A sheet, its name, and its refusal, 0 where it is accepted.
pub struct Boundary {
    pub name: String,
    pub bytes: Vec<u8>,
    pub refusal: u32,
}

pub fn all(random: &mut Random) -> Vec<Boundary> {
    let base = base(random);
    let mut boundaries = headers(&base);
    boundaries.extend(counts());
    boundaries.extend(lengths(&base));
    boundaries.extend(lines(&base));
    boundaries.extend(numbers(&base));
    boundaries.extend(combinations(&base));
    boundaries
}

/// A small sheet with random numbers.
pub fn base(random: &mut Random) -> Draft {
    let mut draft = Draft::flat(&[3, 7, 9], &[0, 5, 6, 12]);
    for number in draft.nodes.iter_mut().flatten() {
        *number = random.between(-4095, 4095) as i16;
    }
    draft
}

fn boundary(name: impl Into<String>, bytes: Vec<u8>, refusal: u32) -> Boundary {
    Boundary { name: name.into(), bytes, refusal }
}

/// A change to a sheet's bytes.
fn with(base: &Draft, changes: &[(usize, u8)]) -> Vec<u8> {
    let mut bytes = base.bytes();
    for &(place, byte) in changes {
        bytes[place] = byte;
    }
    bytes
}

fn headers(base: &Draft) -> Vec<Boundary> {
    let mut found = vec![boundary("untouched", base.bytes(), 0)];
    for (place, letter) in b"LVS".iter().enumerate() {
        for byte in [letter + 1, letter - 1, letter ^ 0x20, letter ^ 0x80, 0] {
            found.push(boundary(
                format!("byte {place} is {byte}"),
                with(base, &[(place, byte)]),
                1,
            ));
        }
    }
    for version in [0, 2, 3, 255, 256, 257, 513, 32769, 65535u16] {
        let [low, high] = version.to_le_bytes();
        found.push(boundary(format!("version {version}"), with(base, &[(3, low), (4, high)]), 2));
    }
    for byte in [1, 2, 128, 255] {
        found.push(boundary(format!("byte 7 is {byte}"), with(base, &[(7, byte)]), 3));
    }
    for count in [0, 1, 66, 67, 128, 255] {
        found.push(boundary(format!("{count} columns said"), with(base, &[(5, count)]), 3));
        found.push(boundary(format!("{count} rows said"), with(base, &[(6, count)]), 3));
    }
    for count in [2, 4, 65] {
        found.push(boundary(format!("{count} columns said of 3"), with(base, &[(5, count)]), 4));
    }
    found.push(boundary("columns and rows exchanged", with(base, &[(5, 4), (6, 3)]), 5));
    found
}

/// Sheets that are whole but for their counts of lines.
fn counts() -> Vec<Boundary> {
    let lines = |count: u16| (0..count).collect::<Vec<u16>>();
    let mut found = Vec::new();
    for (count, refusal) in
        [(0, 3), (1, 3), (2, 0), (3, 0), (64, 0), (65, 0), (66, 3), (67, 3), (255, 3)]
    {
        let columns = Draft::flat(&lines(count), &lines(2)).bytes();
        let rows = Draft::flat(&lines(2), &lines(count)).bytes();
        found.push(boundary(format!("{count} columns"), columns, refusal));
        found.push(boundary(format!("{count} rows"), rows, refusal));
    }
    found.push(boundary("65 by 65", Draft::flat(&lines(65), &lines(65)).bytes(), 0));
    found
}

fn lengths(base: &Draft) -> Vec<Boundary> {
    let whole = base.bytes();
    let mut found = Vec::new();
    for len in 0..=HEADER + 3 {
        let refusal = if len < HEADER { 1 } else { 4 };
        found.push(boundary(format!("{len} bytes"), whole[..len].to_vec(), refusal));
    }
    for missing in 1..=NODE_BYTES + 1 {
        let cut = whole[..whole.len() - missing].to_vec();
        found.push(boundary(format!("{missing} bytes missing"), cut, 4));
    }
    for more in [1, 2, NODE_BYTES, 256, 4096, 25_618, 25_619, 30_000] {
        let long = [whole.clone(), vec![0; more]].concat();
        found.push(boundary(format!("{more} bytes too many"), long, 4));
    }
    found
}

fn lines(base: &Draft) -> Vec<Boundary> {
    let cases: [(&[u16], u32); 21] = [
        (&[0, 64], 0),
        (&[0, 65], 5),
        (&[0, 0], 5),
        (&[1, 0], 5),
        (&[64, 0], 5),
        (&[0, 256], 5),
        (&[0, 1, 65], 0),
        (&[0, 1, 66], 5),
        (&[0, 1, 1], 5),
        (&[0, 64, 63], 5),
        (&[0, 2, 1, 3], 5),
        (&[5, 3, 4], 5),
        (&[4032, 4096], 0),
        (&[4033, 4097], 5),
        (&[4095, 4096], 0),
        (&[4096, 4097], 5),
        (&[4090, 4096, 4160], 5),
        (&[65471, 65535], 5),
        (&[65535, 0], 5),
        (&[65534, 65535, 0, 1], 5),
        (&[32767, 32768], 5),
    ];
    let mut found = Vec::new();
    for (lines, refusal) in cases {
        let columns = Draft::flat(lines, &base.y_lines).bytes();
        let rows = Draft::flat(&base.x_lines, lines).bytes();
        found.push(boundary(format!("x-lines {lines:?}"), columns, refusal));
        found.push(boundary(format!("y-lines {lines:?}"), rows, refusal));
    }
    found
}

/// Each number of the first, of a middle and of the last node.
fn numbers(base: &Draft) -> Vec<Boundary> {
    let cases =
        [(4095, 0), (-4095, 0), (4096, 6), (-4096, 6), (32767, 6), (-32768, 6), (8191, 6), (-1, 0)];
    let last = base.nodes.len() - 1;
    let mut found = Vec::new();
    for (node, place) in
        [0, 5, last].into_iter().flat_map(|node| [0, 1, 2].map(|place| (node, place)))
    {
        for (number, refusal) in cases {
            let mut draft = base.clone();
            draft.nodes[node][place] = number;
            found.push(boundary(
                format!("node {node} place {place} is {number}"),
                draft.bytes(),
                refusal,
            ));
        }
    }
    found
}

/// Every set of conditions at once: the first of them refuses.
fn combinations(base: &Draft) -> Vec<Boundary> {
    let mut found = Vec::new();
    for set in 1u32..64 {
        let holds = |condition: u32| set & (1 << (condition - 1)) != 0;
        let mut bytes = base.bytes();
        for condition in (1..=6).rev().filter(|&condition| holds(condition)) {
            make_hold(&mut bytes, condition);
        }
        let refusal = set.trailing_zeros() + 1;
        let conditions: Vec<u32> = (1..=6).filter(|&condition| holds(condition)).collect();
        found.push(boundary(format!("conditions {conditions:?}"), bytes, refusal));
    }
    found
}

/// Changes an accepted sheet so that a condition of 1 to 6 holds.
pub fn make_hold(bytes: &mut Vec<u8>, condition: u32) {
    let last = bytes.len() - 1;
    match condition {
        1 => bytes[0] = b'l',
        2 => bytes[3] = 2,
        3 => bytes[7] = 1,
        4 => bytes.push(0),
        5 => bytes[HEADER + 1] = 0xff,
        _ => bytes[last] = 0x70,
    }
}
