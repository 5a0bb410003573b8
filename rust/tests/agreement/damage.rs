//! Damaged sheets: accepted ones that were hurt at random, and bytes that never were a sheet.

use crate::draft::Draft;
use crate::random::Random;
use crate::sheet::HEADER;

/// A sheet with one kind of damage. Some are still accepted.
pub fn damaged(random: &mut Random, draft: &Draft) -> (&'static str, Vec<u8>) {
    let bytes = draft.bytes();
    match random.index(9) {
        0 => ("random bytes", any_bytes(random, 200)),
        1 => ("a good header and random bytes", good_header(random, &bytes)),
        2 => ("cut short", bytes[..random.index(bytes.len())].to_vec()),
        3 => ("extended", [bytes, any_bytes(random, 40)].concat()),
        4 => ("bytes of the header changed", changed(random, bytes, HEADER)),
        5 => ("a line moved", line_moved(random, draft)),
        6 => ("a number changed", number_changed(random, draft)),
        7 => ("a bit turned", bit_turned(random, bytes)),
        _ => ("bytes changed", changed(random, bytes, usize::MAX)),
    }
}

fn any_bytes(random: &mut Random, most: usize) -> Vec<u8> {
    (0..=random.index(most)).map(|_| random.byte()).collect()
}

fn good_header(random: &mut Random, bytes: &[u8]) -> Vec<u8> {
    let body = (HEADER..bytes.len()).map(|_| random.byte());
    bytes[..HEADER].iter().copied().chain(body).collect()
}

/// One to three of the first bytes changed.
fn changed(random: &mut Random, mut bytes: Vec<u8>, first: usize) -> Vec<u8> {
    for _ in 0..random.between(1, 3) {
        let place = random.index(first.min(bytes.len()));
        bytes[place] = random.byte();
    }
    bytes
}

fn bit_turned(random: &mut Random, mut bytes: Vec<u8>) -> Vec<u8> {
    let place = random.index(bytes.len());
    bytes[place] ^= 1 << random.index(8);
    bytes
}

fn line_moved(random: &mut Random, draft: &Draft) -> Vec<u8> {
    let mut draft = draft.clone();
    let lines = if random.once_in(2) { &mut draft.x_lines } else { &mut draft.y_lines };
    let line = random.index(lines.len());
    let near = lines[line].wrapping_add_signed(random.between(-66, 66) as i16);
    lines[line] = random.pick(&[near, near, near, 0, 4096, 4097, 65535]);
    draft.bytes()
}

fn number_changed(random: &mut Random, draft: &Draft) -> Vec<u8> {
    let mut draft = draft.clone();
    let node = random.index(draft.nodes.len());
    draft.nodes[node][random.index(3)] =
        random.pick(&[-32768, -4097, -4096, -4095, 4095, 4096, 4097, 32767]);
    draft.bytes()
}
