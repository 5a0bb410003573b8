//! Bits that a slot of a reading's array may hold before a call: NaN of every kind, and others.

const SIGN: u64 = 1 << 63;
const EXPONENT: u64 = 0x7ff << 52;
const QUIET: u64 = 1 << 51;
const DIGITS: u64 = (1 << 52) - 1;

/// Bits for each slot, by a drawn number; six kinds in eight are NaN.
pub fn drawn(turn: u64) -> [u64; 3] {
    [0, 21, 42].map(|from| pattern(turn.rotate_right(from)))
}

fn pattern(drawn: u64) -> u64 {
    let (sign, digits) = (drawn & SIGN, drawn >> 4 & DIGITS);
    sign | match drawn % 8 {
        0 => EXPONENT | QUIET,
        1 => EXPONENT | QUIET | digits,
        2 => EXPONENT | DIGITS,
        3 => EXPONENT | 1,
        4 => EXPONENT | (digits & !QUIET).max(1),
        5 => EXPONENT | (QUIET - 1),
        // An infinity, a zero or a small number beside them.
        6 => EXPONENT,
        _ => digits >> (drawn >> 56 & 63),
    }
}

/// Which NaN the bits are, if they are one: 0 a signalling one, 1 a quiet one.
pub fn nan_kind(bits: u64) -> Option<usize> {
    f64::from_bits(bits).is_nan().then_some(usize::from(bits & QUIET != 0))
}
