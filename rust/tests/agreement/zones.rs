//! Zones on the screen, by the words of 02, #106.

use crate::sheet::{in_bounds, GRAINS_PER_STEP};

/// "Zones of 12 bytes", "up to 16".
pub const ZONE_SIZE: usize = 12;
pub const MOST_BYTES: usize = 192;

/// "Left, top, right, bottom pixel …, inclusive", and "floor, ceiling", in steps.
#[derive(Clone, Copy, Debug)]
pub struct Zone {
    pub left: u16,
    pub top: u16,
    pub right: u16,
    pub bottom: u16,
    pub floor: i16,
    pub ceiling: i16,
}

/// The zones of a list, or the refusal: "18 when the list's length is not a multiple of 12 or exceeds
/// 192 …; 19 when a zone has left above right, top above bottom, floor above ceiling, or a limit
/// beyond ±4,095, after 18".
pub fn decode(list: &[u8]) -> Result<Vec<Zone>, u32> {
    if list.len() % ZONE_SIZE != 0 || list.len() > MOST_BYTES {
        return Err(18);
    }
    let zones: Vec<Zone> = list.chunks_exact(ZONE_SIZE).map(Zone::decode).collect();
    if zones.iter().all(Zone::is_valid) {
        Ok(zones)
    } else {
        Err(19)
    }
}

/// The list's bytes.
pub fn encode(zones: &[Zone]) -> Vec<u8> {
    zones.iter().flat_map(|zone| zone.bytes()).collect()
}

impl Zone {
    fn decode(bytes: &[u8]) -> Zone {
        let word = |k: usize| u16::from_le_bytes([bytes[2 * k], bytes[2 * k + 1]]);
        let [left, top, right, bottom] = [0, 1, 2, 3].map(word);
        let [floor, ceiling] = [4, 5].map(|k| word(k) as i16);
        Zone { left, top, right, bottom, floor, ceiling }
    }

    pub fn bytes(&self) -> Vec<u8> {
        let sides = [self.left, self.top, self.right, self.bottom].map(u16::to_le_bytes);
        let limits = [self.floor, self.ceiling].map(i16::to_le_bytes);
        [sides.as_flattened(), limits.as_flattened()].concat()
    }

    fn is_valid(&self) -> bool {
        let in_order =
            self.left <= self.right && self.top <= self.bottom && self.floor <= self.ceiling;
        in_order && [self.floor, self.ceiling].into_iter().all(|limit| in_bounds(limit.into()))
    }

    /// Whether the pixel is in it.
    pub fn holds(&self, x: u32, y: u32) -> bool {
        (u32::from(self.left)..=self.right.into()).contains(&x)
            && (u32::from(self.top)..=self.bottom.into()).contains(&y)
    }
}

/// "The zoned level starts as the level. Each zone holding the pixel, in list order, raises it to the
/// floor if below, then lowers it to the ceiling if above."
pub fn zoned(zones: &[Zone], x: u32, y: u32, mut level: i64) -> i64 {
    for zone in zones.iter().filter(|zone| zone.holds(x, y)) {
        let [floor, ceiling] =
            [zone.floor, zone.ceiling].map(|limit| GRAINS_PER_STEP as i64 * i64::from(limit));
        if level < floor {
            level = floor;
        }
        if level > ceiling {
            level = ceiling;
        }
    }
    level
}
