//! Light levelling for a cinema screen: a safe Rust face on the verified light sheet module.
//!
//! A sheet gives a height and two slopes at each node of a rectangular mesh over the screen.
//! Between the nodes runs the smooth surface of NISTIR 6718, the Sibson element.
//! From it a server reads the light to add or take away at each pixel.
//!
//! Every function works on memory the caller lends, keeps nothing and shares nothing,
//! so any number of threads may read the same sheet at once.
//! x runs to the right and y down, both in whole pixels; columns and rows count from 0.
//!
//! ```
//! # fn main() -> Result<(), light_sheet::Refusal> {
//! // Lines 0 and 2 both ways; the left top node is one step high, all else is 0.
//! let mut sheet = [0; 40];
//! sheet[..8].copy_from_slice(b"LVS\x01\x00\x02\x02\x00");
//! sheet[10] = 2;
//! sheet[14] = 2;
//! sheet[16] = 1;
//! light_sheet::check(&sheet)?;
//!
//! // A quarter step in the middle, falling to the right and downwards.
//! assert_eq!(light_sheet::level(&sheet, 1, 1)?, 0.25);
//! assert_eq!(light_sheet::tilt(&sheet, 1, 1)?, [-0.375, -0.375]);
//! assert_eq!(light_sheet::bend(&sheet, 1, 1)?, [0.0, 0.75, 0.0]);
//!
//! // In a cell of four pixels each way, where that node has but a slope, the bends jump on the
//! // diagonal: from the top piece they are others than from the left one.
//! let mut sloped = sheet;
//! (sloped[10], sloped[14]) = (4, 4);
//! let slope = light_sheet::Node { height: 0, x_slope: 64, y_slope: 0 };
//! light_sheet::set_node(&mut sloped, 0, 0, slope)?;
//! let mut list = [0; light_sheet::BEND_PLACES];
//! assert_eq!(light_sheet::bends(&sloped, 1, 1, &mut list)?, 2);
//! assert_eq!(list[..6], [-2560, 256, -768, -1792, -512, 0]);
//!
//! // The top row, in grains.
//! let mut levels = [0; 3];
//! light_sheet::fill_run(&sheet, 0, 0, &mut levels)?;
//! assert_eq!(levels, [64, 32, 0]);
//!
//! // A node set to new numbers reads back as those numbers.
//! let node = light_sheet::Node { height: 3, x_slope: -2, y_slope: 0 };
//! light_sheet::set_node(&mut sheet, 1, 0, node)?;
//! assert_eq!(light_sheet::node_numbers(&sheet, 1, 0)?, node);
//! assert_eq!(light_sheet::level(&sheet, 2, 0)?, 3.0);
//!
//! // Slopes from the heights alone: from 1 to 3 steps in two pixels is 64 grains per pixel.
//! light_sheet::fill_slopes(&mut sheet, 64)?;
//! assert_eq!(light_sheet::tilt(&sheet, 0, 0)?, [1.0, -0.5]);
//! assert_eq!(light_sheet::level(&sheet, 1, 0)?, 2.0);
//!
//! // The lamp sees the sum of screen, lens and port glass, which have a sheet each: here the lens
//! // takes a step away at the left top node, and the glass adds four.
//! let (mut lens, mut glass) = (sheet, sheet);
//! lens[16..].fill(0);
//! glass[16..].fill(0);
//! light_sheet::set_node(&mut lens, 0, 0, light_sheet::Node { height: -1, ..Default::default() })?;
//! light_sheet::set_node(&mut glass, 0, 0, light_sheet::Node { height: 4, ..Default::default() })?;
//! let (mut both, mut all) = ([0; 40], [0; 40]);
//! light_sheet::pool(&lens, &glass, &mut both)?;
//! light_sheet::pool(&sheet, &both, &mut all)?;
//! assert_eq!(light_sheet::level(&all, 0, 0)?, 4.0);
//! assert_eq!(light_sheet::level(&all, 2, 0)?, 3.0);
//!
//! // Subtitles need a floor of light: here three steps over the lower rows, and the highest ceiling there is.
//! let (floor, ceiling) = (3, 4095);
//! let subtitles = light_sheet::Zone { left: 0, top: 1, right: 2, bottom: 2, floor, ceiling };
//! let zones = subtitles.to_bytes();
//! assert_eq!(light_sheet::zoned_level(&sheet, &zones, 0, 0)?, 64);
//! light_sheet::fill_zoned_run(&sheet, &zones, 0, 2, &mut levels)?;
//! assert_eq!(levels, [192; 3]);
//!
//! assert_eq!(light_sheet::level(&sheet, 3, 0), Err(light_sheet::Refusal::Pixel));
//! # Ok(())
//! # }
//! ```

#![deny(missing_docs)]

pub mod ffi;
mod refusal;

pub use refusal::Refusal;

/// Grains in a step: runs, zoned levels and slopes are in grains; heights, levels and the limits of
/// zones in steps.
pub const GRAINS_PER_STEP: i32 = 64;

/// Places that [`bends`] asks for: at most eight pieces touch a pixel, three numbers each.
pub const BEND_PLACES: usize = 24;

/// Bytes of a zone.
pub const ZONE_SIZE: usize = 12;
/// The most zones that a list can have.
pub const MAX_ZONES: usize = 16;

/// Reading kind 0: the level.
pub const LEVEL: u32 = 0;
/// Reading kind 1: the tilt.
pub const TILT: u32 = 1;
/// Reading kind 2: the bend.
pub const BEND: u32 = 2;

/// The three numbers of a node.
#[derive(Clone, Copy, Debug, Default, PartialEq, Eq, Hash)]
pub struct Node {
    /// In steps of the 12-bit picture code, −4,095 to 4,095.
    pub height: i32,
    /// Rise to the right in grains per pixel, −4,095 to 4,095.
    pub x_slope: i32,
    /// Rise downwards in grains per pixel, −4,095 to 4,095.
    pub y_slope: i32,
}

/// What [`read`] hands back, by kind.
#[derive(Clone, Copy, Debug, PartialEq)]
pub enum Reading {
    /// Kind 0: the level in steps, as [`level`] gives it.
    Level(f64),
    /// Kind 1: the tilt, x then y, as [`tilt`] gives it.
    Tilt([f64; 2]),
    /// Kind 2: the bend, xx, xy, yy, as [`bend`] gives it.
    Bend([f64; 3]),
}

/// A zone of the screen, with a floor and a ceiling for the levels in it. It may lie off the mesh.
#[derive(Clone, Copy, Debug, Default, PartialEq, Eq, Hash)]
pub struct Zone {
    /// Its first column of pixels.
    pub left: u16,
    /// Its first row of pixels.
    pub top: u16,
    /// Its last column of pixels, not below `left`.
    pub right: u16,
    /// Its last row of pixels, not below `top`.
    pub bottom: u16,
    /// The least light, in steps, −4,095 to 4,095.
    pub floor: i16,
    /// The most light, in steps, not below `floor`, −4,095 to 4,095.
    pub ceiling: i16,
}

impl Zone {
    /// The zone as it stands in a list.
    pub fn to_bytes(self) -> [u8; ZONE_SIZE] {
        let [left, top] = [self.left, self.top].map(u16::to_le_bytes);
        let [right, bottom] = [self.right, self.bottom].map(u16::to_le_bytes);
        let [floor, ceiling] = [self.floor, self.ceiling].map(i16::to_le_bytes);
        let mut bytes = [0; ZONE_SIZE];
        bytes.copy_from_slice([left, top, right, bottom, floor, ceiling].as_flattened());
        bytes
    }
}

/// Checks a sheet: refusals 1 to 6. Every other call makes the same checks first.
pub fn check(sheet: &[u8]) -> Result<(), Refusal> {
    // SAFETY: the slice is lent for its whole length and only read.
    answer(unsafe { ffi::lvs_check(sheet.as_ptr(), sheet.len()) })
}

/// Finds a node: its six bytes inside the sheet, height, x-slope, y-slope, little-endian.
pub fn node(sheet: &[u8], column: u32, row: u32) -> Result<&[u8; 6], Refusal> {
    // SAFETY: the slice is lent for its whole length and only read.
    let start = unsafe { ffi::lvs_node_offset(sheet.as_ptr(), sheet.len(), column, row) };
    if start == 0 {
        // SAFETY: as above.
        answer(unsafe { ffi::lvs_node_refusal(sheet.as_ptr(), sheet.len(), column, row) })?;
    }
    let bytes = sheet[start..].first_chunk().filter(|_| start != 0);
    Ok(bytes.expect("the archive finds a node inside the sheet or refuses"))
}

/// Finds a node and gives its three numbers.
pub fn node_numbers(sheet: &[u8], column: u32, row: u32) -> Result<Node, Refusal> {
    let &[h0, h1, x0, x1, y0, y1] = node(sheet, column, row)?;
    Ok(Node {
        height: i16::from_le_bytes([h0, h1]).into(),
        x_slope: i16::from_le_bytes([x0, x1]).into(),
        y_slope: i16::from_le_bytes([y0, y1]).into(),
    })
}

/// Gives a node new numbers; the rest of the sheet stays as it is.
pub fn set_node(sheet: &mut [u8], column: u32, row: u32, node: Node) -> Result<(), Refusal> {
    let Node { height, x_slope, y_slope } = node;
    let (start, len) = (sheet.as_mut_ptr(), sheet.len());
    // SAFETY: the slice is lent for its whole length, to this call alone.
    answer(unsafe { ffi::lvs_set_node(start, len, column, row, height, x_slope, y_slope) })
}

/// Fills every slope from the heights; heights and lines stay as they are.
///
/// A node's x-slope becomes the stiffness, 0 to 64, times the rise in steps from the node before it
/// in its row to the one after it, divided by the pixels between their lines, rounded to the
/// nearest, a tie up. At the ends of a row the node itself stands in for the missing neighbour.
/// Along y it is alike.
pub fn fill_slopes(sheet: &mut [u8], stiffness: u32) -> Result<(), Refusal> {
    let (start, len) = (sheet.as_mut_ptr(), sheet.len());
    // SAFETY: the slice is lent for its whole length, to this call alone.
    answer(unsafe { ffi::lvs_fill_slopes(start, len, stiffness) })
}

/// Pools two sheets on the same lines into `target`, which must be as long as the first one.
///
/// It becomes a sheet with the first one's header and lines, each height and slope of which is the
/// sum of the two; it can be pooled again. What it held does not matter; refused, it keeps it.
pub fn pool(first: &[u8], second: &[u8], target: &mut [u8]) -> Result<(), Refusal> {
    let (start, len) = (target.as_mut_ptr(), target.len());
    // SAFETY: all three slices are lent for their whole length; `target` to this call alone.
    answer(unsafe {
        ffi::lvs_pool(first.as_ptr(), first.len(), second.as_ptr(), second.len(), start, len)
    })
}

/// The level at a pixel, in steps: a whole number of grains divided by 64.
pub fn level(sheet: &[u8], x: u32, y: u32) -> Result<f64, Refusal> {
    values(sheet, x, y, LEVEL).map(|[level, _, _]| level)
}

/// The tilt at a pixel, x then y, in steps per pixel: whole grains per pixel divided by 64.
pub fn tilt(sheet: &[u8], x: u32, y: u32) -> Result<[f64; 2], Refusal> {
    values(sheet, x, y, TILT).map(|[tilt_x, tilt_y, _]| [tilt_x, tilt_y])
}

/// The bend at a pixel, xx, xy, yy, in steps per pixel per pixel.
///
/// Each is a whole number of 1/64 grain per pixel per pixel divided by 4,096.
pub fn bend(sheet: &[u8], x: u32, y: u32) -> Result<[f64; 3], Refusal> {
    values(sheet, x, y, BEND)
}

/// Reads at a pixel by the number of the kind: [`LEVEL`], [`TILT`] or [`BEND`].
pub fn read(sheet: &[u8], x: u32, y: u32, kind: u32) -> Result<Reading, Refusal> {
    let values = values(sheet, x, y, kind)?;
    Ok(match kind {
        LEVEL => Reading::Level(values[0]),
        TILT => Reading::Tilt([values[0], values[1]]),
        BEND => Reading::Bend(values),
        _ => unreachable!("the archive accepted reading kind {kind}"),
    })
}

/// The bend from each piece that touches a pixel, as whole numbers; gives how many pieces do.
///
/// Bends jump where pieces meet: on the lines of the mesh and on the diagonals, which cut a cell
/// into four pieces, 0 top, 1 right, 2 bottom, 3 left. The list runs by cells, row by row, then by
/// pieces in order of number. Each has three numbers, xx, xy and yy, in 1/64 grain per pixel per
/// pixel. So the first `3 * pieces` places of `list` are written, and the others keep their
/// contents; there must be [`BEND_PLACES`] all the same.
///
/// What [`bend`] gives is the entry of the last cell's first piece, divided by 4,096.
pub fn bends(sheet: &[u8], x: u32, y: u32, list: &mut [i64]) -> Result<usize, Refusal> {
    let (bends, places) = (list.as_mut_ptr(), list.len());
    let mut pieces = 0;
    // SAFETY: both slices are lent for their whole length; `list` and `pieces` to this call alone.
    answer(unsafe {
        ffi::lvs_bends(sheet.as_ptr(), sheet.len(), x, y, bends, places, &mut pieces)
    })?;
    Ok(pieces as usize)
}

/// Fills `levels` along a row, one per pixel to the right from (x, y), in grains.
///
/// They are stored one by one, from left to right. Safe Rust shows nobody the slice meanwhile: to
/// let a monitor see the row grow, share its memory with another process, or make the bare call,
/// [`ffi::lvs_fill_run`], on shared memory.
pub fn fill_run(sheet: &[u8], x: u32, y: u32, levels: &mut [i32]) -> Result<(), Refusal> {
    let (places, count) = (levels.as_mut_ptr(), levels.len());
    // SAFETY: both slices are lent for their whole length; `levels` to this call alone.
    answer(unsafe { ffi::lvs_fill_run(sheet.as_ptr(), sheet.len(), x, y, places, count) })
}

/// The zoned level at a pixel, in grains: the level, as the zones that hold the pixel raise and
/// lower it.
///
/// `zones` is a list of up to [`MAX_ZONES`] zones, each as [`Zone::to_bytes`] gives it; it may be
/// empty. Each zone that holds the pixel, in the order of the list, raises the level to its floor
/// if it is below, then lowers it to its ceiling if it is above. Where zones lie over each other,
/// the last one that holds the pixel has its limits kept; the level may pass those of an earlier
/// one.
pub fn zoned_level(sheet: &[u8], zones: &[u8], x: u32, y: u32) -> Result<i32, Refusal> {
    let (start, len) = (zones.as_ptr(), zones.len());
    let mut level = 0;
    // SAFETY: both slices are lent for their whole length and only read; `level` to this call alone.
    answer(unsafe {
        ffi::lvs_zoned_level(sheet.as_ptr(), sheet.len(), start, len, x, y, &mut level)
    })?;
    Ok(level)
}

/// Fills `levels` along a row, one per pixel to the right from (x, y): each is what [`zoned_level`]
/// gives there.
///
/// The row grows by stretches, each of pixels that the same zones hold.
pub fn fill_zoned_run(
    sheet: &[u8],
    zones: &[u8],
    x: u32,
    y: u32,
    levels: &mut [i32],
) -> Result<(), Refusal> {
    let (start, len) = (zones.as_ptr(), zones.len());
    let (places, count) = (levels.as_mut_ptr(), levels.len());
    // SAFETY: all three slices are lent for their whole length; `levels` to this call alone.
    answer(unsafe {
        ffi::lvs_fill_zoned_run(sheet.as_ptr(), sheet.len(), start, len, x, y, places, count)
    })
}

/// The values of a reading; those beyond the kind's count are 0.
fn values(sheet: &[u8], x: u32, y: u32, kind: u32) -> Result<[f64; 3], Refusal> {
    let mut values = [0.0; 3];
    // SAFETY: the slice is lent for its whole length and only read; there are three places.
    answer(unsafe { ffi::lvs_read(sheet.as_ptr(), sheet.len(), x, y, kind, &mut values) })?;
    Ok(values)
}

/// What a call's number says. Another number can only come from an archive not made for this crate.
fn answer(number: u32) -> Result<(), Refusal> {
    match Refusal::from_number(number) {
        Some(refusal) => Err(refusal),
        None if number == 0 => Ok(()),
        None => panic!("the light sheet archive answered {number}, which is no refusal"),
    }
}

/// A node is borrowed from its sheet. Used after the sheet is dropped, it must not compile:
///
/// ```compile_fail,E0505
/// let sheet = vec![0; 40];
/// let node = light_sheet::node(&sheet, 0, 0);
/// drop(sheet);
/// assert_eq!(node, Err(light_sheet::Refusal::Mark));
/// ```
///
/// Used before, it does, so the order alone is at fault above:
///
/// ```
/// let sheet = vec![0; 40];
/// let node = light_sheet::node(&sheet, 0, 0);
/// assert_eq!(node, Err(light_sheet::Refusal::Mark));
/// drop(sheet);
/// ```
#[cfg(doctest)]
mod borrowing {}
