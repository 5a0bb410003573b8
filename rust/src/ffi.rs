//! The archive's eleven calls, bare, as its C header has them.
//!
//! Each gives 0 or the number of a refusal, but for [`lvs_node_offset`].
//! None keeps, allocates or shares anything.
//!
//! # Safety
//!
//! `sheet` must be fit to be read for `len` bytes (and to be written by [`lvs_set_node`] and
//! [`lvs_fill_slopes`]), `first` for `first_len`, `second` for `second_len` and `zones` for
//! `zones_len`. `target` must be fit to be written for `target_len` bytes, `values` for three
//! numbers, `levels` for `count`, `bends` for `places`, `pieces` and `level` for one.
//! Pointers are aligned for their type; with a length of 0 one is never followed and may be null.
//! Memory that a call may write is lent to it alone.

extern "C" {
    /// Checks a sheet.
    pub fn lvs_check(sheet: *const u8, len: usize) -> u32;

    /// Says whether a node would be found: 0, or the refusal.
    pub fn lvs_node_refusal(sheet: *const u8, len: usize, column: u32, row: u32) -> u32;

    /// Gives where a node's six bytes start in the sheet, or 0 where refused.
    pub fn lvs_node_offset(sheet: *const u8, len: usize, column: u32, row: u32) -> usize;

    /// Gives a node new numbers.
    pub fn lvs_set_node(
        sheet: *mut u8,
        len: usize,
        column: u32,
        row: u32,
        height: i32,
        x_slope: i32,
        y_slope: i32,
    ) -> u32;

    /// Fills every slope from the heights.
    pub fn lvs_fill_slopes(sheet: *mut u8, len: usize, stiffness: u32) -> u32;

    /// Pools two sheets on the same lines into a third buffer.
    pub fn lvs_pool(
        first: *const u8,
        first_len: usize,
        second: *const u8,
        second_len: usize,
        target: *mut u8,
        target_len: usize,
    ) -> u32;

    /// Reads at a pixel. Places of `values` beyond the kind's count keep their contents.
    pub fn lvs_read(
        sheet: *const u8,
        len: usize,
        x: u32,
        y: u32,
        kind: u32,
        values: *mut [f64; 3],
    ) -> u32;

    /// Gives the bend from each piece that touches a pixel, and how many do. Places of `bends` beyond
    /// the list keep their contents.
    pub fn lvs_bends(
        sheet: *const u8,
        len: usize,
        x: u32,
        y: u32,
        bends: *mut i64,
        places: usize,
        pieces: *mut u32,
    ) -> u32;

    /// Fills a run of levels, in grains, along a row.
    pub fn lvs_fill_run(
        sheet: *const u8,
        len: usize,
        x: u32,
        y: u32,
        levels: *mut i32,
        count: usize,
    ) -> u32;

    /// Gives the zoned level at a pixel, in grains.
    pub fn lvs_zoned_level(
        sheet: *const u8,
        len: usize,
        zones: *const u8,
        zones_len: usize,
        x: u32,
        y: u32,
        level: *mut i32,
    ) -> u32;

    /// Fills a run of zoned levels, in grains, along a row.
    pub fn lvs_fill_zoned_run(
        sheet: *const u8,
        len: usize,
        zones: *const u8,
        zones_len: usize,
        x: u32,
        y: u32,
        levels: *mut i32,
        count: usize,
    ) -> u32;
}
