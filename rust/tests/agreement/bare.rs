//! The bare calls of the archive.

use light_sheet::ffi;

use crate::call::Call;

/// What is lent to a call.
pub struct Places {
    pub sheet: *mut u8,
    pub len: usize,
    pub second: *const u8,
    pub second_len: usize,
    pub target: *mut u8,
    pub zones: *const u8,
    pub zones_len: usize,
    pub values: *mut [f64; 3],
    pub row: *mut i32,
    pub bends: *mut i64,
    pub pieces: *mut u32,
    pub level: *mut i32,
}

/// Makes the call and gives what it returns.
///
/// # Safety
///
/// Both sheets and the zones are lent in their lengths, the target in the call's, the values for
/// three numbers, the row for the call's count, the bends for the call's places, the pieces and the
/// level for one number.
/// The sheet may be written if the call is there to write it.
pub unsafe fn make(call: &Call, places: &Places) -> usize {
    let Places { sheet, len, values, row: levels, bends, pieces, zones, zones_len, .. } = *places;
    // SAFETY: the caller vouches for what is lent.
    let number = unsafe {
        match *call {
            Call::Check => ffi::lvs_check(sheet, len),
            Call::NodeRefusal { column, row } => ffi::lvs_node_refusal(sheet, len, column, row),
            Call::NodeOffset { column, row } => {
                return ffi::lvs_node_offset(sheet, len, column, row);
            }
            Call::SetNode { column, row, numbers: [height, x_slope, y_slope] } => {
                ffi::lvs_set_node(sheet, len, column, row, height, x_slope, y_slope)
            }
            Call::FillSlopes { stiffness } => ffi::lvs_fill_slopes(sheet, len, stiffness),
            Call::Pool { target: target_len } => {
                let Places { second, second_len, target, .. } = *places;
                ffi::lvs_pool(sheet, len, second, second_len, target, target_len)
            }
            Call::Read { x, y, kind } => ffi::lvs_read(sheet, len, x, y, kind, values),
            Call::Bends { x, y, places } => ffi::lvs_bends(sheet, len, x, y, bends, places, pieces),
            Call::FillRun { x, y, count } => ffi::lvs_fill_run(sheet, len, x, y, levels, count),
            Call::ZonedLevel { x, y } => {
                ffi::lvs_zoned_level(sheet, len, zones, zones_len, x, y, places.level)
            }
            Call::FillZonedRun { x, y, count } => {
                ffi::lvs_fill_zoned_run(sheet, len, zones, zones_len, x, y, levels, count)
            }
        }
    };
    number as usize
}
