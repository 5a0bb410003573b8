//! Lent memory that is watched: on each side of it guard places, or a page no one may touch.
//!
//! Linux on x86-64 only: it makes the system's own calls.

use std::ffi::c_void;
use std::ptr;
use std::slice;

const NO_ACCESS: i32 = 0;
const READ: i32 = 1;
const READ_WRITE: i32 = 3;
/// Private, anonymous, and no memory set aside before it is touched.
const MAP_FLAGS: i32 = 0x02 | 0x20 | 0x4000;
const PAGE: usize = 4096;
/// Guard places, in bytes, on each side of what is lent.
const GUARD: usize = 64;

extern "C" {
    fn mmap(
        place: *mut c_void,
        len: usize,
        access: i32,
        flags: i32,
        file: i32,
        offset: i64,
    ) -> *mut c_void;
    fn mprotect(place: *mut c_void, len: usize, access: i32) -> i32;
}

/// Where the lent part lies in its pages.
#[derive(Clone, Copy, Debug)]
pub enum Place {
    /// Right behind a page no one may touch.
    First,
    /// Guard places on both sides, this many bytes further on.
    Inside(usize),
    /// Right before a page no one may touch.
    Last,
}

impl Place {
    /// Each place in turn, the one inside at every multiple of `step` below eight.
    pub fn in_turn(turn: u64, step: usize) -> Place {
        match turn % 3 {
            0 => Place::First,
            1 => Place::Last,
            _ => Place::Inside((turn / 3 % 8) as usize / step * step),
        }
    }
}

/// Pages between two that no one may touch, a part of them lent, and what they should hold.
pub struct Lent {
    base: *mut u8,
    room: usize,
    /// What is watched: the lent part and its guards.
    window: usize,
    /// How far into what is watched the lent part starts.
    guard: usize,
    len: usize,
    image: Vec<u8>,
    writable: bool,
}

impl Lent {
    /// Pages to lend up to `most` bytes from.
    pub fn new(most: usize) -> Lent {
        let room = (most + 4 * GUARD).next_multiple_of(PAGE);
        let base = reserve(room + 2 * PAGE, NO_ACCESS).wrapping_add(PAGE);
        let mut lent =
            Lent { base, room, window: 0, guard: 0, len: 0, image: Vec::new(), writable: false };
        lent.allow_writing(true);
        lent
    }

    /// Lends this many bytes. They and their guards hold a byte that changes from turn to turn.
    pub fn lend(&mut self, len: usize, place: Place, turn: u64) {
        let start = match place {
            Place::First => 0,
            Place::Inside(further) => GUARD + further,
            Place::Last => self.room - len,
        };
        self.window = start.saturating_sub(GUARD);
        self.guard = start - self.window;
        self.len = len;
        let watched = (start + len + GUARD).min(self.room) - self.window;
        // Neither 0 nor 255: no level and no reading is made of any other byte alone.
        let filler = 1 + (turn % 254) as u8;
        self.image.clear();
        self.image.resize(watched, filler);
        self.restore();
    }

    /// Lends so many bytes as these, which they hold, at a multiple of `step`.
    pub fn lend_holding(&mut self, bytes: &[u8], step: usize, turn: u64) {
        self.lend(bytes.len(), Place::in_turn(turn, step), turn);
        self.expect(0, bytes);
        self.restore();
    }

    /// The lent part, for a call.
    pub fn pointer(&self) -> *mut u8 {
        self.base.wrapping_add(self.window + self.guard)
    }

    pub fn len(&self) -> usize {
        self.len
    }

    /// The lent part as it is now.
    pub fn bytes(&self) -> &[u8] {
        // SAFETY: the lent part lies inside the pages, which may be read and live on.
        unsafe { slice::from_raw_parts(self.pointer(), self.len) }
    }

    /// Writes down that the lent part should now hold this from `offset` on.
    pub fn expect(&mut self, offset: usize, bytes: &[u8]) {
        let start = self.guard + offset;
        self.image[start..start + bytes.len()].copy_from_slice(bytes);
    }

    /// What the lent part should hold.
    pub fn expected(&self) -> &[u8] {
        &self.image[self.guard..self.guard + self.len]
    }

    /// Whether what is watched holds what it should.
    pub fn is_as_expected(&self) -> bool {
        self.watched() == self.image
    }

    /// A line on where what is watched first differs from what it should hold, if it does.
    pub fn difference(&self, name: &str) -> Option<String> {
        let (seen, expected) = (self.watched(), &self.image[..]);
        let at = (0..seen.len()).find(|&k| seen[k] != expected[k])?;
        let shown = at / 8 * 8..seen.len().min(at / 8 * 8 + 24);
        Some(format!(
            "  the {name} differs first at byte {}: around it expected {:02x?}, got {:02x?}\n",
            at as isize - self.guard as isize,
            &expected[shown.clone()],
            &seen[shown]
        ))
    }

    /// Makes what is watched hold what it should. From now on the pages may be written.
    pub fn restore(&mut self) {
        self.allow_writing(true);
        let start = self.base.wrapping_add(self.window);
        // SAFETY: the image is as long as what is watched, which lies inside the pages.
        unsafe { ptr::copy_nonoverlapping(self.image.as_ptr(), start, self.image.len()) };
    }

    /// Lets the pages be written, or only read.
    pub fn allow_writing(&mut self, allowed: bool) {
        if allowed == self.writable {
            return;
        }
        let access = if allowed { READ_WRITE } else { READ };
        // SAFETY: the pages are this value's own, and Rust holds no reference into them.
        let failed = unsafe { mprotect(self.base.cast(), self.room, access) };
        assert!(failed == 0, "the system does not change a page's access");
        self.writable = allowed;
    }

    fn watched(&self) -> &[u8] {
        // SAFETY: as for `bytes`.
        unsafe { slice::from_raw_parts(self.base.add(self.window), self.image.len()) }
    }
}

/// Memory that may be lent in any amount but not be touched.
pub fn untouchable(len: usize) -> *mut u8 {
    reserve(len, NO_ACCESS)
}

/// Memory of any length that holds these bytes and then only 0.
pub fn holding(bytes: &[u8], len: usize) -> *mut u8 {
    let place = reserve(len, READ_WRITE);
    // SAFETY: the memory is new and at least as long.
    unsafe { ptr::copy_nonoverlapping(bytes.as_ptr(), place, bytes.len().min(len)) };
    place
}

fn reserve(len: usize, access: i32) -> *mut u8 {
    // SAFETY: new pages, wherever the system likes.
    let place = unsafe { mmap(ptr::null_mut(), len, access, MAP_FLAGS, -1, 0) };
    assert!(place as isize != -1, "the system has no {len} bytes of address space");
    place.cast()
}
