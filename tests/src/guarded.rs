//! A slice to lend to a C call, in a room between pages that can't be touched.
//!
//! At the edge of such a page any read or write outside the slice ends the run. On an open side
//! stand guard bytes: after the call the whole is compared, guards and content, so a byte written
//! outside the slice is seen as well as a wrong one inside.

use std::cell::RefCell;
use std::ffi::{c_int, c_void};
use std::ops::Range;
use std::{ptr, slice};

const GUARD: usize = 48;
/// The bytes of a room, more than any slice of these tests has.
const ROOM: usize = 1 << 24;
/// The bytes on either side of it that can't be touched: whole pages, of whatever size.
const FORBIDDEN: usize = 1 << 16;

/// Where in its room a slice stands.
#[derive(Clone, Copy, Debug)]
pub enum Place {
    /// It ends where a forbidden page begins.
    BeforePage,
    /// It begins where a forbidden page ends.
    AfterPage,
    /// It has guards on both sides, and is moved by a few bytes, so that it starts at odd
    /// addresses too.
    Shifted(usize),
}

impl Place {
    /// That of slice i of a call: each is shifted by another number of bytes.
    pub fn of_slice(self, i: usize) -> Place {
        match self {
            Place::Shifted(shift) => Place::Shifted(shift >> (4 * i)),
            at_page => at_page,
        }
    }
}

pub struct Guarded {
    room: *mut u8,
    start: usize,
    length: usize,
}

impl Guarded {
    /// A slice of this content.
    pub fn new(content: &[u8], place: Place) -> Guarded {
        let length = content.len();
        assert!(length + 2 * GUARD + 16 <= ROOM);
        let start = match place {
            Place::BeforePage => ROOM - length,
            Place::AfterPage => 0,
            Place::Shifted(shift) => GUARD + shift % 16,
        };
        let guarded = Guarded { room: take_room(), start, length };
        let whole = guarded.whole_with(content);
        // The whole is within the room, which no other slice has.
        unsafe { ptr::copy_nonoverlapping(whole.as_ptr(), guarded.at(guarded.whole_start()), whole.len()) };
        guarded
    }

    pub fn pointer_mut(&mut self) -> *mut u8 {
        self.at(self.start)
    }

    pub fn length(&self) -> usize {
        self.length
    }

    pub fn content(&self) -> &[u8] {
        self.bytes(self.start..self.end())
    }

    /// The guards and the content as they stand now.
    pub fn whole(&self) -> &[u8] {
        self.bytes(self.whole_start()..self.whole_end())
    }

    /// The guards as they were at first, around this content.
    pub fn whole_with(&self, content: &[u8]) -> Vec<u8> {
        let mut whole: Vec<u8> = (self.whole_start()..self.start).map(guard_byte).collect();
        whole.extend_from_slice(content);
        whole.extend((self.end()..self.whole_end()).map(guard_byte));
        whole
    }

    fn end(&self) -> usize {
        self.start + self.length
    }

    fn whole_start(&self) -> usize {
        self.start.saturating_sub(GUARD)
    }

    fn whole_end(&self) -> usize {
        (self.end() + GUARD).min(ROOM)
    }

    fn at(&self, i: usize) -> *mut u8 {
        self.room.wrapping_add(i)
    }

    fn bytes(&self, places: Range<usize>) -> &[u8] {
        // They are within the room, and only a C call writes there.
        unsafe { slice::from_raw_parts(self.at(places.start), places.len()) }
    }
}

impl Drop for Guarded {
    fn drop(&mut self) {
        FREE_ROOMS.with_borrow_mut(|rooms| rooms.push(self.room));
    }
}

/// Guards differ from byte to byte, so that a shifted copy is seen.
fn guard_byte(i: usize) -> u8 {
    0xa5 ^ (i as u8).wrapping_mul(29)
}

// ---- rooms

thread_local! {
    /// Rooms that were mapped and have no slice now.
    static FREE_ROOMS: RefCell<Vec<*mut u8>> = const { RefCell::new(Vec::new()) };
}

fn take_room() -> *mut u8 {
    FREE_ROOMS.with_borrow_mut(Vec::pop).unwrap_or_else(map_room)
}

extern "C" {
    fn mmap(
        address: *mut c_void,
        length: usize,
        protection: c_int,
        flags: c_int,
        file: c_int,
        offset: i64,
    ) -> *mut c_void;
    fn mprotect(address: *mut c_void, length: usize, protection: c_int) -> c_int;
}

/// As Linux numbers them.
const PROT_NONE: c_int = 0;
const PROT_READ_WRITE: c_int = 3;
const MAP_PRIVATE_ANONYMOUS: c_int = 0x22;

fn map_room() -> *mut u8 {
    let length = FORBIDDEN + ROOM + FORBIDDEN;
    // New pages that can't be touched, and then those in the middle can.
    unsafe {
        let pages = mmap(ptr::null_mut(), length, PROT_NONE, MAP_PRIVATE_ANONYMOUS, -1, 0);
        assert!(pages as isize != -1, "no memory");
        let room = pages.add(FORBIDDEN);
        assert_eq!(mprotect(room, ROOM, PROT_READ_WRITE), 0);
        room.cast()
    }
}
