//! Memory to lend that stands between inaccessible pages: what is lent begins right after one, or
//! ends right before one, so that a read or write outside it ends the process. Linux on x86-64,
//! where a page has 4,096 bytes; the C library's functions are declared here, since std has none.

use std::os::raw::{c_int, c_long, c_void};
use std::ptr::null_mut;

extern "C" {
    fn mmap(
        at: *mut c_void,
        length: usize,
        access: c_int,
        flags: c_int,
        file: c_int,
        offset: c_long,
    ) -> *mut c_void;
    fn mprotect(at: *mut c_void, length: usize, access: c_int) -> c_int;
    fn munmap(at: *mut c_void, length: usize) -> c_int;
}

const NO_ACCESS: c_int = 0;
const READ: c_int = 1;
const READ_AND_WRITE: c_int = 3;
/// MAP_PRIVATE and MAP_ANONYMOUS.
const OWN_MEMORY: c_int = 0x22;
const PAGE: usize = 4096;

/// What the rest of the page is filled with, so that a write there shows.
const FILL: u8 = 0x5a;

/// Where the inaccessible page is, seen from the memory lent.
#[derive(Clone, Copy, Debug, PartialEq, Eq)]
pub enum Place {
    /// Right before: the memory begins where its page begins.
    AfterPage,
    /// Right after: the memory ends where its page ends.
    BeforePage,
}

impl Place {
    pub const BOTH: [Place; 2] = [Place::AfterPage, Place::BeforePage];
}

/// Bytes of any length, none included. Where the length is not one of whole pages, only the side of
/// `place` is inaccessible, and the other is filled.
pub struct Guarded {
    mapped: *mut u8,
    /// Bytes between the two inaccessible pages.
    room: usize,
    place: Place,
    length: usize,
}

impl Guarded {
    /// Zeros.
    pub fn new(length: usize, place: Place) -> Guarded {
        let room = (length + PAGE - 1) / PAGE * PAGE;
        // SAFETY: new memory of the process's own.
        let mapped = unsafe {
            let mapped = mmap(null_mut(), room + 2 * PAGE, NO_ACCESS, OWN_MEMORY, -1, 0);
            assert!(mapped as isize != -1, "mmap");
            mapped as *mut u8
        };
        let mut guarded = Guarded { mapped, room, place, length };
        guarded.set_access(READ_AND_WRITE);
        guarded.set_length(length);
        guarded.bytes_mut().fill(0);
        guarded
    }

    /// A copy of these bytes.
    pub fn of(bytes: &[u8], place: Place) -> Guarded {
        let mut guarded = Guarded::new(bytes.len(), place);
        guarded.bytes_mut().copy_from_slice(bytes);
        guarded
    }

    /// Another length within the same pages; all bytes of the pages are filled.
    pub fn set_length(&mut self, length: usize) {
        assert!(length <= self.room);
        self.length = length;
        // SAFETY: the room is accessible.
        unsafe { std::ptr::write_bytes(self.mapped.add(PAGE), FILL, self.room) };
    }

    /// Other bytes, of another length too.
    pub fn put(&mut self, bytes: &[u8]) {
        self.set_length(bytes.len());
        self.bytes_mut().copy_from_slice(bytes);
    }

    fn set_access(&mut self, access: c_int) {
        if self.room > 0 {
            // SAFETY: pages of this mapping.
            let failed =
                unsafe { mprotect(self.mapped.add(PAGE) as *mut c_void, self.room, access) };
            assert!(failed == 0, "mprotect");
        }
    }

    /// From here on a write ends the process.
    pub fn forbid_writing(&mut self) {
        self.set_access(READ);
    }

    pub fn allow_writing(&mut self) {
        self.set_access(READ_AND_WRITE);
    }

    /// Never null; with a length of 0 it points at the edge of an inaccessible page.
    pub fn pointer(&self) -> *mut u8 {
        let offset = match self.place {
            Place::AfterPage => 0,
            Place::BeforePage => self.room - self.length,
        };
        // SAFETY: within the mapping.
        unsafe { self.mapped.add(PAGE + offset) }
    }

    pub fn bytes(&self) -> &[u8] {
        // SAFETY: accessible, initialized, and borrowed with self.
        unsafe { std::slice::from_raw_parts(self.pointer(), self.length) }
    }

    pub fn bytes_mut(&mut self) -> &mut [u8] {
        // SAFETY: as in `bytes`, and borrowed alone.
        unsafe { std::slice::from_raw_parts_mut(self.pointer(), self.length) }
    }

    /// Nothing was written beside the bytes, in the rest of their pages.
    pub fn rest_untouched(&self) -> bool {
        // SAFETY: the room is accessible and initialized.
        let room = unsafe { std::slice::from_raw_parts(self.mapped.add(PAGE), self.room) };
        let rest = match self.place {
            Place::AfterPage => &room[self.length..],
            Place::BeforePage => &room[..self.room - self.length],
        };
        rest.chunks(PAGE).all(|part| part == &[FILL; PAGE][..part.len()])
    }
}

impl Drop for Guarded {
    fn drop(&mut self) {
        // SAFETY: the whole of this mapping, and nobody borrows it any more.
        unsafe { munmap(self.mapped as *mut c_void, self.room + 2 * PAGE) };
    }
}

/// Numbers to be filled by a call. They are aligned as C demands, since a page's ends are.
pub struct GuardedNumbers(Guarded);

impl GuardedNumbers {
    pub fn new(count: usize, place: Place) -> GuardedNumbers {
        GuardedNumbers(Guarded::new(8 * count, place))
    }

    pub fn of(numbers: &[u64], place: Place) -> GuardedNumbers {
        let bytes: Vec<u8> = numbers.iter().flat_map(|number| number.to_ne_bytes()).collect();
        GuardedNumbers(Guarded::of(&bytes, place))
    }

    /// Another count within the same pages.
    pub fn set_count(&mut self, count: usize) {
        self.0.set_length(8 * count);
    }

    pub fn pointer(&self) -> *mut u64 {
        self.0.pointer() as *mut u64
    }

    pub fn numbers(&self) -> &[u64] {
        // SAFETY: accessible, initialized, aligned, and borrowed with self.
        unsafe { std::slice::from_raw_parts(self.pointer(), self.0.length / 8) }
    }

    pub fn rest_untouched(&self) -> bool {
        self.0.rest_untouched()
    }
}
