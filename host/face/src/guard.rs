//! Rooms of memory between two pages that may not be touched (Linux on x86-64): what lies at a border of its
//! room cannot be read or written past that border without a fault.

use std::ffi::{c_int, c_void};
use std::io;
use std::ptr::{self, NonNull};

const PAGE: usize = 4096;
/// Bytes of a room, more than any drawn buffer has.
const SIZE: usize = 256 * PAGE;

const PROT_NONE: c_int = 0;
const PROT_READ_WRITE: c_int = 1 | 2;
const MAP_PRIVATE_ANONYMOUS: c_int = 0x02 | 0x20;

unsafe extern "C" {
    fn mmap(
        address: *mut c_void,
        length: usize,
        protection: c_int,
        flags: c_int,
        file: c_int,
        offset: i64,
    ) -> *mut c_void;
    fn mprotect(address: *mut c_void, length: usize, protection: c_int) -> c_int;
}

/// The border that a buffer lies at.
#[derive(Clone, Copy, PartialEq, Eq, Debug)]
pub enum Border {
    Start,
    End,
}

/// A room is there as long as the program runs.
pub struct Room<T> {
    start: NonNull<T>,
}

impl<T: Copy> Room<T> {
    pub fn new() -> io::Result<Room<T>> {
        // SAFETY: a new mapping, at a place that the system chooses.
        let base = unsafe {
            let length = SIZE + 2 * PAGE;
            mmap(
                ptr::null_mut(),
                length,
                PROT_NONE,
                MAP_PRIVATE_ANONYMOUS,
                -1,
                0,
            )
        };
        // The address of all ones says that there is none.
        if base.addr() == usize::MAX {
            return Err(io::Error::last_os_error());
        }
        // SAFETY: all but the first and the last page of the mapping above.
        let (start, opened) = unsafe {
            let start = base.byte_add(PAGE);
            (start, mprotect(start, SIZE, PROT_READ_WRITE) == 0)
        };
        match NonNull::new(start.cast()) {
            Some(start) if opened => Ok(Room { start }),
            _ => Err(io::Error::last_os_error()),
        }
    }

    /// A copy of `content` at a border of the room.
    pub fn lend(&mut self, content: &[T], border: Border) -> &mut [T] {
        let length = size_of_val(content);
        assert!(length <= SIZE, "a drawn buffer is larger than its room");
        let offset = match border {
            Border::Start => 0,
            Border::End => SIZE - length,
        };
        // SAFETY: `length` bytes from `offset` on lie in the room, are aligned because page and length are,
        // and hold what was copied there; the borrow of the room lasts as long as the slice.
        unsafe {
            let first = self.start.byte_add(offset).as_ptr();
            ptr::copy_nonoverlapping(content.as_ptr(), first, content.len());
            std::slice::from_raw_parts_mut(first, content.len())
        }
    }
}
