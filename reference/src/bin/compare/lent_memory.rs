//! Memory to lend to a call, directly before or behind a page that may not be touched.

use std::ffi::c_void;
use std::ptr;

extern "C" {
    fn getpagesize() -> i32;
    fn mmap(
        start: *mut c_void,
        length: usize,
        protection: i32,
        flags: i32,
        file: i32,
        offset: i64,
    ) -> *mut c_void;
    fn mprotect(start: *mut c_void, length: usize, protection: i32) -> i32;
}

const NO_ACCESS: i32 = 0;
const READ_AND_WRITE: i32 = 3;
const PRIVATE_ANONYMOUS: i32 = 0x22;

/// On which side the guard page lies.
#[derive(Clone, Copy, Debug)]
pub enum Guard {
    Behind,
    Before,
    /// Memory of no length is lent as a null pointer, other memory as with `Behind`.
    BehindOrNull,
}

pub struct LentMemory {
    room: *mut u8,
    room_len: usize,
    start: *mut u8,
    len: usize,
}

impl LentMemory {
    /// Room for at least `least` bytes, with a guard page on either side.
    pub fn new(least: usize) -> LentMemory {
        unsafe {
            let page = getpagesize() as usize;
            let room_len = least.next_multiple_of(page);
            let all = mmap(
                ptr::null_mut(),
                room_len + 2 * page,
                NO_ACCESS,
                PRIVATE_ANONYMOUS,
                -1,
                0,
            );
            assert!(all as isize != -1, "mmap refused");
            let room = all.cast::<u8>().add(page);
            assert_eq!(
                mprotect(room.cast(), room_len, READ_AND_WRITE),
                0,
                "mprotect refused"
            );
            LentMemory {
                room,
                room_len,
                start: room,
                len: 0,
            }
        }
    }

    /// Lends memory that holds `bytes`.
    pub fn lend(&mut self, bytes: &[u8], guard: Guard) {
        assert!(bytes.len() <= self.room_len);
        self.len = bytes.len();
        self.start = match guard {
            Guard::BehindOrNull if bytes.is_empty() => ptr::null_mut(),
            Guard::Before => self.room,
            Guard::Behind | Guard::BehindOrNull => unsafe {
                self.room.add(self.room_len - self.len)
            },
        };
        self.bytes_mut().copy_from_slice(bytes);
    }

    /// Start and length.
    pub fn part(&self) -> (*const u8, usize) {
        (self.start, self.len)
    }

    pub fn part_mut(&mut self) -> (*mut u8, usize) {
        (self.start, self.len)
    }

    pub fn bytes(&self) -> &[u8] {
        if self.len == 0 {
            return &[];
        }
        unsafe { std::slice::from_raw_parts(self.start, self.len) }
    }

    fn bytes_mut(&mut self) -> &mut [u8] {
        if self.len == 0 {
            return &mut [];
        }
        unsafe { std::slice::from_raw_parts_mut(self.start, self.len) }
    }
}
