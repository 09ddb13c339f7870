//! Memory that is lent to the library. Each buffer lies between guard bytes that must stay, and,
//! in two of three placements, against a page that may not be touched: there even a read past
//! the buffer's end stops the program.

use crate::rng::Rng;
use std::ffi::c_void;

unsafe extern "C" {
    fn mmap(addr: *mut c_void, len: usize, prot: i32, flags: i32, fd: i32, offset: i64) -> *mut c_void;
    fn mprotect(addr: *mut c_void, len: usize, prot: i32) -> i32;
    fn munmap(addr: *mut c_void, len: usize) -> i32;
}

const PROT_NONE: i32 = 0;
const PROT_READ_WRITE: i32 = 3;
const MAP_PRIVATE_ANONYMOUS: i32 = 0x22;

const PAGE: usize = 4096;
const SIZE: usize = 16 * PAGE;
const GUARD: u8 = 0xa5;
/// So many bytes on either side are looked at after each call; all of them from time to time.
const NEAR: usize = 128;

/// Memory for one lent buffer at a time, with an untouchable page on both sides.
pub struct GuardedMemory {
    start: *mut u8,
    at: usize,
    len: usize,
}

impl GuardedMemory {
    pub fn new() -> GuardedMemory {
        // SAFETY: a fresh mapping of our own, of which only the inner pages are made accessible.
        let start = unsafe {
            let map = mmap(std::ptr::null_mut(), SIZE + 2 * PAGE, PROT_NONE, MAP_PRIVATE_ANONYMOUS, -1, 0);
            assert!(map as isize != -1, "no memory for lent buffers");
            let start = map.cast::<u8>().add(PAGE);
            assert_eq!(mprotect(start.cast(), SIZE, PROT_READ_WRITE), 0, "no memory for lent buffers");
            start.write_bytes(GUARD, SIZE);
            start
        };
        GuardedMemory { start, at: 0, len: 0 }
    }

    fn all(&mut self) -> &mut [u8] {
        // SAFETY: SIZE accessible bytes that nothing else refers to; no call is under way.
        unsafe { std::slice::from_raw_parts_mut(self.start, SIZE) }
    }

    /// Puts a buffer's bytes somewhere in the memory. An `aligned` one serves as a number or a struct.
    pub fn place(&mut self, bytes: &[u8], aligned: bool, rng: &mut Rng) {
        assert!(bytes.len() + 2 * NEAR <= SIZE, "a lent buffer is larger than its memory");
        let choice = rng.next();
        self.len = bytes.len();
        self.at = match choice % 3 {
            0 => 0,
            1 => SIZE - self.len,
            _ if aligned => SIZE / 2,
            _ => NEAR + (choice / 3) as usize % 16,
        };
        let (at, len) = (self.at, self.len);
        self.all()[at..at + len].copy_from_slice(bytes);
    }

    pub fn pointer(&mut self) -> *mut u8 {
        // SAFETY: at is at most SIZE.
        unsafe { self.start.add(self.at) }
    }

    /// The buffer as the call left it. The guard bytes are then as before `place`.
    pub fn take(&mut self) -> Vec<u8> {
        let (at, len) = (self.at, self.len);
        let bytes = self.all()[at..at + len].to_vec();
        self.all()[at..at + len].fill(GUARD);
        bytes
    }

    /// Whether the guard bytes near the buffer that was taken last still stand.
    pub fn near_guards_stand(&mut self) -> bool {
        let from = self.at.saturating_sub(NEAR);
        let to = (self.at + self.len + NEAR).min(SIZE);
        let (before, after) = (from..self.at, self.at + self.len..to);
        let all = self.all();
        all[before].iter().chain(&all[after]).all(|&byte| byte == GUARD)
    }

    /// Whether every guard byte stands, and makes it stand again.
    pub fn all_guards_stand(&mut self) -> bool {
        let stand = self.all().iter().all(|&byte| byte == GUARD);
        self.all().fill(GUARD);
        stand
    }
}

impl Drop for GuardedMemory {
    fn drop(&mut self) {
        // SAFETY: the mapping that `new` made, to which nothing refers any more.
        unsafe { munmap(self.start.sub(PAGE).cast(), SIZE + 2 * PAGE) };
    }
}
