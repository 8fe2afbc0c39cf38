//! Memory below 4 GiB between two unmapped pages: the Rust keeps addresses in 32 bits.

use core::ffi::c_void;

extern "C" {
    fn mmap(addr: *mut c_void, len: usize, prot: i32, flags: i32, fd: i32, offset: i64) -> *mut c_void;
    fn mprotect(addr: *mut c_void, len: usize, prot: i32) -> i32;
    fn munmap(addr: *mut c_void, len: usize) -> i32;
}

const PROT_NONE: i32 = 0;
const PROT_READ_WRITE: i32 = 3;
const MAP_PRIVATE: i32 = 0x02;
const MAP_ANONYMOUS: i32 = 0x20;
const MAP_32BIT: i32 = 0x40;
const PAGE: usize = 4096;

/// The largest slot buffer.
pub const ARENA: usize = 65_536;

pub struct Mapping {
    start: *mut u8,
    len: usize,
}

impl Mapping {
    /// `len` bytes (whole pages), zero, an unmapped page on either side.
    pub fn new(len: usize) -> Self {
        assert!(len % PAGE == 0);
        let all = len + 2 * PAGE;
        let flags = MAP_PRIVATE | MAP_ANONYMOUS | MAP_32BIT;
        // SAFETY: a fresh mapping
        let start = unsafe { mmap(core::ptr::null_mut(), all, PROT_NONE, flags, -1, 0) } as *mut u8;
        assert!(start as isize != -1 && start as usize + all < 1 << 32, "no memory below 4 GiB");
        // SAFETY: inside the mapping
        let r = unsafe { mprotect(start.add(PAGE) as *mut c_void, len, PROT_READ_WRITE) };
        assert!(r == 0);
        Self { start, len }
    }

    pub fn ptr(&self) -> *mut u8 {
        // SAFETY: inside the mapping
        unsafe { self.start.add(PAGE) }
    }

    pub fn end(&self) -> *mut u8 {
        // SAFETY: inside the mapping
        unsafe { self.start.add(PAGE + self.len) }
    }
}

impl Drop for Mapping {
    fn drop(&mut self) {
        // SAFETY: mapped by `new`
        unsafe { munmap(self.start as *mut c_void, self.len + 2 * PAGE) };
    }
}
