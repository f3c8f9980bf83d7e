//! Memory from the system: pages that are guarded, pages that are given back, and long parts that cost
//! little.

use fetulombo::LIMIT;
use std::ffi::{c_char, c_int, c_uint, c_void};
use std::fs::File;
use std::io::Write;
use std::ops::{Deref, DerefMut};
use std::os::fd::{AsRawFd, FromRawFd};

unsafe extern "C" {
    fn mmap(
        at: *mut c_void,
        length: usize,
        access: c_int,
        flags: c_int,
        file: c_int,
        offset: i64,
    ) -> *mut c_void;
    fn munmap(at: *mut c_void, length: usize) -> c_int;
    fn mprotect(at: *mut c_void, length: usize, access: c_int) -> c_int;
    fn madvise(at: *mut c_void, length: usize, advice: c_int) -> c_int;
    fn memfd_create(name: *const c_char, flags: c_uint) -> c_int;
}

const NO_ACCESS: c_int = 0;
const READ_AND_WRITE: c_int = 3;

/// Flags of a mapping: a page that is written becomes a copy, and none is reserved before.
const PRIVATE: c_int = 0x4002;
const OF_NO_FILE: c_int = 0x20;
const AT_THIS_PLACE: c_int = 0x10;

/// A multiple of the page's size on any machine that this runs on.
pub const PAGE: usize = 1 << 16;

/// So many bytes of address space, without access.
pub fn reserved(length: usize) -> *mut u8 {
    // Safety: fresh memory.
    let all = unsafe {
        let flags = PRIVATE | OF_NO_FILE;
        mmap(std::ptr::null_mut(), length, NO_ACCESS, flags, -1, 0)
    };
    assert_ne!(all as isize, -1, "{length} bytes of memory cannot be had");
    all.cast()
}

/// Lets pages of what is reserved be read, as zeros, and written.
///
/// # Safety
/// They are reserved, and whole pages.
pub unsafe fn open(at: *mut u8, length: usize) {
    let opened = unsafe { mprotect(at.cast(), length, READ_AND_WRITE) };
    assert_eq!(opened, 0, "{length} bytes of memory cannot be had");
}

/// Gives pages back: they are as at first.
///
/// # Safety
/// They are whole pages that were opened, and nobody holds on to what was written there.
pub unsafe fn give_back(at: *mut u8, length: usize) {
    const DONT_NEED: c_int = 4;
    let given = unsafe { madvise(at.cast(), length, DONT_NEED) };
    assert_eq!(given, 0);
}

/// One byte more than the limit, all alike until some are changed. Its memory is one block that stands
/// there again and again, or none if all are 0, and the pages that were changed.
pub struct Long {
    start: *mut u8,
}

const BLOCK: usize = 1 << 21;
const SIZE: usize = (LIMIT + 1).next_multiple_of(BLOCK);

impl Long {
    pub fn of(byte: u8) -> Self {
        let start = reserved(SIZE);
        if byte == 0 {
            // Safety: it was just reserved.
            unsafe { open(start, SIZE) };
            return Long { start };
        }
        // Safety: the file is fresh, and each of its mappings lies in what was just reserved.
        unsafe {
            let file = memfd_create(c"long".as_ptr(), 0);
            assert!(file >= 0, "no file in memory can be had");
            let mut file = File::from_raw_fd(file);
            file.write_all(&vec![byte; BLOCK])
                .expect("a file in memory can be written");
            for at in (0..SIZE).step_by(BLOCK) {
                let at = start.add(at).cast();
                let flags = PRIVATE | AT_THIS_PLACE;
                let mapped = mmap(at, BLOCK, READ_AND_WRITE, flags, file.as_raw_fd(), 0);
                assert_eq!(mapped, at, "{SIZE} bytes of memory cannot be had");
            }
        }
        Long { start }
    }

    /// All bytes as at first, and no page in use.
    pub fn renew(&mut self) {
        // Safety: nobody else has a part of it.
        unsafe { give_back(self.start, SIZE) };
    }
}

impl Deref for Long {
    type Target = [u8];

    fn deref(&self) -> &[u8] {
        // Safety: so many bytes are mapped, and nobody but the owner changes them.
        unsafe { std::slice::from_raw_parts(self.start, LIMIT + 1) }
    }
}

impl DerefMut for Long {
    fn deref_mut(&mut self) -> &mut [u8] {
        // Safety: as above.
        unsafe { std::slice::from_raw_parts_mut(self.start, LIMIT + 1) }
    }
}

impl Drop for Long {
    fn drop(&mut self) {
        // Safety: nobody has a part of it any more.
        unsafe { munmap(self.start.cast(), SIZE) };
    }
}

/// The most memory that the program has had in use, in MiB.
pub fn peak() -> Option<usize> {
    let status = std::fs::read_to_string("/proc/self/status").ok()?;
    let line = status
        .lines()
        .find_map(|line| line.strip_prefix("VmHWM:"))?;
    let kib: usize = line.trim().strip_suffix(" kB")?.parse().ok()?;
    Some(kib / 1024)
}
