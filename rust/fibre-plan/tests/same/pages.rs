//! Bytes that may only be read, and behind which nothing may be read: whoever tries is ended by the system.
use std::ffi::c_void;
use std::{ptr, slice};

/// The bytes of a page.
const PAGE: usize = 4096;

const MAY_READ: i32 = 1;
const MAY_WRITE: i32 = 2;
const PRIVATE_AND_ANONYMOUS: i32 = 0x22;

extern "C" {
    fn mmap(at: *mut c_void, len: usize, may: i32, flags: i32, file: i32, from: i64)
        -> *mut c_void;
    fn mprotect(at: *mut c_void, len: usize, may: i32) -> i32;
    fn munmap(at: *mut c_void, len: usize) -> i32;
}

/// A copy of some bytes, just before a page that may not be touched.
pub struct ReadOnly {
    pages: *mut c_void,
    readable: usize,
    len: usize,
}

impl ReadOnly {
    pub fn copy(bytes: &[u8]) -> Self {
        let readable = bytes.len().div_ceil(PAGE) * PAGE;
        // SAFETY: the pages are new, and the bytes fit before the last one, which nobody may touch.
        unsafe {
            let may = MAY_READ | MAY_WRITE;
            let len = readable + PAGE;
            let pages = mmap(ptr::null_mut(), len, may, PRIVATE_AND_ANONYMOUS, -1, 0);
            assert_ne!(pages as isize, -1, "no pages");
            let to = pages.cast::<u8>().add(readable - bytes.len());
            ptr::copy_nonoverlapping(bytes.as_ptr(), to, bytes.len());
            let behind = pages.cast::<u8>().add(readable).cast();
            let failed = [
                mprotect(pages, readable, MAY_READ),
                mprotect(behind, PAGE, 0),
            ];
            assert_eq!(failed, [0; 2], "the pages can still be written");
            Self {
                pages,
                readable,
                len: bytes.len(),
            }
        }
    }

    pub fn bytes(&self) -> &[u8] {
        // SAFETY: so many bytes were copied to the end of the pages that may be read, which stay as long as this value.
        unsafe {
            let from = self.pages.cast::<u8>().add(self.readable - self.len);
            slice::from_raw_parts(from, self.len)
        }
    }
}

impl Drop for ReadOnly {
    fn drop(&mut self) {
        // SAFETY: the pages are those of `copy`, and nothing of them is borrowed any more.
        let failed = unsafe { munmap(self.pages, self.readable + PAGE) };
        assert_eq!(failed, 0, "the pages cannot be given back");
    }
}
