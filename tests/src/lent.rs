//! Memory to lend to the library, with a page behind it that nobody may touch: a read or a write past the end of a lent
//! slice ends the process.

use std::ffi::c_void;

extern "C" {
    fn mmap(at: *mut c_void, length: usize, protection: i32, flags: i32, file: i32, offset: i64) -> *mut c_void;
    fn mprotect(at: *mut c_void, length: usize, protection: i32) -> i32;
}

const PAGE: usize = 4096;
const NO_ACCESS: i32 = 0;
const READ_AND_WRITE: i32 = 3;
const PRIVATE_AND_ANONYMOUS: i32 = 0x22;

/// A region that is never given back.
pub struct Lent {
    start: *mut u8,
    length: usize,
}

impl Lent {
    /// Room for slices of up to this many bytes.
    pub fn new(most: usize) -> Lent {
        let length = most.next_multiple_of(PAGE);
        // SAFETY: a fresh mapping, of which the last page is closed before anyone uses it.
        unsafe {
            let start = mmap(std::ptr::null_mut(), length + PAGE, READ_AND_WRITE, PRIVATE_AND_ANONYMOUS, -1, 0);
            assert!(start as isize != -1, "no memory");
            assert!(mprotect(start.add(length), PAGE, NO_ACCESS) == 0, "no guard page");
            Lent { start: start as *mut u8, length }
        }
    }

    /// The last bytes of the region, right before the closed page.
    pub fn last(&mut self, length: usize) -> &mut [u8] {
        assert!(length <= self.length);
        // SAFETY: within the open part of the mapping, and borrowed as long as the region is.
        unsafe { std::slice::from_raw_parts_mut(self.start.add(self.length - length), length) }
    }

    /// The last bytes of the region, holding a copy of these.
    pub fn holding(&mut self, bytes: &[u8]) -> &mut [u8] {
        let slice = self.last(bytes.len());
        slice.copy_from_slice(bytes);
        slice
    }
}
