//! Memory that ends where nobody may read on: one byte past the end of what is put there is a crash, not luck.

use std::ffi::c_void;

extern "C" {
    fn mmap(address: *mut c_void, length: usize, protection: i32, flags: i32, file: i32, offset: i64) -> *mut c_void;
    fn mprotect(address: *mut c_void, length: usize, protection: i32) -> i32;
}

const NONE: i32 = 0;
const READ_AND_WRITE: i32 = 3;
const PRIVATE_AND_ANONYMOUS: i32 = 0x22;
const PAGE: usize = 4096;
const ROOM: usize = 32 * PAGE;

/// Lasts as long as the program.
pub struct Edge {
    end: *mut u8,
}

impl Edge {
    pub fn new() -> Edge {
        unsafe {
            let start = mmap(std::ptr::null_mut(), ROOM + PAGE, READ_AND_WRITE, PRIVATE_AND_ANONYMOUS, -1, 0) as *mut u8;
            let end = start.wrapping_add(ROOM);
            assert!(start as isize != -1 && mprotect(end as *mut c_void, PAGE, NONE) == 0, "memory with an edge");
            Edge { end }
        }
    }

    /// A copy that ends at the edge.
    pub fn put<T: Copy>(&mut self, values: &[T]) -> &[T] {
        assert!(std::mem::size_of_val(values) <= ROOM);
        unsafe {
            let start = (self.end as *mut T).sub(values.len());
            std::ptr::copy_nonoverlapping(values.as_ptr(), start, values.len());
            std::slice::from_raw_parts(start, values.len())
        }
    }
}

impl Default for Edge {
    fn default() -> Edge {
        Edge::new()
    }
}
