//! nom 7.1.1's `count` reserves room for the whole count, up to 2^32 - 1 elements. Large requests
//! are mapped without reserve, so that the Rust lives to see that the bytes run out.

use std::alloc::{GlobalAlloc, Layout, System};
use std::ffi::c_void;
use std::ptr::null_mut;
use std::sync::atomic::{AtomicU64, Ordering};

const LARGE: usize = 4 << 20;
const HUGE: usize = 1 << 30;

const PROT_READ_WRITE: i32 = 1 | 2;
const MAP_PRIVATE_ANONYMOUS_NORESERVE: i32 = 0x02 | 0x20 | 0x4000;

extern "C" {
    fn mmap(at: *mut c_void, len: usize, prot: i32, flags: i32, fd: i32, from: i64) -> *mut c_void;
    fn munmap(at: *mut c_void, len: usize) -> i32;
}

static HUGE_REQUESTS: AtomicU64 = AtomicU64::new(0);

/// How many requests of at least 1 GiB there were so far.
pub fn huge_requests() -> u64 {
    HUGE_REQUESTS.load(Ordering::Relaxed)
}

struct Lazy;

#[global_allocator]
static ALLOCATOR: Lazy = Lazy;

// SAFETY: a request goes to `mmap` or to `System` by its size alone, and back the same way. Pages
// are aligned for every layout that is asked for here.
unsafe impl GlobalAlloc for Lazy {
    unsafe fn alloc(&self, layout: Layout) -> *mut u8 {
        if layout.size() < LARGE {
            return System.alloc(layout);
        }
        if layout.size() >= HUGE {
            HUGE_REQUESTS.fetch_add(1, Ordering::Relaxed);
        }
        let flags = MAP_PRIVATE_ANONYMOUS_NORESERVE;
        let at = mmap(null_mut(), layout.size(), PROT_READ_WRITE, flags, -1, 0);
        if at as isize == -1 {
            null_mut()
        } else {
            at.cast()
        }
    }

    unsafe fn dealloc(&self, at: *mut u8, layout: Layout) {
        if layout.size() < LARGE {
            System.dealloc(at, layout);
        } else {
            munmap(at.cast(), layout.size());
        }
    }

    unsafe fn realloc(&self, at: *mut u8, layout: Layout, new_size: usize) -> *mut u8 {
        if layout.size() < LARGE && new_size < LARGE {
            return System.realloc(at, layout, new_size);
        }
        let moved = self.alloc(Layout::from_size_align_unchecked(new_size, layout.align()));
        if !moved.is_null() {
            std::ptr::copy_nonoverlapping(at, moved, layout.size().min(new_size));
            self.dealloc(at, layout);
        }
        moved
    }
}
