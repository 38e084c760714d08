//! Counts allocations of both sides: Rust's in its global allocator, ours in the three functions
//! that the static library calls. Only the build with the feature `count` has this, so that
//! counting costs no measured time.

use std::alloc::{GlobalAlloc, Layout, System};
use std::ffi::c_void;

unsafe extern "C" {
    fn malloc(n: usize) -> *mut c_void;
    fn realloc(p: *mut c_void, n: usize) -> *mut c_void;
    fn free(p: *mut c_void);
    fn malloc_usable_size(p: *mut c_void) -> usize;
}

/// The allocations since the last reset.
#[derive(Clone, Copy, Default)]
pub struct Asked {
    pub requests: usize,
    pub live: usize,
    pub peak: usize,
}

static mut ASKED: Asked = Asked { requests: 0, live: 0, peak: 0 };

/// Resets the counts.
pub fn begin() {
    unsafe { ASKED = Asked::default() }
}

pub fn asked() -> Asked {
    unsafe { ASKED }
}

unsafe fn got(p: *mut c_void) {
    unsafe {
        ASKED.requests += 1;
        if !p.is_null() {
            ASKED.live = ASKED.live.wrapping_add(malloc_usable_size(p));
            ASKED.peak = ASKED.peak.max(ASKED.live);
        }
    }
}

unsafe fn gone(p: *mut c_void) {
    unsafe { ASKED.live = ASKED.live.wrapping_sub(malloc_usable_size(p)) }
}

unsafe fn counted_malloc(n: usize) -> *mut c_void {
    unsafe {
        let p = malloc(n);
        got(p);
        p
    }
}

unsafe fn counted_realloc(p: *mut c_void, n: usize) -> *mut c_void {
    unsafe {
        gone(p);
        let p = realloc(p, n);
        got(p);
        p
    }
}

unsafe fn counted_free(p: *mut c_void) {
    unsafe {
        gone(p);
        free(p);
    }
}

struct Counted;

unsafe impl GlobalAlloc for Counted {
    unsafe fn alloc(&self, layout: Layout) -> *mut u8 {
        if layout.align() > 16 {
            return unsafe { System.alloc(layout) };
        }
        unsafe { counted_malloc(layout.size()).cast() }
    }

    unsafe fn dealloc(&self, p: *mut u8, layout: Layout) {
        if layout.align() > 16 {
            return unsafe { System.dealloc(p, layout) };
        }
        unsafe { counted_free(p.cast()) }
    }

    unsafe fn realloc(&self, p: *mut u8, layout: Layout, n: usize) -> *mut u8 {
        if layout.align() > 16 {
            return unsafe { System.realloc(p, layout, n) };
        }
        unsafe { counted_realloc(p.cast(), n).cast() }
    }
}

#[global_allocator]
static COUNTED: Counted = Counted;

/// As the toolchain's function: whether there is memory, and where.
#[repr(C)]
pub struct Tried {
    ok: u8,
    p: *mut c_void,
}

static mut NOTHING: u128 = 0;

fn tried(p: *mut c_void) -> Tried {
    let ok = !p.is_null();
    Tried { ok: ok as u8, p: if ok { p } else { (&raw mut NOTHING).cast() } }
}

#[unsafe(no_mangle)]
pub extern "C" fn rattle_alloc(n: usize, a: usize) -> Tried {
    unsafe { tried(counted_malloc(if n == 0 { a } else { n })) }
}

#[unsafe(no_mangle)]
pub extern "C" fn rattle_realloc(p: *mut c_void, _kept: usize, n: usize, a: usize) -> Tried {
    unsafe {
        if p.is_null() {
            return tried(counted_malloc(if n == 0 { a } else { n }));
        }
        tried(counted_realloc(p, if n == 0 { a } else { n }))
    }
}

#[unsafe(no_mangle)]
pub extern "C" fn rattle_dealloc(p: *mut c_void) {
    unsafe { counted_free(p) }
}
