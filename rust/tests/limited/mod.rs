//! An allocator that runs out of memory: each thread may allocate only a given number of further
//! blocks.
#![allow(dead_code)]

use std::alloc::{GlobalAlloc, Layout, System};
use std::cell::Cell;

struct Limited;

thread_local! {
    static LEFT: Cell<usize> = const { Cell::new(usize::MAX) };
}

/// Counts one more block, and returns `true` if the thread may still allocate it.
fn take() -> bool {
    LEFT.with(|left| match left.get() {
        0 => false,
        usize::MAX => true,
        some => {
            left.set(some - 1);
            true
        }
    })
}

// SAFETY: each call is passed on to the system's allocator, or refused.
unsafe impl GlobalAlloc for Limited {
    unsafe fn alloc(&self, layout: Layout) -> *mut u8 {
        match take() {
            true => unsafe { System.alloc(layout) },
            false => std::ptr::null_mut(),
        }
    }

    unsafe fn dealloc(&self, block: *mut u8, layout: Layout) {
        LEFT.with(|left| left.set(left.get().saturating_add(1)));
        unsafe { System.dealloc(block, layout) }
    }

    unsafe fn realloc(&self, block: *mut u8, layout: Layout, length: usize) -> *mut u8 {
        match LEFT.with(Cell::get) {
            0 => std::ptr::null_mut(),
            _ => unsafe { System.realloc(block, layout, length) },
        }
    }
}

#[global_allocator]
static MEMORY: Limited = Limited;

/// Makes a call that may allocate at most this many blocks.
pub fn within<T>(blocks: usize, call: impl FnOnce() -> T) -> T {
    LEFT.with(|left| left.set(blocks));
    let result = call();
    LEFT.with(|left| left.set(usize::MAX));
    result
}
