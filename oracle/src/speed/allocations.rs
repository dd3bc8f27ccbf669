//! Counts heap allocations, in a program of its own: the count would add to what is measured.

use std::alloc::{GlobalAlloc, Layout, System};
use std::sync::atomic::{AtomicUsize, Ordering::Relaxed};

static MADE: AtomicUsize = AtomicUsize::new(0);

#[global_allocator]
static ALLOCATOR: Counting = Counting;

/// The system's allocator, and a count.
struct Counting;

unsafe impl GlobalAlloc for Counting {
    /// One more, and what the system gives.
    unsafe fn alloc(&self, layout: Layout) -> *mut u8 {
        MADE.fetch_add(1, Relaxed);
        System.alloc(layout)
    }

    /// What the system does.
    unsafe fn dealloc(&self, at: *mut u8, layout: Layout) {
        System.dealloc(at, layout)
    }

    /// One more, and what the system gives.
    unsafe fn realloc(&self, at: *mut u8, layout: Layout, size: usize) -> *mut u8 {
        MADE.fetch_add(1, Relaxed);
        System.realloc(at, layout, size)
    }
}

/// How many allocations a call makes, beside those for its operands.
pub fn of<A, R>(make: impl FnOnce() -> A, call: impl FnOnce(A) -> R) -> usize {
    let operands = make();
    let before = MADE.load(Relaxed);
    let answer = call(operands);
    let made = MADE.load(Relaxed) - before;
    drop(answer);
    made
}
