//! Where memory runs out, the program ends with status 5, and nothing is written: the whole text is made
//! before any of it is.

use std::alloc::{GlobalAlloc, Layout, System};

struct Memory;

#[global_allocator]
static MEMORY: Memory = Memory;

// SAFETY: each call is the system's; a refusal ends the process.
unsafe impl GlobalAlloc for Memory {
    unsafe fn alloc(&self, layout: Layout) -> *mut u8 {
        given(System.alloc(layout))
    }
    unsafe fn alloc_zeroed(&self, layout: Layout) -> *mut u8 {
        given(System.alloc_zeroed(layout))
    }
    unsafe fn realloc(&self, old: *mut u8, layout: Layout, size: usize) -> *mut u8 {
        given(System.realloc(old, layout, size))
    }
    unsafe fn dealloc(&self, old: *mut u8, layout: Layout) {
        System.dealloc(old, layout);
    }
}

fn given(memory: *mut u8) -> *mut u8 {
    if memory.is_null() {
        std::process::exit(crate::end(5, "memory ran out"));
    }
    memory
}
