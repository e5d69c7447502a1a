//! Memory that isn't there ends the command with its exit status, never with an abort.
#![allow(unsafe_code)]

use crate::system;
use std::alloc::{GlobalAlloc, Layout, System};
use std::cell::Cell;

/// For smaller pieces nobody could go on, even where an error can be told.
const LARGE: usize = 1 << 20;

thread_local! {
    /// Does this thread ask for its large pieces where an error can be told?
    static TOLD: Cell<bool> = const { Cell::new(false) };
}

/// The system's allocator, but for the end that Rust makes where it has none.
pub struct Memory;

#[global_allocator]
static MEMORY: Memory = Memory;

/// Ends the command for want of memory.
pub fn none() -> ! {
    system::leave("tusuchiy: out of memory\n")
}

/// Work that asks for large pieces, each so that it hears of it where there is none, and can go on.
pub fn told<Done>(work: impl FnOnce() -> Done) -> Done {
    let before = TOLD.replace(true);
    let done = work();
    TOLD.set(before);
    done
}

/// A list of this length, made in one piece however long.
pub fn list<Element>(elements: impl Iterator<Item = Element>, length: usize) -> Vec<Element> {
    let mut list = Vec::new();
    list.try_reserve_exact(length).unwrap_or_else(|_| none());
    list.extend(elements);
    list
}

/// Ends the command where a piece wasn't there, unless its want can be told.
fn kept(piece: *mut u8, size: usize) -> *mut u8 {
    if piece.is_null() && !(size >= LARGE && TOLD.get()) {
        none()
    }
    piece
}

// SAFETY: every piece is the system allocator's, asked for and given back with the caller's own layout.
unsafe impl GlobalAlloc for Memory {
    unsafe fn alloc(&self, layout: Layout) -> *mut u8 {
        kept(System.alloc(layout), layout.size())
    }

    unsafe fn alloc_zeroed(&self, layout: Layout) -> *mut u8 {
        kept(System.alloc_zeroed(layout), layout.size())
    }

    unsafe fn realloc(&self, piece: *mut u8, layout: Layout, size: usize) -> *mut u8 {
        kept(System.realloc(piece, layout, size), size)
    }

    unsafe fn dealloc(&self, piece: *mut u8, layout: Layout) {
        System.dealloc(piece, layout)
    }
}
