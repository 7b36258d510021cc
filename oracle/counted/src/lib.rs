//! The crate `published` once more, with a count of the removals from the heap.

// Much of what is published is there for parts of rustfst that are not.
#![allow(dead_code, unused_imports, unused_macros)]

include!(concat!(env!("OUT_DIR"), "/rustfst/root.rs"));

thread_local! {
    /// How often an entry was removed from the heap on this thread.
    pub static TAKEN: std::cell::Cell<usize> = const { std::cell::Cell::new(0) };
}
