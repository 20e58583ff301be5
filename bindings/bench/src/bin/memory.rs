// SPDX-License-Identifier: Apache-2.0
//! The most memory that the listed Rust holds at once for each of the bench's queries, beside the library's work buffers.
//!
//! listed: the peak of the heap in use while a query is answered, from the frame to the listing, less what was in use
//! before. library: the bytes of the lent work buffers, which are the same for every query; the library has no heap.

use std::alloc::{GlobalAlloc, Layout, System};
use std::hint::black_box;
use std::sync::atomic::{AtomicUsize, Ordering::Relaxed};

use bench::families;
use tariff_merge::raw;

/// The bytes in use, and the most there were.
struct Counted;

static IN_USE: AtomicUsize = AtomicUsize::new(0);
static PEAK: AtomicUsize = AtomicUsize::new(0);

// SAFETY: every call goes to the system's allocator as it is; the counters are beside it.
unsafe impl GlobalAlloc for Counted {
    unsafe fn alloc(&self, layout: Layout) -> *mut u8 {
        // SAFETY: the caller's promise.
        let at = unsafe { System.alloc(layout) };
        if !at.is_null() {
            let now = IN_USE.fetch_add(layout.size(), Relaxed) + layout.size();
            PEAK.fetch_max(now, Relaxed);
        }
        at
    }

    unsafe fn dealloc(&self, at: *mut u8, layout: Layout) {
        IN_USE.fetch_sub(layout.size(), Relaxed);
        // SAFETY: the caller's promise.
        unsafe { System.dealloc(at, layout) }
    }
}

#[global_allocator]
static COUNTED: Counted = Counted;

/// The most that one query of the family takes.
fn most(frames: &[Vec<u8>]) -> usize {
    frames.iter().map(|frame| peak(frame)).max().unwrap_or(0)
}

fn peak(frame: &[u8]) -> usize {
    let before = IN_USE.load(Relaxed);
    PEAK.store(before, Relaxed);
    black_box(listed::answer(frame, false));
    PEAK.load(Relaxed) - before
}

fn main() {
    let lent =
        2 * raw::GRAPH + 4 * (raw::PAIRS + raw::TERMS) + 8 * (raw::WORK + raw::FLOW + raw::RUNS);
    println!("| Queries | listed, bytes at the peak | library, bytes of work buffers |");
    println!("|---|---|---|");
    for family in families().iter().filter(|family| family.number == 0) {
        println!("| {} | {} | {lent} |", family.name, most(&family.frames));
    }
}
