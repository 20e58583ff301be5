// SPDX-License-Identifier: Apache-2.0
//! A call at the limits on a thread with `raw::STACK` bytes of stack, no more.

use bench::cards::{deepest, longest};
use bench::{cycles, transport};
use harness::judge::unpack;
use tariff_merge::Caller;
use tariff_merge::raw::{CardWork, STACK, Work};

fn asked(frame: &[u8]) -> Option<(&[u8], u16, u16, u32)> {
    let (image, &[a, b, c, d, e, f, g, h]) = frame.split_last_chunk::<8>()?;
    let left = u16::from_be_bytes([a, b]);
    let right = u16::from_be_bytes([c, d]);
    Some((image, left, right, u32::from_be_bytes([e, f, g, h])))
}

#[test]
fn the_stack_that_is_asked_is_enough() {
    let mut frames = unpack(include_bytes!("../../../oracle/sample/frames.bin")).unwrap();
    frames.push(transport(60));
    // a formula of 4,032 operations, one below the other
    frames.push(cycles(63, 64));
    let all = move || {
        let mut work = Work::new(1 << 20);
        let mut lines = 0;
        for (image, left, right, budget) in frames.iter().filter_map(|frame| asked(frame)) {
            for caller in [Caller::Page, Caller::Desk] {
                // SAFETY: what this test is about; an overflow ends it.
                let returned = unsafe { work.merge_for(caller, image, left, right, budget) };
                let listing = &work.output()[..returned.bytes];
                lines = listing.iter().filter(|byte| **byte == b'\n').count();
            }
        }
        assert!(lines > 4_032);
    };
    // The thread's own frames are small beside what a call needs.
    let thread = std::thread::Builder::new().stack_size(STACK).spawn(all);
    thread.unwrap().join().unwrap();
}

/// The deepest cards and the longest, written and read.
#[test]
fn the_stack_that_is_asked_is_enough_for_cards() {
    let all = || {
        let mut work = CardWork::new(1 << 20);
        for card in deepest().iter().chain(&longest()) {
            // SAFETY: what this test is about; an overflow ends it.
            let read = unsafe { work.read_card(&card.table, card.text.as_bytes()) };
            assert_eq!(read.number, 0, "{}", card.name);
            assert!(work.output()[..read.bytes] == *card.lines.as_bytes());
            // SAFETY: as above.
            let written = unsafe { work.card(&card.table, card.lines.as_bytes()) };
            assert_eq!(written.number, 0, "{}", card.name);
            assert!(written.bytes <= card.text.len());
        }
    };
    let thread = std::thread::Builder::new().stack_size(STACK).spawn(all);
    thread.unwrap().join().unwrap();
}
