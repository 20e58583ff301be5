// SPDX-License-Identifier: Apache-2.0
//! What the listed Rust can hold: it writes a child list out, one entry a unit of
//! each count. A list past 1,000,000 entries ends the query as `unholdable`.

pub const ENTRIES: u64 = 1_000_000;

pub struct Unholdable;

pub fn check(mut counts: impl Iterator<Item = u64>) {
    let held = counts.try_fold(0u64, |sum, count| {
        sum.checked_add(count).filter(|&sum| sum <= ENTRIES)
    });
    if held.is_none() {
        std::panic::resume_unwind(Box::new(Unholdable));
    }
}
