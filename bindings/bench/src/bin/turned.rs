// SPDX-License-Identifier: Apache-2.0
//! Queries and the same with left and right exchanged, through the Rust crate: `turned SEED COUNT [FAMILY]`.
//!
//! Each is asked as it was drawn, with more checks than any run spends, with as many as the complete run spends, one less
//! and half of them. What is held of the answers is what `harness turned` holds of a judge's (`harness::turned`): complete
//! runs both ways have equal pairs, rounds, size, mass and checks; a complete run spends 2n + (r + 1)(n + 1) checks, one
//! that is cut short its budget.

use bench::{ran, seed_count_family};
use harness::draw;
use harness::drive::Counts;
use harness::turned::turned;
use tariff_merge::Merger;

fn main() {
    let Some((seed, count, family)) = seed_count_family() else {
        eprintln!("turned SEED COUNT [FAMILY]");
        std::process::exit(2);
    };
    let mut merger = Merger::new();
    let mut runs =
        |frames: &[Vec<u8>]| Ok(frames.iter().map(|frame| ran(&mut merger, frame)).collect());
    let mut counts = Counts::default();
    if let Err(why) = turned(&draw(seed, count, family), &mut runs, &mut counts) {
        eprintln!("{why}");
        std::process::exit(1);
    }
    print!("{}", counts.print());
    println!("the queries and the turned ones are as promised");
}
