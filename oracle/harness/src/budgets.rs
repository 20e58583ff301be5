// SPDX-License-Identifier: Apache-2.0
//! Every budget of small queries.

use model::slip::Slip;

/// How many pairs a small query has at most.
const PAIRS: usize = 12;

/// The number behind a word of a listing's first line.
fn field(answer: &str, word: &str) -> Option<usize> {
    let mut words = answer.lines().next()?.split(' ');
    words.find(|w| *w == word)?;
    words.next()?.parse().ok()
}

/// The frame with another budget.
fn with_budget(frame: &[u8], budget: u32) -> Vec<u8> {
    let mut other = frame[..frame.len() - 4].to_vec();
    other.extend_from_slice(&budget.to_be_bytes());
    other
}

/// For each frame whose graph has n pairs, 2 to 12: the budgets from 0 to one above 2n + (n + 1)(n + 1), with which the run is complete. `count` frames at most are taken.
pub fn every(frames: &[Vec<u8>], count: usize) -> (usize, Vec<Vec<u8>>) {
    let mut all = Vec::new();
    let mut taken = 0;
    for frame in frames {
        if taken == count {
            break;
        }
        if frame.len() < 8 {
            continue;
        }
        let answer = model::answer(&with_budget(frame, u32::MAX), Slip::None);
        let Some(n) = field(&answer, "pairs") else {
            continue;
        };
        if !(2..=PAIRS).contains(&n) {
            continue;
        }
        taken += 1;
        let enough = 2 * n + (n + 1) * (n + 1);
        all.extend((0..=enough as u32 + 1).map(|budget| with_budget(frame, budget)));
    }
    (taken, all)
}
