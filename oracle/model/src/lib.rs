// SPDX-License-Identifier: Apache-2.0
//! A plain model of document 01, written from the document. It shares no code with
//! the listed Rust. Each module quotes the sentences it says.

pub mod action;
pub mod belongs;
pub mod brute;
pub mod card;
pub mod card_slip;
pub mod children;
pub mod image;
pub mod listing;
pub mod monomial;
pub mod program;
pub mod run;
pub mod slip;
pub mod term;
pub mod transport;

use image::{Image, Refusal, accept};
use run::{Outcome, run};
use slip::Slip;

/// The image and the query of a frame, or the refusal among 2 to 11. "A missing or
/// overlong query, or input over 65,536 bytes, prints `refused 2`."
pub fn query(frame: &[u8], slip: Slip) -> Result<(Image, usize, usize, u32), Refusal> {
    if frame.len() > 65_536 || frame.len() < 8 {
        return Err(Refusal(2));
    }
    let (bytes, tail) = frame.split_at(frame.len() - 8);
    let short = |at: usize| usize::from(tail[at]) * 256 + usize::from(tail[at + 1]);
    let (left, right) = (short(0), short(2));
    let budget = u32::from_be_bytes([tail[4], tail[5], tail[6], tail[7]]);
    let image = accept(bytes, slip);
    if slip == Slip::QueryBeforeImage && image.as_ref().is_err_and(|r| r.0 > 5) {
        let classes = usize::from(bytes[7]) * 256 + usize::from(bytes[8]);
        if left >= classes || right >= classes {
            return Err(Refusal(11));
        }
    }
    let image = image?;
    if left >= image.classes.len() || right >= image.classes.len() {
        return Err(Refusal(11));
    }
    Ok((image, left, right, budget))
}

/// (02, Paper 9) "The public quote page .. may hold 256 pairs, while the account desk keeps
/// 4,096." Program `merge` is the desk's, and so are the answers where no limit is named.
pub const PAGE: usize = 256;
pub const DESK: usize = 4_096;

/// The listing and how it came about, or the refusal.
pub fn outcome(frame: &[u8], slip: Slip) -> Result<(String, Outcome), Refusal> {
    outcome_within(DESK, frame, slip)
}

/// The same where at most `limit` pairs may be entered.
pub fn outcome_within(
    limit: usize,
    frame: &[u8],
    slip: Slip,
) -> Result<(String, Outcome), Refusal> {
    let (image, left, right, budget) = query(frame, slip)?;
    let outcome = run(&image, left, right, budget, limit, slip)?;
    let text = listing::listing(&outcome, slip);
    let room = 65_536 - usize::from(slip == Slip::OutputOneLess);
    if text.len() > room {
        return Err(Refusal(14));
    }
    Ok((text, outcome))
}

/// What program `merge` prints to a frame.
pub fn answer(frame: &[u8], slip: Slip) -> String {
    answer_within(DESK, frame, slip)
}

/// What it would print where at most `limit` pairs may be entered.
pub fn answer_within(limit: usize, frame: &[u8], slip: Slip) -> String {
    match outcome_within(limit, frame, slip) {
        Ok((text, _)) => text,
        Err(Refusal(number)) => format!("refused {number}\n"),
    }
}
