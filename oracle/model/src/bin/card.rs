// SPDX-License-Identifier: Apache-2.0
//! The model of program `card`: a sign table behind its length in 4 bytes and what program `merge`
//! reads in, the merged term's card out. `--stream`: inputs in, answers out, each behind its 4-byte
//! length. `--lines`: listing lines in place of what program `merge` reads.

use model::card::{card_answer, lines_answer};
use model::card_slip::CardSlip;

fn main() -> std::io::Result<()> {
    let lines = std::env::args().any(|word| word == "--lines");
    let answer = if lines { lines_answer } else { card_answer };
    model::program::serve(|input| answer(input, CardSlip::None))
}
