// SPDX-License-Identifier: Apache-2.0
//! The model as a program. It prints what program `merge` prints. `--stream`:
//! frames in, answers out, each behind its 4-byte length. `--page`: with the quote
//! page's 256 pairs.

use model::slip::Slip;
use model::{DESK, PAGE, answer_within};

fn main() -> std::io::Result<()> {
    let page = std::env::args().any(|word| word == "--page");
    let limit = if page { PAGE } else { DESK };
    model::program::serve(|frame| answer_within(limit, frame, Slip::None))
}
