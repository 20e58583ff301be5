// SPDX-License-Identifier: Apache-2.0
//! The model of program `read_card`: a sign table behind its length in 4 bytes and a card in, the
//! lines of its term out. `--stream`: inputs in, answers out, each behind its 4-byte length.

use model::card::read_card_answer;
use model::card_slip::CardSlip;

fn main() -> std::io::Result<()> {
    model::program::serve(|input| read_card_answer(input, CardSlip::None))
}
