// SPDX-License-Identifier: Apache-2.0
//! The model's answers to inputs, and a program against them.

use std::collections::BTreeMap;

use model::card::{card_answer, lines_answer, read_card_answer};
use model::card_slip::CardSlip;

use super::{Kind, draw::draw_input};
use crate::judge::call;
use crate::rng::Rng;

/// What the model prints to an input.
pub fn answer(kind: Kind, input: &[u8], slip: CardSlip) -> String {
    match kind {
        Kind::Card => card_answer(input, slip),
        Kind::ReadCard => read_card_answer(input, slip),
        Kind::Lines => lines_answer(input, slip),
    }
}

/// So many drawn inputs, a few of them large.
pub fn draw(seed: u64, count: usize, kind: Kind) -> Vec<Vec<u8>> {
    let mut rng = Rng::new(seed);
    (0..count)
        .map(|_| {
            let most = *rng.pick(&[200, 400, 400, 700, 3_000]);
            draw_input(&mut rng, kind, most)
        })
        .collect()
}

/// A program that takes one input, run once for each, against the model; how often each answer came.
pub fn compare(command: &str, kind: Kind, inputs: &[Vec<u8>]) -> Result<String, String> {
    let mut counts: BTreeMap<String, usize> = BTreeMap::new();
    for input in inputs {
        let (model, said) = (answer(kind, input, CardSlip::None), call(command, input)?);
        if said != model.as_bytes() {
            let said = String::from_utf8_lossy(&said);
            return Err(format!(
                "{command}: {said}\nmodel: {model}\ninput: {input:?}"
            ));
        }
        let kind = match model.starts_with("refused ") {
            true => model.trim_end().to_string(),
            false => "an answer".to_string(),
        };
        *counts.entry(kind).or_insert(0) += 1;
    }
    let mut text = String::new();
    for (kind, count) in counts {
        text += &format!("{count:>9}  {kind}\n");
    }
    text += &format!("{} inputs, no difference\n", inputs.len());
    Ok(text)
}
