// SPDX-License-Identifier: Apache-2.0
//! The model's representation pairs, as program `representation` writes them.

use std::fmt::Write;

use model::action::{Monomials, Pair, transports};
use model::image::Image;
use model::monomial::Monomial;
use model::slip::Slip;

/// Images of at most so many classes show every pair of two classes.
const SMALL: usize = 12;

fn terms(monomial: &Monomial) -> String {
    monomial
        .iter()
        .map(|(class, count)| format!(" {class}:{count}"))
        .collect()
}

/// Left class, right class, operation, left terms, `|`, right terms. Repeats stand.
fn of_pair(image: &Image, pair: Pair, slip: Slip, text: &mut String) {
    // "A class paired with itself has no actions."
    if pair.0 == pair.1 {
        return;
    }
    let mut met = Monomials::default();
    for one in transports(image, pair, &mut met, slip) {
        if !one.skipped(slip) {
            let (l, r) = (terms(&one.left), terms(&one.right));
            let _ = writeln!(text, "{} {} {}{l} |{r}", pair.0, pair.1, one.operation);
        }
    }
}

/// The pairs of the queried classes, or of all classes of a small image; `refused`
/// where the frame is refused. An empty line at the end.
fn of_frame(frame: &[u8], slip: Slip) -> String {
    let mut text = String::new();
    match model::query(frame, slip) {
        Err(_) => text.push_str("refused\n"),
        Ok((image, left, right, _)) if image.classes.len() > SMALL => {
            of_pair(&image, (left, right), slip, &mut text);
        }
        Ok((image, ..)) => {
            for left in 0..image.classes.len() {
                for right in 0..image.classes.len() {
                    of_pair(&image, (left, right), slip, &mut text);
                }
            }
        }
    }
    text.push('\n');
    text
}

/// What program `representation` writes to a stream of these frames.
pub fn of_frames(frames: &[Vec<u8>], slip: Slip) -> String {
    frames.iter().map(|frame| of_frame(frame, slip)).collect()
}
