// SPDX-License-Identifier: Apache-2.0
//! Generator, driver, image text and sample: what the harness is made of.

pub mod budgets;
pub mod cards;
pub mod children;
pub mod damage;
pub mod doubled;
pub mod drive;
pub mod r#gen;
pub mod img;
pub mod judge;
pub mod limits;
pub mod pairs;
pub mod plans;
pub mod rng;
pub mod sample;
pub mod skipped;
pub mod small;
pub mod text;
pub mod turned;
pub mod verdicts;

use rng::Rng;

/// Frames from a seed: `count` of them, of one family or of all by weight.
pub fn draw(seed: u64, count: usize, family: Option<&str>) -> Vec<Vec<u8>> {
    draw_among(seed, count, family, r#gen::FAMILIES.len())
}

/// Frames of the families of the sample's first part, as they were drawn before there was a second.
pub fn draw_first(seed: u64, count: usize) -> Vec<Vec<u8>> {
    draw_among(seed, count, None, r#gen::FIRST)
}

fn draw_among(seed: u64, count: usize, family: Option<&str>, among: usize) -> Vec<Vec<u8>> {
    let mut rng = Rng::new(seed);
    let mut frames = Vec::new();
    while frames.len() < count {
        let name = family.unwrap_or_else(|| r#gen::family(&mut rng, among));
        frames.extend(r#gen::frames(&mut rng, name));
    }
    frames.truncate(count);
    frames
}
