// SPDX-License-Identifier: Apache-2.0
//! The listing of a result: a status line, then one line a distinct subterm in the
//! order a left-to-right walk finishes it.

use std::collections::HashMap;
use std::fmt::Write;

use crate::au::exact_fixed::FixedExact;
use crate::au::terms::{TermId, TermOp, TermPool};
use crate::config::LitValId;
use crate::containers::DenseId;
use crate::id::OpId;

pub type Pool = TermPool<OpId, LitValId>;

pub fn listing(result: &FixedExact<TermId>, pool: &Pool) -> String {
    let (size, mass) = pool.quality(result.term);
    let status = if result.complete {
        "complete"
    } else {
        "partial"
    };
    let mut text = format!(
        "{status} pairs {} rounds {} size {size} mass {mass}\n",
        result.states, result.rounds
    );
    walk(result.term, pool, &mut HashMap::new(), &mut text);
    text
}

fn walk(term: TermId, pool: &Pool, numbers: &mut HashMap<TermId, usize>, text: &mut String) {
    if numbers.contains_key(&term) {
        return;
    }
    let mut runs: Vec<(TermId, u64)> = Vec::new();
    for &child in pool.children(term) {
        match runs.last_mut() {
            Some((last, count)) if *last == child => *count += 1,
            _ => runs.push((child, 1)),
        }
    }
    for &(child, _) in &runs {
        walk(child, pool, numbers, text);
    }
    let number = numbers.len();
    numbers.insert(term, number);
    let head = match pool.op(term) {
        TermOp::Literal(op, value) => {
            format!("{number} lit {} {}", op.to_usize(), value.to_usize())
        }
        TermOp::EGraph(op) => format!("{number} op {}", op.to_usize()),
        TermOp::Variants => format!("{number} variants"),
    };
    text.push_str(&head);
    for (child, count) in runs {
        write!(text, " {}:{count}", numbers[&child]).expect("a string takes every byte");
    }
    text.push('\n');
}
