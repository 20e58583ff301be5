// SPDX-License-Identifier: Apache-2.0
//! "The listing of program `merge`."

use std::collections::HashMap;
use std::fmt::Write;

use crate::run::{Outcome, Phase};
use crate::slip::Slip;
use crate::term::{Head, Pool};

pub fn listing(outcome: &Outcome, slip: Slip) -> String {
    let status = match outcome.phase {
        Phase::Complete => "complete",
        _ => "partial",
    };
    let (size, mass) = outcome.pool.nodes[outcome.root].quality;
    // (02, Paper 7) "The first line of the listing ends with `skipped` and the number" (Paper 13)
    // "the listing's first line gets a final field `checks`".
    let skipped = format!("skipped {}", outcome.skipped);
    let checks = format!("checks {}", outcome.checks);
    let last = match slip {
        Slip::ChecksFirst => [checks, skipped],
        _ => [skipped, checks],
    };
    let mut text = format!(
        "{status} pairs {} rounds {} size {size} mass {mass} {}\n",
        outcome.pairs,
        outcome.rounds,
        last.join(" ")
    );
    let mut order = Vec::new();
    finish(
        outcome.root,
        &outcome.pool,
        &mut order,
        &mut HashMap::new(),
        slip,
    );
    let number: HashMap<usize, usize> = order.iter().enumerate().map(|(n, &t)| (t, n)).collect();
    for (n, &term) in order.iter().enumerate() {
        let node = &outcome.pool.nodes[term];
        let runs = node
            .runs
            .iter()
            .map(|(child, count)| (number[child], *count));
        line(n, &node.head, runs, &mut text);
    }
    text
}

/// The line of a distinct subterm.
pub fn line(
    number: usize,
    head: &Head,
    runs: impl IntoIterator<Item = (usize, u64)>,
    text: &mut String,
) {
    let head = match head {
        Head::Literal(operation, value) => format!("lit {operation} {value}"),
        Head::Operation(operation) => format!("op {operation}"),
        Head::Variants => "variants".to_string(),
    };
    write!(text, "{number} {head}").expect("a string takes all");
    for (child, count) in runs {
        write!(text, " {child}:{count}").expect("a string takes all");
    }
    text.push('\n');
}

/// The distinct subterms "in the order a left-to-right walk finishes" them.
fn finish(
    term: usize,
    pool: &Pool,
    order: &mut Vec<usize>,
    seen: &mut HashMap<usize, ()>,
    slip: Slip,
) {
    if seen.insert(term, ()).is_some() {
        return;
    }
    let mut runs = pool.nodes[term].runs.clone();
    if slip == Slip::RightToLeft {
        runs.reverse();
    }
    for (child, _) in runs {
        finish(child, pool, order, seen, slip);
    }
    order.push(term);
}
