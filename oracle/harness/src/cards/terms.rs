// SPDX-License-Identifier: Apache-2.0
//! Terms for cards, and a second writer: with the surrounding precedence, and with further brackets
//! where it is told to.

use model::card::signs::Signs;
use model::card::{Graph, arity, pair};
use model::card_slip::CardSlip;
use model::listing::line;
use model::term::{Head, Runs};

use crate::rng::Rng;

/// Children in their order, neighbours with the same child joined.
pub fn joined(children: impl IntoIterator<Item = usize>) -> Runs {
    let mut runs = Runs::new();
    for child in children {
        match runs.last_mut() {
            Some((last, count)) if *last == child => *count += 1,
            _ => runs.push((child, 1)),
        }
    }
    runs
}

pub fn enter(graph: &mut Graph, head: Head, runs: Runs) -> usize {
    let entered = graph.enter((head, runs), CardSlip::None);
    entered.expect("a small term")
}

/// The lines of a graph as it stands, its terms in their order.
pub fn lines(graph: &Graph) -> String {
    let mut text = String::new();
    for (number, (head, runs)) in graph.nodes.iter().enumerate() {
        line(number, head, runs.iter().copied(), &mut text);
    }
    text
}

/// The lines of its last term alone, "in the order a left-to-right walk finishes" them.
pub fn walked(graph: &Graph) -> String {
    let mut numbers: Vec<Option<usize>> = vec![None; graph.nodes.len()];
    let (mut text, mut next) = (String::new(), 0);
    // The terms under way, each with how many of its runs are done.
    let mut walk = vec![(graph.nodes.len() - 1, 0)];
    while let Some((term, done)) = walk.pop() {
        let (head, runs) = &graph.nodes[term];
        if numbers[term].is_some() {
            continue;
        }
        if let Some(&(child, _)) = runs.get(done) {
            walk.extend([(term, done + 1), (child, 0)]);
            continue;
        }
        let number = |child: usize| numbers[child].expect("children come before parents");
        let runs = runs.iter().map(|&(child, count)| (number(child), count));
        line(next, head, runs, &mut text);
        numbers[term] = Some(next);
        next += 1;
    }
    text
}

/// What a drawn term is made of.
pub struct Style {
    /// The operations that it may have.
    pub operations: Vec<usize>,
    /// How many terms are drawn at most, and how many leaves and lists a term has written out.
    pub terms: usize,
    pub written: usize,
    /// A term in so many is a marked place.
    pub marked: usize,
}

fn leaf(rng: &mut Rng, style: &Style) -> (Head, Runs) {
    if rng.once_in(4) && !style.operations.is_empty() {
        return (Head::Operation(*rng.pick(&style.operations)), Runs::new());
    }
    let value = match rng.below(12) {
        0 => u32::MAX - rng.below(2) as u32,
        1 => rng.next() as u32,
        2 => 10u32.pow(rng.below(10) as u32),
        _ => rng.below(5) as u32,
    };
    let operation = match rng.below(6) {
        0 => rng.below(64),
        1 => 63,
        _ => rng.below(2),
    };
    (Head::Literal(operation, value), Runs::new())
}

/// Terms over earlier ones; the last one may be any of their size.
pub fn draw(rng: &mut Rng, style: &Style) -> Graph {
    let mut graph = Graph::default();
    let mut written: Vec<usize> = Vec::new();
    let many = rng.range(1, style.terms);
    for _ in 0..many {
        let mut node = leaf(rng, style);
        let over = !graph.nodes.is_empty() && !rng.once_in(4);
        if over && (rng.once_in(style.marked) || style.operations.is_empty()) {
            node = (
                Head::Variants,
                joined([0; 2].map(|_| child(rng, written.len()))),
            );
        } else if over {
            let operation = *rng.pick(&style.operations);
            let many = match rng.below(12) {
                0 => rng.range(3, 12),
                1 => rng.range(3, 5),
                2 => 3,
                3 | 4 => 1,
                _ => 2,
            };
            let mut last = child(rng, written.len());
            let children = (0..many).map(|_| {
                if !rng.once_in(4) {
                    last = child(rng, written.len());
                }
                last
            });
            node = (Head::Operation(operation), joined(children));
        }
        let below = node
            .1
            .iter()
            .map(|&(child, count)| written[child] * count as usize);
        let size = 1 + below.sum::<usize>();
        if size <= style.written && graph.find(&node).is_none() {
            enter(&mut graph, node.0, node.1);
            written.push(size);
        }
    }
    graph
}

/// An earlier term, rather a late one.
fn child(rng: &mut Rng, terms: usize) -> usize {
    terms - 1 - rng.below(terms).min(rng.below(terms)).min(rng.below(8))
}

/// The term's card with further brackets: `more` says how many pairs stand round each subterm beside
/// those that it needs. Written by recursion with the surrounding precedence: brackets where the
/// sign's own is lower.
pub fn dressed(signs: &Signs, graph: &Graph, more: &mut dyn FnMut() -> usize) -> String {
    let mut text = String::new();
    dress(signs, graph, graph.nodes.len() - 1, 0, more, &mut text);
    text
}

fn dress(
    signs: &Signs,
    graph: &Graph,
    term: usize,
    surrounding: u8,
    more: &mut dyn FnMut() -> usize,
    text: &mut String,
) {
    let (head, runs) = &graph.nodes[term];
    let sign = |operation: usize| signs.of(operation).expect("a term with signs");
    let infix = match head {
        Head::Operation(operation) if arity(runs) == 2 => Some(sign(*operation)),
        _ => None,
    };
    let needed = infix.is_some_and(|sign| sign.precedence < surrounding);
    let pairs = more() + usize::from(needed);
    *text += &"(".repeat(pairs);
    let mut each = |child: usize, level: u8, text: &mut String| {
        dress(signs, graph, child, level, more, text);
    };
    match head {
        Head::Literal(operation, value) => *text += &format!("{value}#{operation}"),
        Head::Variants => {
            let [left, right] = pair(runs);
            text.push('{');
            each(left, 0, text);
            *text += " | ";
            each(right, 0, text);
            text.push('}');
        }
        Head::Operation(operation) => {
            let sign = sign(*operation);
            let word = std::str::from_utf8(&sign.word).expect("letters or a symbol");
            if infix.is_some() {
                let (p, right) = (sign.precedence, signs.groups_right(sign.precedence));
                let levels = if right { [p + 1, p] } else { [p, p + 1] };
                let [one, other] = pair(runs);
                each(one, levels[0], text);
                *text += &format!(" {word} ");
                each(other, levels[1], text);
            } else {
                *text += word;
                text.push('[');
                let mut first = true;
                for &(child, count) in runs {
                    for _ in 0..count {
                        *text += if first { "" } else { "; " };
                        first = false;
                        each(child, 0, text);
                    }
                }
                text.push(']');
            }
        }
    }
    *text += &")".repeat(pairs);
}
