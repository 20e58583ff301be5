// SPDX-License-Identifier: Apache-2.0
//! (02, Paper 1) "Formula text for the driver's card": a term as infix text with the fewest
//! brackets, and the text read back by precedence.

pub mod lines;
pub mod read;
pub mod signs;
pub mod write;

use std::collections::HashMap;

use crate::card_slip::CardSlip;
use crate::image::Refusal;
use crate::run::run;
use crate::slip::Slip;
use crate::term::{Head, Pool, Runs};
use crate::{DESK, query};
use signs::Signs;

/// The bytes that a program reads at most, and those of its output buffer.
pub const INPUT: usize = 65_536;
pub const ROOM: usize = 65_536;

/// "a text that is not a formula"
pub const NO_FORMULA: Refusal = Refusal(17);
/// "an operation in the term without a proper sign of its own and precedence"
pub const NO_SIGN: Refusal = Refusal(18);
const FULL: Refusal = Refusal(13);
const TOO_LONG: Refusal = Refusal(14);
const BROKEN: Refusal = Refusal(2);

/// Distinct terms, children before parents; the last one is the term.
#[derive(Default)]
pub struct Graph {
    pub nodes: Vec<(Head, Runs)>,
    number: HashMap<(Head, Runs), usize>,
    runs: usize,
    /// Terms met again, for a slip.
    again: usize,
}

impl Graph {
    /// A term of a run's pool, with those entered before it.
    pub fn of(pool: &Pool, root: usize) -> Graph {
        let nodes = pool.nodes[..=root].iter();
        Graph {
            nodes: nodes
                .map(|node| (node.head.clone(), node.runs.clone()))
                .collect(),
            ..Graph::default()
        }
    }

    /// The number of a term that was entered.
    pub fn find(&self, node: &(Head, Runs)) -> Option<usize> {
        self.number.get(node).copied()
    }

    /// The number of a term; 13: "a term beyond 16,384 or a run beyond 65,536 would be entered".
    pub fn enter(&mut self, node: (Head, Runs), slip: CardSlip) -> Result<usize, Refusal> {
        if let Some(number) = self.find(&node) {
            self.again += usize::from(slip == CardSlip::RepeatedTermsCounted);
            return Ok(number);
        }
        let most = 16_384 - usize::from(slip == CardSlip::Terms16383);
        if self.nodes.len() + self.again >= most || self.runs + node.1.len() > 65_536 {
            return Err(FULL);
        }
        self.runs += node.1.len();
        self.number.insert(node.clone(), self.nodes.len());
        self.nodes.push(node);
        Ok(self.nodes.len() - 1)
    }
}

/// How many children a term has, "counts written out".
pub fn arity(runs: &Runs) -> u128 {
    runs.iter().map(|&(_, count)| u128::from(count)).sum()
}

/// The children of a term with two.
pub fn pair(runs: &Runs) -> [usize; 2] {
    match runs[..] {
        [(both, _)] => [both, both],
        [(left, _), (right, _), ..] => [left, right],
        [] => unreachable!("two children are one run or two"),
    }
}

/// The term on listing lines as a card: 17 and 13 of the lines, 18, 14.
pub fn card(table: &[u8], text: &[u8], room: usize, slip: CardSlip) -> Result<String, Refusal> {
    let graph = lines::read(text, slip)?;
    write::write(&Signs::new(table, slip), &graph, room, slip)
}

/// A card's term as listing lines: 17, 13, 14.
pub fn read_card(
    table: &[u8],
    text: &[u8],
    room: usize,
    slip: CardSlip,
) -> Result<String, Refusal> {
    let graph = read::read(&Signs::new(table, slip), text, slip)?;
    let lines = lines::write(&graph);
    let room = room - usize::from(slip == CardSlip::LinesOneLess);
    if lines.len() > room {
        return Err(TOO_LONG);
    }
    Ok(lines)
}

/// A program's input: a table behind its length in 4 bytes, and the rest.
fn table_and_rest(input: &[u8]) -> Result<(&[u8], &[u8]), Refusal> {
    if input.len() > INPUT {
        return Err(BROKEN);
    }
    let (length, rest) = input.split_first_chunk::<4>().ok_or(BROKEN)?;
    let length = u32::from_be_bytes(*length) as usize;
    rest.split_at_checked(length).ok_or(BROKEN)
}

fn carded(input: &[u8], slip: CardSlip) -> Result<String, Refusal> {
    let (table, frame) = table_and_rest(input)?;
    let (image, left, right, budget) = query(frame, Slip::None)?;
    let outcome = run(&image, left, right, budget, DESK, Slip::None)?;
    if slip == CardSlip::ListingMustFit
        && crate::listing::listing(&outcome, Slip::None).len() > ROOM
    {
        return Err(TOO_LONG);
    }
    let graph = Graph::of(&outcome.pool, outcome.root);
    write::write(&Signs::new(table, slip), &graph, ROOM, slip)
}

fn carded_back(input: &[u8], slip: CardSlip) -> Result<String, Refusal> {
    let (table, text) = table_and_rest(input)?;
    let text = match text.strip_suffix(b"\n") {
        Some(_) if slip == CardSlip::LineFeedKept => text,
        Some(line) if slip == CardSlip::LineFeedsDropped => line.trim_ascii_end(),
        Some(line) => line,
        None if slip == CardSlip::LineFeedNeeded => return Err(NO_FORMULA),
        None => text,
    };
    read_card(table, text, ROOM, slip)
}

fn refused(Refusal(number): Refusal) -> String {
    format!("refused {number}\n")
}

/// What program `card` prints: of a table behind its length, and what program `merge` reads, the
/// merged term's card.
pub fn card_answer(input: &[u8], slip: CardSlip) -> String {
    carded(input, slip).map_or_else(refused, |card| card + "\n")
}

/// What program `read_card` prints: of a table behind its length, and a card, the lines of its term.
pub fn read_card_answer(input: &[u8], slip: CardSlip) -> String {
    carded_back(input, slip).unwrap_or_else(refused)
}

/// What a call prints whose input is a table behind its length, and listing lines.
pub fn lines_answer(input: &[u8], slip: CardSlip) -> String {
    let card = table_and_rest(input).and_then(|(table, text)| card(table, text, ROOM, slip));
    card.map_or_else(refused, |card| card + "\n")
}
