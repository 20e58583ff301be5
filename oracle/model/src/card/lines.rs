// SPDX-License-Identifier: Apache-2.0
//! The lines of a term, as the listing of program `merge` has them behind its first line.

use super::{FULL, Graph, NO_FORMULA, arity};
use crate::card_slip::CardSlip;
use crate::image::Refusal;
use crate::listing;
use crate::term::{Head, Runs};

/// "65 times" 4,294,967,295 (02, Paper 8): what the counts of a line are together at most.
pub const COUNTS: u128 = 279_172_874_175;

/// The lines of distinct terms, which stand "in the order a left-to-right walk finishes" them.
pub fn write(graph: &Graph) -> String {
    let mut text = String::new();
    for (number, (head, runs)) in graph.nodes.iter().enumerate() {
        listing::line(number, head, runs.iter().copied(), &mut text);
    }
    text
}

/// The terms of lines. Line by line, and a line from left to right: 17 where its form is broken, 13 at
/// a run beyond 65,536; then 17 where it is equal to an earlier one, 13 where there is no room for it.
/// No line is 17.
pub fn read(text: &[u8], slip: CardSlip) -> Result<Graph, Refusal> {
    let mut graph = Graph::default();
    let mut rest = text;
    while !rest.is_empty() {
        let end = rest.iter().position(|byte| *byte == b'\n');
        let whole = end.is_some() || slip == CardSlip::LastLineOpen;
        let end = end.unwrap_or(rest.len());
        let node = line(graph.nodes.len(), &rest[..end], slip)?;
        if !whole {
            return Err(NO_FORMULA);
        }
        if slip == CardSlip::RoomBeforeEqual && graph.nodes.len() == 16_384 {
            return Err(FULL);
        }
        match graph.find(&node) {
            Some(_) if slip == CardSlip::EqualLines => graph.nodes.push(node),
            Some(_) => return Err(NO_FORMULA),
            None => {
                graph.enter(node, slip)?;
            }
        }
        rest = rest.get(end + 1..).unwrap_or(&[]);
    }
    if graph.nodes.is_empty() {
        return Err(NO_FORMULA);
    }
    Ok(graph)
}

/// A number as it is printed, at most `most`.
pub fn number(digits: &[u8], most: u64, slip: CardSlip) -> Option<u64> {
    let zeros = slip == CardSlip::LeadingZeros;
    if digits.is_empty() || digits.len() > 1 && digits[0] == b'0' && !zeros {
        return None;
    }
    let mut number: u64 = 0;
    for digit in digits {
        if !digit.is_ascii_digit() {
            return None;
        }
        number = number
            .checked_mul(10)?
            .checked_add(u64::from(digit - b'0'))?;
    }
    (number <= most).then_some(number)
}

/// Line number `at`: the fields "one space apart".
fn line(at: usize, line: &[u8], slip: CardSlip) -> Result<(Head, Runs), Refusal> {
    let mut words = line.split(|byte| *byte == b' ');
    let head = head(at, &mut words, slip).ok_or(NO_FORMULA)?;
    if let Head::Literal(..) = head {
        let alone = words.next().is_none();
        return alone.then_some((head, Runs::new())).ok_or(NO_FORMULA);
    }
    let most = match slip {
        CardSlip::CountsAny => u128::MAX,
        CardSlip::CountsOneLess => COUNTS - 1,
        _ => COUNTS,
    };
    let (mut runs, mut counts) = (Runs::new(), 0);
    for word in words {
        let (run, digits) = run(at, word, slip).ok_or(NO_FORMULA)?;
        let same = runs.last().is_some_and(|&(last, _)| last == run.0);
        if same && slip != CardSlip::NeighboursEqual {
            return Err(NO_FORMULA);
        }
        counts = match slip {
            CardSlip::CountsEach => u128::from(run.1),
            _ => counts + u128::from(run.1),
        };
        if counts > most {
            return Err(NO_FORMULA);
        }
        if runs.len() == 65_536 && slip != CardSlip::FormBeforeRoom {
            return Err(FULL);
        }
        if digits < word.len() {
            return Err(NO_FORMULA);
        }
        runs.push(run);
    }
    let two = match slip {
        CardSlip::BranchesByRuns => runs.len() == 2,
        _ => arity(&runs) == 2,
    };
    if head == Head::Variants && !two {
        return Err(NO_FORMULA);
    }
    Ok((head, runs))
}

/// The line's number, and what stands before its runs.
fn head<'a>(at: usize, words: &mut impl Iterator<Item = &'a [u8]>, slip: CardSlip) -> Option<Head> {
    let mut field = |most: u64| number(words.next()?, most, slip);
    if field(u64::MAX)? != at as u64 && slip != CardSlip::AnyLineNumber {
        return None;
    }
    match words.next()? {
        b"lit" => {
            let operation = number(words.next()?, 63, slip)? as usize;
            let value = number(words.next()?, u64::from(u32::MAX), slip)?;
            Some(Head::Literal(operation, value as u32))
        }
        b"op" => Some(Head::Operation(number(words.next()?, 63, slip)? as usize)),
        b"variants" => Some(Head::Variants),
        _ => None,
    }
}

/// `child:count` at a word's front, the child on a lower line and the count at least 1; and how many
/// bytes of the word it has.
fn run(at: usize, word: &[u8], slip: CardSlip) -> Option<((usize, u64), usize)> {
    let colon = word.iter().position(|byte| *byte == b':')?;
    let behind = &word[colon + 1..];
    let end = behind.iter().position(|byte| !byte.is_ascii_digit());
    let end = end.unwrap_or(behind.len());
    let child = number(&word[..colon], u64::MAX, slip)?;
    let count = number(&behind[..end], u64::MAX, slip)?;
    let counts = count > 0 || slip == CardSlip::CountZero;
    let run = (child as usize, count);
    (child < at as u64 && counts).then_some((run, colon + 1 + end))
}
