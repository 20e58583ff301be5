// SPDX-License-Identifier: Apache-2.0
//! "Write a term with the fewest brackets, recursing from each subterm to its children": what is
//! still to be written stands on a list, last first, so that no term is too deep and no text longer
//! than the room is made.

use super::signs::Signs;
use super::{Graph, NO_SIGN, TOO_LONG, arity, pair};
use crate::card_slip::CardSlip;
use crate::image::Refusal;
use crate::term::{Head, Runs};

enum Step<'a> {
    Term(usize),
    Text(&'a [u8]),
    /// So many equal children, each but the first behind the text.
    Times(usize, u64, &'static [u8]),
}

/// "18 for an operation in the term without a proper sign of its own and precedence"; "in writing 18
/// comes before 14".
pub fn write(signs: &Signs, graph: &Graph, room: usize, slip: CardSlip) -> Result<String, Refusal> {
    let writer = Writer { signs, graph, slip };
    if slip == CardSlip::RoomBeforeSigns && !writer.has_signs() {
        // The signs that there are not are as long as can be.
        return Err(if writer.fits(room) { NO_SIGN } else { TOO_LONG });
    }
    if !writer.has_signs() {
        return Err(NO_SIGN);
    }
    let room = room - usize::from(slip == CardSlip::CardOneLess);
    let text = writer.text(room).ok_or(TOO_LONG)?;
    Ok(String::from_utf8(text).expect("signs and decimals are ASCII"))
}

struct Writer<'a> {
    signs: &'a Signs,
    graph: &'a Graph,
    slip: CardSlip,
}

impl<'a> Writer<'a> {
    fn root(&self) -> usize {
        self.graph.nodes.len() - 1
    }

    /// Whether each operation in the term has its sign; "a literal .. needs no sign".
    fn has_signs(&self) -> bool {
        let mut inside = vec![self.slip == CardSlip::EveryLineSigned; self.graph.nodes.len()];
        inside[self.root()] = true;
        (0..inside.len()).rev().all(|term| {
            if !inside[term] {
                return true;
            }
            let (head, runs) = &self.graph.nodes[term];
            for &(child, _) in runs {
                inside[child] = true;
            }
            match head {
                Head::Operation(operation) => self.signs.of(*operation).is_some(),
                Head::Literal(operation, _) if self.slip == CardSlip::LiteralsSigned => {
                    self.signs.of(*operation).is_some()
                }
                Head::Literal(operation, _) => *operation <= 63,
                Head::Variants => true,
            }
        })
    }

    /// The sign of an operation.
    fn word(&self, operation: usize) -> &'a [u8] {
        self.signs
            .of(operation)
            .map_or(b"????????", |sign| &sign.word)
    }

    /// For a slip: whether the text fits where some signs are missing.
    fn fits(&self, room: usize) -> bool {
        self.text(room).is_some()
    }

    /// The text, unless it is longer than the room.
    fn text(&self, room: usize) -> Option<Vec<u8>> {
        let mut text = Vec::new();
        let mut steps = vec![Step::Term(self.root())];
        while let Some(step) = steps.pop() {
            match step {
                Step::Text(bytes) => text.extend(bytes),
                Step::Times(child, count, between) => {
                    if count > 1 {
                        steps.push(Step::Times(child, count - 1, between));
                        steps.push(Step::Text(between));
                    }
                    steps.push(Step::Term(child));
                }
                Step::Term(term) => match &self.graph.nodes[term] {
                    (Head::Literal(operation, value), _) => {
                        text.extend(format!("{value}#{operation}").bytes());
                    }
                    (Head::Variants, runs) => {
                        let [left, right] = pair(runs);
                        text.push(b'{');
                        steps.push(Step::Text(b"}"));
                        self.bare(right, &mut steps);
                        steps.push(Step::Text(b" | "));
                        self.bare(left, &mut steps);
                    }
                    (Head::Operation(operation), runs) if self.infix(runs) => {
                        self.between(*operation, runs, &mut steps);
                    }
                    (Head::Operation(operation), runs) => {
                        text.extend(self.word(*operation));
                        text.push(b'[');
                        steps.push(Step::Text(b"]"));
                        self.list(runs, &mut steps);
                    }
                },
            }
            if text.len() > room {
                return None;
            }
        }
        Some(text)
    }

    /// "Terms with exactly two children, counts written out, have the sign between them".
    fn infix(&self, runs: &Runs) -> bool {
        match self.slip {
            CardSlip::TwoRuns => runs.len() == 2,
            CardSlip::TwoRunsOfOne => runs.len() == 2 && arity(runs) == 2,
            _ => arity(runs) == 2,
        }
    }

    fn between(&self, operation: usize, runs: &Runs, steps: &mut Vec<Step<'a>>) {
        let [left, right] = pair(runs);
        self.child(operation, right, true, steps);
        steps.push(Step::Text(b" "));
        steps.push(Step::Text(self.word(operation)));
        steps.push(Step::Text(b" "));
        self.child(operation, left, false, steps);
    }

    /// "others print the sign and a list, `sum[a; b; c]`"
    fn list(&self, runs: &Runs, steps: &mut Vec<Step<'a>>) {
        for (place, &(child, count)) in runs.iter().enumerate().rev() {
            match self.slip {
                CardSlip::CountsOnce => steps.push(Step::Term(child)),
                CardSlip::ListBracketed => self.bare(child, steps),
                _ => steps.push(Step::Times(child, count, b"; ")),
            }
            if place > 0 {
                steps.push(Step::Text(b"; "));
            }
        }
    }

    /// A branch of a marked place, which needs no brackets.
    fn bare(&self, child: usize, steps: &mut Vec<Step<'a>>) {
        let (head, runs) = &self.graph.nodes[child];
        let infix = matches!(head, Head::Operation(_)) && self.infix(runs);
        let slips = [CardSlip::BranchesBracketed, CardSlip::ListBracketed];
        self.bracketed(infix && slips.contains(&self.slip), child, steps);
    }

    /// A child beside a sign.
    fn child(&self, operation: usize, child: usize, right: bool, steps: &mut Vec<Step<'a>>) {
        self.bracketed(self.needs(operation, child, right), child, steps);
    }

    fn bracketed(&self, brackets: bool, child: usize, steps: &mut Vec<Step<'a>>) {
        if brackets {
            steps.push(Step::Text(b")"));
        }
        steps.push(Step::Term(child));
        if brackets {
            steps.push(Step::Text(b"("));
        }
    }

    /// Whether the child would be taken apart without brackets: it has a sign between its children
    /// that binds less, or as much and on the side from which that precedence does not group.
    fn needs(&self, operation: usize, child: usize, right: bool) -> bool {
        let (Head::Operation(below), runs) = &self.graph.nodes[child] else {
            return false;
        };
        let (Some(sign), Some(below)) = (self.signs.of(operation), self.signs.of(*below)) else {
            return self.slip == CardSlip::RoomBeforeSigns;
        };
        if !self.infix(runs) {
            return self.slip == CardSlip::OperandsBracketed;
        }
        let groups_right = self.signs.groups_right(sign.precedence);
        let equal = match self.slip {
            CardSlip::EqualBracketed => true,
            CardSlip::EqualBare => false,
            CardSlip::SidesSwapped => right == groups_right,
            CardSlip::LeftAlways => right,
            CardSlip::SameSignBare => right != groups_right && sign.word != below.word,
            _ => right != groups_right,
        };
        match below.precedence.cmp(&sign.precedence) {
            std::cmp::Ordering::Less => self.slip != CardSlip::LooserBare,
            std::cmp::Ordering::Equal => equal,
            std::cmp::Ordering::Greater => self.slip == CardSlip::InfixBracketed,
        }
    }
}
