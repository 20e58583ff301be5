// SPDX-License-Identifier: Apache-2.0
//! A reading of a formula: one branch at every marked place.

use std::collections::HashMap;

use crate::listing::{Line, Run};
use crate::text::{Head, Node, write};

#[derive(Clone, Copy)]
pub(crate) enum Side {
    Left,
    Right,
}

/// A term without marked places.
#[derive(Clone, Debug, PartialEq, Eq, Hash)]
pub enum Term {
    Literal { operation: u16, value: u32 },
    Operation { operation: u16, children: Vec<Run> },
}

/// The distinct subterms of a reading, children before parents, numbered as a left-to-right
/// walk finishes them: the last one is the reading. Two readings are equal where their terms
/// are, child for child. Written out as a tree a reading may be exponentially long, so
/// [`Reading::text`] takes a limit.
#[derive(Clone, Debug, PartialEq, Eq, Hash)]
pub struct Reading {
    pub terms: Vec<Term>,
}

impl Reading {
    pub(crate) fn of(lines: &[Line], side: Side) -> Reading {
        let branch = |line: usize| {
            let mut at = line;
            while let Line::Variants { left, right } = lines[at] {
                at = match side {
                    Side::Left => left,
                    Side::Right => right,
                };
            }
            at
        };
        let mut terms = Vec::new();
        let mut known: HashMap<Term, usize> = HashMap::new();
        let mut number: Vec<Option<usize>> = vec![None; lines.len()];
        let root = branch(lines.len() - 1);
        // The lines under way, each with the number of its runs that are done.
        let mut walk = vec![(root, 0)];
        while let Some((line, done)) = walk.pop() {
            if number[line].is_some() {
                continue;
            }
            let term = match &lines[line] {
                Line::Operation {
                    operation,
                    children,
                } => {
                    if let Some(run) = children.get(done) {
                        walk.push((line, done + 1));
                        walk.push((branch(run.child), 0));
                        continue;
                    }
                    Term::Operation {
                        operation: *operation,
                        children: joined(children, |child| {
                            number[branch(child)].expect("children come before parents")
                        }),
                    }
                }
                Line::Literal { operation, value } => Term::Literal {
                    operation: *operation,
                    value: *value,
                },
                Line::Variants { .. } => unreachable!("branches are followed"),
            };
            let next = terms.len();
            let at = *known.entry(term).or_insert_with_key(|term| {
                terms.push(term.clone());
                next
            });
            number[line] = Some(at);
        }
        Reading { terms }
    }

    /// The number of the reading among `terms`: the last one.
    pub fn root(&self) -> usize {
        self.terms.len() - 1
    }

    /// The reading in one line, written as [`Listing::text`](crate::Listing::text) does.
    pub fn text(&self, most: usize) -> String {
        let nodes = |at: usize| match &self.terms[at] {
            Term::Literal { operation, value } => Node::Literal(*operation, *value),
            Term::Operation {
                operation,
                children,
            } => Node::Over(Head::Operation(*operation), children.into()),
        };
        write(self.terms.len(), nodes, most)
    }
}

/// The runs with new numbers, neighbours with the same child joined.
fn joined(children: &[Run], number: impl Fn(usize) -> usize) -> Vec<Run> {
    let mut runs: Vec<Run> = Vec::with_capacity(children.len());
    for run in children {
        let child = number(run.child);
        match runs.last_mut() {
            Some(last) if last.child == child => last.count += run.count,
            _ => runs.push(Run {
                child,
                count: run.count,
            }),
        }
    }
    runs
}
