// SPDX-License-Identifier: Apache-2.0
//! "Belongs", and the two readings of a term: by the first branch at every marked
//! place, and by the second.

use std::collections::HashMap;

use crate::image::{Image, LIT};
use crate::monomial::monomials;
use crate::slip::Slip;
use crate::term::{Head, Pool, Runs};
use crate::transport::{Problem, solve};

/// The reading of `term` by branch 0 or 1, entered in a pool of its own.
pub struct Reading<'a> {
    of: &'a Pool,
    branch: usize,
    pub pool: Pool,
    known: HashMap<usize, usize>,
}

impl<'a> Reading<'a> {
    pub fn new(of: &'a Pool, branch: usize) -> Self {
        Reading {
            of,
            branch,
            pool: Pool::new(Slip::None),
            known: HashMap::new(),
        }
    }

    pub fn read(&mut self, term: usize) -> usize {
        if let Some(&read) = self.known.get(&term) {
            return read;
        }
        let node = &self.of.nodes[term];
        let read = if node.head == Head::Variants {
            // One run of two where both branches are the same term.
            let at = self.branch.min(node.runs.len() - 1);
            self.read(node.runs[at].0)
        } else {
            let runs = node
                .runs
                .iter()
                .map(|&(child, n)| (self.read(child), n))
                .collect();
            self.pool
                .enter(node.head.clone(), runs)
                .expect("no more terms than before")
        };
        self.known.insert(term, read);
        read
    }
}

pub struct Belongs<'a> {
    image: &'a Image,
    pool: &'a Pool,
    known: HashMap<(usize, usize), bool>,
}

impl<'a> Belongs<'a> {
    pub fn new(image: &'a Image, pool: &'a Pool) -> Self {
        Belongs {
            image,
            pool,
            known: HashMap::new(),
        }
    }

    /// "A term belongs to a class if it has a member's literal, or its operation over
    /// children belonging to the member's child classes."
    pub fn belongs(&mut self, term: usize, class: usize) -> bool {
        if let Some(&known) = self.known.get(&(term, class)) {
            return known;
        }
        let node = &self.pool.nodes[term];
        let found = match node.head {
            Head::Literal(operation, value) => self.image.members_of(class).iter().any(|member| {
                self.image.kind_of(member) == LIT
                    && (member.operation, member.literal) == (operation, value)
            }),
            Head::Variants => false,
            Head::Operation(operation) if self.image.commutative(operation) => {
                self.in_any_order(&node.runs, class, operation)
            }
            Head::Operation(operation) => self.in_order(&node.runs, class, operation),
        };
        self.known.insert((term, class), found);
        found
    }

    fn in_order(&mut self, runs: &Runs, class: usize, operation: usize) -> bool {
        let children: Vec<usize> = runs
            .iter()
            .flat_map(|&(child, count)| vec![child; count as usize])
            .collect();
        let image = self.image;
        image.members_of(class).iter().any(|member| {
            let classes = image.children_of(member);
            member.operation == operation
                && classes.len() == children.len()
                && children
                    .iter()
                    .zip(classes)
                    .all(|(&c, k)| self.belongs(c, k.class))
        })
    }

    /// "For commutative kinds order is free; with an identity, identity children may
    /// be added, and the class itself once may stand for a member."
    fn in_any_order(&mut self, runs: &Runs, class: usize, operation: usize) -> bool {
        let identity = self.image.identity(operation);
        let total: u64 = runs.iter().map(|run| run.1).sum();
        monomials(self.image, class, operation, Slip::None)
            .into_iter()
            .any(|mut wanted| {
                let stored: u64 = wanted.values().sum();
                if stored < total {
                    let Some(identity) = identity else {
                        return false;
                    };
                    *wanted.entry(identity).or_insert(0) += total - stored;
                }
                if stored > total {
                    return false;
                }
                if total == 0 {
                    return true;
                }
                let mut cells = Vec::new();
                for &(child, _) in runs {
                    for &class in wanted.keys() {
                        cells.push(self.belongs(child, class).then_some((0, 0)));
                    }
                }
                let problem = Problem {
                    supply: runs.iter().map(|run| run.1).collect(),
                    demand: wanted.into_values().collect(),
                    cells,
                };
                solve(&problem, Slip::None).is_ok()
            })
    }
}
