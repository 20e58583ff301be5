// SPDX-License-Identifier: Apache-2.0
//! Terms as runs of (child, count), kept once each; refusal 13.

use std::cmp::Ordering;
use std::collections::HashMap;

use crate::image::{Image, LIT, Refusal, SET};
use crate::slip::Slip;

#[derive(Clone, Debug, PartialEq, Eq, Hash)]
pub enum Head {
    Operation(usize),
    Literal(usize, u32),
    /// The marked place.
    Variants,
}

pub type Runs = Vec<(usize, u64)>;

/// (size, mass), compared by size, then mass.
pub type Quality = (u128, u128);

pub struct Node {
    pub head: Head,
    pub runs: Runs,
    pub quality: Quality,
    /// The length of the expanded child list.
    length: u128,
}

pub struct Pool {
    pub nodes: Vec<Node>,
    number: HashMap<(Head, Runs), usize>,
    runs: usize,
    /// Terms met again, for a slip.
    again: usize,
    best: HashMap<usize, usize>,
    slip: Slip,
}

/// "Neighbours with the same child joined."
fn join(runs: impl IntoIterator<Item = (usize, u64)>) -> Runs {
    let mut joined: Runs = Vec::new();
    for (child, count) in runs {
        match joined.last_mut() {
            Some((last, sum)) if *last == child => *sum += count,
            _ => joined.push((child, count)),
        }
    }
    joined
}

impl Pool {
    pub fn new(slip: Slip) -> Self {
        Pool {
            nodes: Vec::new(),
            number: HashMap::new(),
            runs: 0,
            again: 0,
            best: HashMap::new(),
            slip,
        }
    }

    /// The number of a term; 13: "a term beyond 16,384 or a run beyond 65,536 would
    /// be entered".
    pub fn enter(&mut self, head: Head, runs: Runs) -> Result<usize, Refusal> {
        let runs = if self.slip == Slip::UnjoinedRuns {
            runs
        } else {
            join(runs)
        };
        let same = match head {
            Head::Variants if self.slip == Slip::HeadIgnored => Head::Operation(0),
            _ => head.clone(),
        };
        let key = (same, runs);
        if let Some(&number) = self.number.get(&key) {
            self.again += usize::from(self.slip == Slip::RepeatedTermsCounted);
            return Ok(number);
        }
        let runs = key.1.clone();
        if self.nodes.len() + self.again >= 16_384 || self.runs + runs.len() > 65_536 {
            return Err(Refusal(13));
        }
        self.runs += runs.len();
        let sum = |part: fn(Quality) -> u128| -> u128 {
            runs.iter()
                .map(|&(child, count)| u128::from(count) * part(self.nodes[child].quality))
                .sum()
        };
        let size = sum(|(size, _)| size);
        let quality = match head {
            // "A marked place has for both the sum of its branches' sizes."
            Head::Variants => (size, size),
            _ => (1 + size, sum(|(_, mass)| mass)),
        };
        let length = if self.slip == Slip::RunCountLength {
            runs.len() as u128
        } else {
            runs.iter().map(|&(_, count)| u128::from(count)).sum()
        };
        self.nodes.push(Node {
            head,
            runs,
            quality,
            length,
        });
        self.number.insert(key, self.nodes.len() - 1);
        Ok(self.nodes.len() - 1)
    }

    /// The best member's term, "which keep stored order".
    pub fn best(&mut self, image: &Image, class: usize) -> Result<usize, Refusal> {
        if let Some(&term) = self.best.get(&class) {
            return Ok(term);
        }
        let member = &image.members[image.classes[class].best];
        let kind = image.kind_of(member);
        let term = if kind == LIT {
            self.enter(Head::Literal(member.operation, member.literal), vec![])?
        } else {
            let mut runs = Vec::new();
            for child in image.children_of(member) {
                runs.push((self.best(image, child.class)?, u64::from(child.count)));
            }
            if self.slip == Slip::SortedBest && image.commutative(member.operation) {
                runs.sort_by(|a, b| self.compare(a.0, b.0));
            }
            self.enter(Head::Operation(member.operation), runs)?
        };
        self.best.insert(class, term);
        Ok(term)
    }

    /// "Starting term: the best term of one class, mass 0; or the marked place
    /// Variants of two best terms."
    pub fn starting(&mut self, image: &Image, left: usize, right: usize) -> Result<usize, Refusal> {
        let l = self.best(image, left)?;
        if left == right {
            return Ok(l);
        }
        let r = self.best(image, right)?;
        if self.slip == Slip::BranchesSwapped {
            return self.enter(Head::Variants, vec![(r, 1), (l, 1)]);
        }
        self.enter(Head::Variants, vec![(l, 1), (r, 1)])
    }

    /// The term of an action over its children; those of a commutative operation
    /// are put in order.
    pub fn action(
        &mut self,
        image: &Image,
        operation: usize,
        mut runs: Runs,
    ) -> Result<usize, Refusal> {
        let kind = image.operations[operation].kind;
        let sorted = match self.slip {
            Slip::SortedSPairMissing => kind >= 7 && kind <= SET,
            Slip::SortedSeq => image.commutative(operation) || kind == 6,
            _ => image.commutative(operation),
        };
        if sorted {
            runs.sort_by(|a, b| self.compare(a.0, b.0));
        }
        self.enter(Head::Operation(operation), runs)
    }

    /// The order of terms: operations before literals before marked places, by
    /// operation number and value, by expanded length, then by the first differing
    /// children of the expanded lists.
    pub fn compare(&self, a: usize, b: usize) -> Ordering {
        if a == b {
            return Ordering::Equal;
        }
        let (x, y) = (&self.nodes[a], &self.nodes[b]);
        let key = |node: &Node| match node.head {
            Head::Operation(operation) if self.slip == Slip::LiteralsFirst => (1, operation, 0),
            Head::Literal(operation, value) if self.slip == Slip::LiteralsFirst => {
                (0, operation, i64::from(value))
            }
            Head::Literal(operation, value) if self.slip == Slip::SignedLiterals => {
                (1, operation, i64::from(value as i32))
            }
            Head::Operation(operation) => (0, operation, 0),
            Head::Literal(operation, value) => (1, operation, i64::from(value)),
            Head::Variants => (2, 0, 0),
        };
        let (a, b) = (key(x), key(y));
        let heads = match self.slip {
            Slip::ValueBeforeOperation => (a.0, a.2, a.1).cmp(&(b.0, b.2, b.1)),
            Slip::OperationBeforeHead => (a.1, a.0, a.2).cmp(&(b.1, b.0, b.2)),
            Slip::VariantsFirst => ((a.0 + 1) % 3, a.1, a.2).cmp(&((b.0 + 1) % 3, b.1, b.2)),
            Slip::LengthBeforeOperation => {
                (a.0, x.length, a.1, a.2).cmp(&(b.0, y.length, b.1, b.2))
            }
            _ => a.cmp(&b),
        };
        let heads = heads.then(x.length.cmp(&y.length));
        if heads != Ordering::Equal {
            return heads;
        }
        if self.slip == Slip::RunsOneByOne {
            for (&(p, m), &(q, n)) in x.runs.iter().zip(&y.runs) {
                let order = self.compare(p, q).then(m.cmp(&n));
                if order != Ordering::Equal {
                    return order;
                }
            }
            return x.runs.len().cmp(&y.runs.len());
        }
        self.first_difference(&x.runs, &y.runs)
    }

    fn first_difference(&self, a: &Runs, b: &Runs) -> Ordering {
        let (mut i, mut j) = (0, 0);
        let (mut used_a, mut used_b) = (0, 0);
        while i < a.len() && j < b.len() {
            if a[i].0 != b[j].0 {
                return self.compare(a[i].0, b[j].0);
            }
            let same = (a[i].1 - used_a).min(b[j].1 - used_b);
            used_a += same;
            used_b += same;
            if used_a == a[i].1 {
                (i, used_a) = (i + 1, 0);
            }
            if used_b == b[j].1 {
                (j, used_b) = (j + 1, 0);
            }
        }
        Ordering::Equal
    }
}
