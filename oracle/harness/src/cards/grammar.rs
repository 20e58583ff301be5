// SPDX-License-Identifier: Apache-2.0
//! The grammar taken literally, on spans of a text: every derivation of every span is looked for.
//!
//! - A formula is one of precedence 1 or more.
//! - One of precedence p or more is one of p + 1 or more; or two with a sign of precedence p between
//!   them, where p groups to the left of p or more and of p + 1 or more, else the other way round.
//! - One of precedence 10 is a literal, a sign and a list of formulas, not two of them, a marked place
//!   of two formulas, or a formula in brackets.

use std::collections::HashMap;
use std::rc::Rc;

use model::card::signs::Signs;
use model::card::{Graph, arity};
use model::term::Head;

/// A term written out.
#[derive(Clone, Debug, PartialEq, Eq, PartialOrd, Ord)]
pub enum Tree {
    Literal(u64, u64),
    Over(usize, Vec<Rc<Tree>>),
    Variants(Vec<Rc<Tree>>),
}

impl Tree {
    /// The last term of a graph, which is a small one.
    pub fn of(graph: &Graph) -> Rc<Tree> {
        let mut trees: Vec<Rc<Tree>> = Vec::new();
        for (head, runs) in &graph.nodes {
            assert!(arity(runs) < 1_000, "a small term");
            let children = runs
                .iter()
                .flat_map(|&(child, count)| vec![trees[child].clone(); count as usize])
                .collect();
            trees.push(Rc::new(match head {
                Head::Literal(operation, value) => {
                    Tree::Literal(*operation as u64, u64::from(*value))
                }
                Head::Operation(operation) => Tree::Over(*operation, children),
                Head::Variants => Tree::Variants(children),
            }));
        }
        trees.pop().expect("a term")
    }
}

type Trees = Rc<Vec<Rc<Tree>>>;

struct Spans<'a> {
    text: &'a [u8],
    /// The operations with their words, precedences and groupings.
    signs: Vec<(usize, Vec<u8>, u8, bool)>,
    found: HashMap<(u8, usize, usize), Trees>,
    lists: HashMap<(usize, usize), Rc<Vec<Vec<Rc<Tree>>>>>,
}

/// Every derivation of a text: its term, once for each.
pub fn derivations(signs: &Signs, text: &[u8]) -> Vec<Rc<Tree>> {
    let signs = (0..64)
        .filter_map(|operation| {
            let sign = signs.of(operation)?;
            let right = signs.groups_right(sign.precedence);
            Some((operation, sign.word.clone(), sign.precedence, right))
        })
        .collect();
    let mut spans = Spans {
        text,
        signs,
        found: HashMap::new(),
        lists: HashMap::new(),
    };
    spans.formula(1, 0, text.len()).to_vec()
}

fn decimal(bytes: &[u8], most: u64) -> Option<u64> {
    let text = std::str::from_utf8(bytes).ok()?;
    let number: u64 = text.parse().ok()?;
    (number.to_string() == text && number <= most).then_some(number)
}

impl Spans<'_> {
    /// Precedence p or more, from one place to another.
    fn formula(&mut self, p: u8, from: usize, to: usize) -> Trees {
        if let Some(found) = self.found.get(&(p, from, to)) {
            return found.clone();
        }
        let mut trees = Vec::new();
        if p == 10 {
            self.literal(from, to, &mut trees);
            self.bracketed(from, to, &mut trees);
            self.variants(from, to, &mut trees);
            self.list(from, to, &mut trees);
        } else {
            trees.extend(self.formula(p + 1, from, to).iter().cloned());
            for at in from..to {
                for (operation, behind, right) in self.infix(p, at, to) {
                    let levels = if right { (p + 1, p) } else { (p, p + 1) };
                    let lefts = self.formula(levels.0, from, at);
                    if lefts.is_empty() {
                        continue;
                    }
                    let rights = self.formula(levels.1, behind, to);
                    for left in lefts.iter() {
                        for right in rights.iter() {
                            let children = vec![left.clone(), right.clone()];
                            trees.push(Rc::new(Tree::Over(operation, children)));
                        }
                    }
                }
            }
        }
        let trees = Rc::new(trees);
        self.found.insert((p, from, to), trees.clone());
        trees
    }

    /// The operations of a precedence whose sign stands between spaces at a place: the place behind,
    /// and whether the precedence groups to the right.
    fn infix(&self, p: u8, at: usize, to: usize) -> Vec<(usize, usize, bool)> {
        if self.text[at] != b' ' {
            return Vec::new();
        }
        let stands = |(operation, word, precedence, right): &(usize, Vec<u8>, u8, bool)| {
            let spaced = [b" ", &word[..], b" "].concat();
            let there = *precedence == p && self.text[at..to].starts_with(&spaced);
            there.then_some((*operation, at + spaced.len(), *right))
        };
        self.signs.iter().filter_map(stands).collect()
    }

    fn literal(&self, from: usize, to: usize, trees: &mut Vec<Rc<Tree>>) {
        let span = &self.text[from..to];
        for (at, byte) in span.iter().enumerate() {
            if *byte == b'#'
                && let Some(value) = decimal(&span[..at], 4_294_967_295)
                && let Some(operation) = decimal(&span[at + 1..], 63)
            {
                trees.push(Rc::new(Tree::Literal(operation, value)));
            }
        }
    }

    /// What stands between two bytes at a span's ends.
    fn inside(&self, open: u8, shut: u8, from: usize, to: usize) -> Option<(usize, usize)> {
        let ends = to >= from + 2 && self.text[from] == open && self.text[to - 1] == shut;
        ends.then_some((from + 1, to - 1))
    }

    fn bracketed(&mut self, from: usize, to: usize, trees: &mut Vec<Rc<Tree>>) {
        if let Some((from, to)) = self.inside(b'(', b')', from, to) {
            trees.extend(self.formula(1, from, to).iter().cloned());
        }
    }

    fn variants(&mut self, from: usize, to: usize, trees: &mut Vec<Rc<Tree>>) {
        let Some((from, to)) = self.inside(b'{', b'}', from, to) else {
            return;
        };
        for at in from..to {
            if self.text[at..to].starts_with(b" | ") {
                let lefts = self.formula(1, from, at);
                let rights = self.formula(1, at + 3, to);
                for left in lefts.iter() {
                    for right in rights.iter() {
                        trees.push(Rc::new(Tree::Variants(vec![left.clone(), right.clone()])));
                    }
                }
            }
        }
    }

    fn list(&mut self, from: usize, to: usize, trees: &mut Vec<Rc<Tree>>) {
        let signs = self.signs.clone();
        for (operation, word, ..) in signs {
            if !self.text[from..to].starts_with(&word) {
                continue;
            }
            let Some((from, to)) = self.inside(b'[', b']', from + word.len(), to) else {
                continue;
            };
            if from == to {
                trees.push(Rc::new(Tree::Over(operation, Vec::new())));
            }
            for children in self.items(from, to).iter() {
                if children.len() != 2 {
                    trees.push(Rc::new(Tree::Over(operation, children.clone())));
                }
            }
        }
    }

    /// One formula or more, `; ` between them.
    fn items(&mut self, from: usize, to: usize) -> Rc<Vec<Vec<Rc<Tree>>>> {
        if let Some(found) = self.lists.get(&(from, to)) {
            return found.clone();
        }
        let last = self.formula(1, from, to);
        let mut found: Vec<Vec<Rc<Tree>>> = last.iter().map(|tree| vec![tree.clone()]).collect();
        for at in from..to {
            if self.text[at..to].starts_with(b"; ") {
                let firsts = self.formula(1, from, at);
                if firsts.is_empty() {
                    continue;
                }
                let rests = self.items(at + 2, to);
                for first in firsts.iter() {
                    for rest in rests.iter() {
                        found.push([&[first.clone()], &rest[..]].concat());
                    }
                }
            }
        }
        let found = Rc::new(found);
        self.lists.insert((from, to), found.clone());
        found
    }
}
