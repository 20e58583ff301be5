// SPDX-License-Identifier: Apache-2.0
//! The listing, parsed.

use crate::formula::Formula;
use crate::reading::{Reading, Side};
use crate::refusal::Refusal;
use crate::signs::SignTable;
use crate::text::{Head, Node, write};

/// A child term with how often it stands there: a run of equal children.
#[derive(Clone, Copy, Debug, PartialEq, Eq, Hash)]
pub struct Run {
    /// The child's number: lower than its parent's.
    pub child: usize,
    pub count: u64,
}

/// A distinct subterm of the formula. Children stand on lower lines.
#[derive(Clone, Debug, PartialEq, Eq, Hash)]
pub enum Line {
    Literal {
        operation: u16,
        value: u32,
    },
    Operation {
        operation: u16,
        children: Vec<Run>,
    },
    /// A marked place: the formula on line `left` for the left class, that on line `right` for
    /// the right one.
    Variants {
        left: usize,
        right: usize,
    },
}

/// The words of the first line behind the status, each with a number behind it.
const FIELDS: [&str; 6] = ["pairs", "rounds", "size", "mass", "skipped", "checks"];

/// Whether the run is complete, and the numbers of the first line's fields.
fn first_line(line: &str) -> Option<(bool, [u64; FIELDS.len()])> {
    let mut words = line.split(' ');
    let complete = match words.next()? {
        "complete" => true,
        "partial" => false,
        _ => return None,
    };
    let mut numbers = [0; FIELDS.len()];
    for (field, number) in FIELDS.iter().zip(&mut numbers) {
        if words.next()? != *field {
            return None;
        }
        *number = words.next()?.parse().ok()?;
    }
    words.next().is_none().then_some((complete, numbers))
}

/// The merged formula, and how the run ended.
///
/// The formula is a graph: line `k` is a subterm, and what it is made of stands on lower lines.
/// Written out as a tree it may be exponentially long, so [`Listing::text`] takes a limit.
#[derive(Clone, Debug, PartialEq, Eq)]
pub struct Listing {
    /// Whether the run ended by itself. Else it was cut short by the budget.
    pub complete: bool,
    /// How many pairs of classes the graph has; 1 where the run was cut short in building it.
    pub pairs: u64,
    /// How many finished rounds changed something.
    pub rounds: u64,
    /// The formula's size and mass.
    pub size: u64,
    pub mass: u64,
    /// How many monomial pairs were passed over in building, since a count in them is above
    /// 4,294,967,295; a pair that occurs again for the same classes and operation counts once.
    /// Above 0, a complete run is least among the formulas that do without them; where the run
    /// was cut short in building, they are those met until then.
    pub skipped: u64,
    /// How many checks passed. A complete run with n pairs and r rounds spends
    /// 2n + (r + 1)(n + 1), however large its budget; one that was cut short spends its budget.
    pub checks: u64,
    /// The distinct subterms; the last one is the formula. Never empty.
    pub terms: Vec<Line>,
    bytes: Vec<u8>,
}

impl Listing {
    /// The listing's bytes, as program `merge` prints them.
    pub fn bytes(&self) -> &[u8] {
        &self.bytes
    }

    /// The number of the formula among `terms`: the last one.
    pub fn root(&self) -> usize {
        self.terms.len() - 1
    }

    /// The formula with the first branch at every marked place: a formula of the left class.
    pub fn left_reading(&self) -> Reading {
        Reading::of(&self.terms, Side::Left)
    }

    /// The formula with the second branch at every marked place: a formula of the right class.
    pub fn right_reading(&self) -> Reading {
        Reading::of(&self.terms, Side::Right)
    }

    /// The formula in one line, at most `most` bytes of it and then `...`. A literal is its
    /// value, with its operation before it where the formula has literals of several; an
    /// operation is `op1(..)`; `x:3` is x three times; a marked place is `{left | right}`.
    pub fn text(&self, most: usize) -> String {
        text_of(&self.terms, most)
    }

    /// The formula alone, without how the run ended.
    pub fn formula(&self) -> Formula {
        let first = self.bytes.iter().position(|byte| *byte == b'\n');
        let lines = first.map(|end| self.bytes[end + 1..].to_vec());
        Formula::of(lines.expect("a listing has a first line"))
    }

    /// The formula's card: [`Cards::write`](crate::Cards::write) with a thread and buffers for this call
    /// alone.
    ///
    /// # Errors
    ///
    /// Those of [`Cards::write`](crate::Cards::write).
    pub fn card(&self, table: &SignTable) -> Result<String, Refusal> {
        self.formula().card(table)
    }

    /// Parses what the library wrote.
    pub(crate) fn of(bytes: Vec<u8>) -> Listing {
        Listing::parse(bytes).expect("a listing of libtariff.a")
    }

    /// `None` where it is no listing.
    fn parse(bytes: Vec<u8>) -> Option<Listing> {
        let text = std::str::from_utf8(&bytes).ok()?;
        let mut lines = text.strip_suffix('\n')?.split('\n');
        let (complete, [pairs, rounds, size, mass, skipped, checks]) = first_line(lines.next()?)?;
        let terms = terms_of(lines)?;
        Some(Listing {
            complete,
            pairs,
            rounds,
            size,
            mass,
            skipped,
            checks,
            terms,
            bytes,
        })
    }
}

/// The terms of lines, at least one. `None` where a line is none.
pub(crate) fn terms_of<'a>(lines: impl Iterator<Item = &'a str>) -> Option<Vec<Line>> {
    let terms: Option<Vec<Line>> = lines
        .enumerate()
        .map(|(at, line)| Line::parse(at, line))
        .collect();
    terms.filter(|terms| !terms.is_empty())
}

/// The last of these terms in one line: see [`Listing::text`].
pub(crate) fn text_of(terms: &[Line], most: usize) -> String {
    let nodes = |line: usize| match &terms[line] {
        Line::Literal { operation, value } => Node::Literal(*operation, *value),
        Line::Operation {
            operation,
            children,
        } => Node::Over(Head::Operation(*operation), children.into()),
        Line::Variants { left, right } => {
            let runs = [*left, *right].map(|child| Run { child, count: 1 });
            Node::Over(Head::Variants, runs.to_vec().into())
        }
    };
    write(terms.len(), nodes, most)
}

impl Line {
    /// Line number `at`, which may name lower lines only.
    fn parse(at: usize, line: &str) -> Option<Line> {
        let mut words = line.split(' ');
        if words.next()?.parse() != Ok(at) {
            return None;
        }
        let kind = words.next()?;
        if kind == "lit" {
            let line = Line::Literal {
                operation: words.next()?.parse().ok()?,
                value: words.next()?.parse().ok()?,
            };
            return words.next().is_none().then_some(line);
        }
        let operation = match kind {
            "op" => Some(words.next()?.parse().ok()?),
            "variants" => None,
            _ => return None,
        };
        let children: Vec<Run> = words
            .map(|word| {
                let (child, count) = word.split_once(':')?;
                let run = Run {
                    child: child.parse().ok()?,
                    count: count.parse().ok()?,
                };
                (run.child < at && run.count > 0).then_some(run)
            })
            .collect::<Option<_>>()?;
        if let Some(operation) = operation {
            return Some(Line::Operation {
                operation,
                children,
            });
        }
        match children[..] {
            [a, b] if a.count == 1 && b.count == 1 => Some(Line::Variants {
                left: a.child,
                right: b.child,
            }),
            [a] if a.count == 2 => Some(Line::Variants {
                left: a.child,
                right: a.child,
            }),
            _ => None,
        }
    }
}

#[cfg(test)]
mod tests {
    use super::first_line;

    #[test]
    fn first_lines() {
        let read = Some((true, [3, 1, 4, 2, 262_144, 14]));
        assert_eq!(
            first_line("complete pairs 3 rounds 1 size 4 mass 2 skipped 262144 checks 14"),
            read
        );
        let read = Some((false, [1, 0, 6, 6, 0, 4_294_967_295]));
        assert_eq!(
            first_line("partial pairs 1 rounds 0 size 6 mass 6 skipped 0 checks 4294967295"),
            read
        );
        for broken in [
            "",
            "refused 2",
            "done pairs 3 rounds 1 size 4 mass 2 skipped 0 checks 14",
            "complete pairs 3 rounds 1 size 4 mass 2",
            "complete pairs 3 rounds 1 size 4 mass 2 skipped 0",
            "complete pairs 3 rounds 1 size 4 mass 2 checks 14",
            "complete pairs 3 rounds 1 size 4 mass 2 checks 14 skipped 0",
            "complete pairs 3 rounds 1 size 4 mass 2 skipped checks 14",
            "complete pairs 3 rounds 1 size 4 mass 2 skipped 0 checks",
            "complete pairs 3 rounds 1 size 4 mass 2 skipped 0 checks 14 ",
            "complete pairs 3 rounds 1 size 4 mass 2 skipped 0 checks 14 more 0",
            "complete pairs 3 rounds 1 mass 2 size 4 skipped 0 checks 14",
            "complete pairs 3 rounds 1 size 4 mass 2 skipped -1 checks 14",
            "complete pairs 3 rounds 1 size 4 mass 2 skipped 0 checks -1",
        ] {
            assert_eq!(first_line(broken), None, "{broken}");
        }
    }
}
