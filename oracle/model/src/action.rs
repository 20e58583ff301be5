// SPDX-License-Identifier: Apache-2.0
//! "Action", and the "Graph" of the pairs that actions join.

use std::collections::{BTreeSet, HashMap, HashSet};

use crate::image::{Child, Image, LIT, MSET, Member, PLAIN0, Refusal, SET, SPAIR};
use crate::monomial::{Monomial, monomials, pad, skipped};
use crate::run::Budget;
use crate::slip::Slip;

pub type Pair = (usize, usize);

/// An action over pairs of the graph, by their numbers.
pub enum Action {
    Structural {
        operation: usize,
        children: Vec<usize>,
        /// An SPair with its children crossed.
        crossed: bool,
    },
    Transport {
        operation: usize,
        supply: Vec<u64>,
        demand: Vec<u64>,
        /// Row by row.
        cells: Vec<usize>,
    },
}

/// The pairs in the order they are entered, each with its actions in order.
pub struct Graph {
    pub pairs: Vec<Pair>,
    pub actions: Vec<Vec<Action>>,
    number: HashMap<Pair, usize>,
    /// How many pairs may be entered.
    limit: usize,
    passed_over: HashSet<PassedOver>,
    pub met: Monomials,
}

/// A monomial pair of two classes under an operation, padded.
pub struct Transport {
    pub operation: usize,
    pub left: Monomial,
    pub right: Monomial,
    /// How many identities were added on the left and on the right.
    pub added: (u64, u64),
}

/// (02, Paper 7) A monomial pair that is passed over is "counted once" "for the same left
/// class, right class and operation": these, and both sides after padding. The last number is
/// for slips.
type PassedOver = (Pair, usize, Monomial, Monomial, (u64, u64));

/// Monomial pairs met in building, for the counts of a comparison.
#[derive(Clone, Copy, Debug, Default)]
pub struct Monomials {
    pub paired: u64,
    pub padded: u64,
    pub skipped: u64,
    pub with_itself: u64,
    pub empty_side: u64,
}

/// How building ended, if no refusal was met.
pub enum Built {
    Whole(Graph),
    /// Those passed over until then are counted.
    Cut {
        entered: usize,
        skipped: usize,
        met: Monomials,
    },
}

impl Graph {
    /// "Built in full, it holds the queried pair (left class, right class) and, with each
    /// pair, every pair of classes that an action of it joins". One check a pair.
    pub fn build(
        image: &Image,
        root: Pair,
        budget: &mut Budget,
        limit: usize,
        slip: Slip,
    ) -> Result<Built, Refusal> {
        let mut graph = Graph {
            pairs: Vec::new(),
            actions: Vec::new(),
            number: HashMap::new(),
            limit,
            passed_over: HashSet::new(),
            met: Monomials::default(),
        };
        graph.enter(root, slip)?;
        while graph.actions.len() < graph.pairs.len() {
            let pair = graph.pairs[graph.actions.len()];
            if !budget.spend() {
                if slip == Slip::SkippedExpired && pair.0 != pair.1 {
                    let all = transports(image, pair, &mut Monomials::default(), slip);
                    for wide in all.iter().filter(|one| one.skipped(slip)) {
                        graph.pass_over(pair, wide, slip);
                    }
                }
                return Ok(Built::Cut {
                    entered: graph.pairs.len(),
                    skipped: match slip {
                        Slip::SkippedCutNone => 0,
                        _ => graph.skipped(),
                    },
                    met: graph.met,
                });
            }
            let mut actions = Vec::new();
            // "A class paired with itself has no actions."
            if pair.0 != pair.1 {
                for (operation, crossed, joined) in structural(image, pair, slip) {
                    let children = joined
                        .into_iter()
                        .map(|joined| graph.enter(joined, slip))
                        .collect::<Result<_, _>>()?;
                    actions.push(Action::Structural {
                        operation,
                        children,
                        crossed,
                    });
                }
                let straight = actions.len();
                for transport in transports(image, pair, &mut graph.met, slip) {
                    let wide = transport.skipped(slip);
                    if wide {
                        graph.pass_over(pair, &transport, slip);
                        if slip != Slip::SkippedCellsEntered {
                            continue;
                        }
                    }
                    let Transport {
                        operation,
                        left,
                        right,
                        ..
                    } = transport;
                    // "In transport each row with each column whatever the plan."
                    let mut cells = Vec::new();
                    for &row in left.keys() {
                        for &column in right.keys() {
                            cells.push(graph.enter((row, column), slip)?);
                        }
                    }
                    if wide {
                        continue;
                    }
                    actions.push(Action::Transport {
                        operation,
                        supply: left.into_values().collect(),
                        demand: right.into_values().collect(),
                        cells,
                    });
                }
                if slip == Slip::TransportFirst {
                    actions.rotate_left(straight);
                }
            }
            graph.actions.push(actions);
        }
        Ok(Built::Whole(graph))
    }

    /// "The number of monomial pairs passed over in building, zero included."
    pub fn skipped(&self) -> usize {
        self.passed_over.len()
    }

    fn pass_over(&mut self, pair: Pair, wide: &Transport, slip: Slip) {
        self.met.skipped += 1;
        let mut once = (
            pair,
            wide.operation,
            wide.left.clone(),
            wide.right.clone(),
            (0, 0),
        );
        match slip {
            Slip::SkippedUncounted => return,
            Slip::SkippedTwice => once.4.0 = self.met.skipped,
            Slip::SkippedByRows => once.3.clear(),
            Slip::SkippedUnpadded => once.4 = wide.added,
            Slip::SkippedPaddedApart => once.4.0 = u64::from(wide.added != (0, 0)),
            Slip::SkippedOnceAPair => once.1 = 0,
            Slip::SkippedOnceAQuery => once.0 = (0, 0),
            _ => {}
        }
        self.passed_over.insert(once);
    }

    /// The number of a pair; 12: "a pair beyond 4,096 would be entered", and "returned at the
    /// caller's own limit" (02, Paper 9).
    fn enter(&mut self, pair: Pair, slip: Slip) -> Result<usize, Refusal> {
        if let Some(&number) = self.number.get(&pair) {
            return Ok(number);
        }
        let most = match slip {
            Slip::Pairs4095 => self.limit - 1,
            Slip::Pairs4097 => self.limit + 1,
            _ => self.limit,
        };
        if self.pairs.len() == most {
            return Err(Refusal(12));
        }
        self.pairs.push(pair);
        self.number.insert(pair, self.pairs.len() - 1);
        Ok(self.pairs.len() - 1)
    }
}

impl Transport {
    pub fn skipped(&self, slip: Slip) -> bool {
        skipped(&self.left, &self.right, slip)
    }
}

/// Structural actions: operations rising, left members outermost, in stored order.
pub fn structural(image: &Image, pair: Pair, slip: Slip) -> Vec<(usize, bool, Vec<Pair>)> {
    let mut found = Vec::new();
    for left in image.members_of(pair.0) {
        for right in image.members_of(pair.1) {
            if left.operation == right.operation {
                for (crossed, joined) in alignments(image, left, right, slip) {
                    found.push((left.operation, crossed, joined));
                }
            }
        }
    }
    // Members stand in operation order; keep it where a slip lets them not.
    found.sort_by_key(|&(operation, _, _)| operation);
    found
}

/// How two members of one operation pair their children; true where crossed.
fn alignments(image: &Image, left: &Member, right: &Member, slip: Slip) -> Vec<(bool, Vec<Pair>)> {
    let (l, r) = (image.children_of(left), image.children_of(right));
    let straight = l.iter().zip(r).map(|(l, r)| (l.class, r.class));
    let straight = (false, straight.collect());
    match image.kind_of(left) {
        MSET | SET | LIT => vec![],
        PLAIN0 if slip == Slip::Plain0Missing => vec![],
        SPAIR => {
            let two = |side: &[Child]| side[0].class != side[1].class;
            if two(l) && two(r) && slip != Slip::NoCrossed {
                let crossed = vec![(l[0].class, r[1].class), (l[1].class, r[0].class)];
                let crossed = (true, crossed);
                if slip == Slip::CrossedFirst {
                    vec![crossed, straight]
                } else {
                    vec![straight, crossed]
                }
            } else {
                vec![straight]
            }
        }
        _ if l.len() == r.len() || slip == Slip::PrefixArity => vec![straight],
        _ => vec![],
    }
}

/// "An MSet or Set operation of either class acts by transport over each monomial
/// pair, except both classes as themselves once." Operations rising, left outermost.
pub fn transports(image: &Image, pair: Pair, met: &mut Monomials, slip: Slip) -> Vec<Transport> {
    let (left, right) = pair;
    let operations_of = |class: usize| -> Vec<usize> {
        image
            .members_of(class)
            .iter()
            .filter(|member| [MSET, SET].contains(&image.kind_of(member)))
            .map(|member| member.operation)
            .collect()
    };
    let (of_left, of_right) = (operations_of(left), operations_of(right));
    let rising: BTreeSet<usize> = of_left.iter().chain(&of_right).copied().collect();
    let mut operations: Vec<usize> = rising.into_iter().collect();
    if slip == Slip::OneSidedMissing {
        operations.retain(|o| of_left.contains(o) && of_right.contains(o));
    }
    if slip == Slip::OperationsAsMet {
        operations.sort_by_key(|o| !of_left.contains(o));
    }
    let mut found = Vec::new();
    for operation in operations {
        for l in monomials(image, left, operation, slip) {
            for r in monomials(image, right, operation, slip) {
                let itself = |class| Monomial::from([(class, 1)]);
                if l == itself(left) && r == itself(right) {
                    continue;
                }
                let Some(padded) = pad(&l, &r, image.identity(operation), slip) else {
                    continue;
                };
                let total = |side: &Monomial| side.values().sum::<u64>();
                let added = (total(&padded.0) - total(&l), total(&padded.1) - total(&r));
                met.paired += 1;
                met.padded += u64::from(added != (0, 0));
                met.with_itself += u64::from(l == itself(left) || r == itself(right));
                met.empty_side += u64::from(padded.0.is_empty() || padded.1.is_empty());
                found.push(Transport {
                    operation,
                    left: padded.0,
                    right: padded.1,
                    added,
                });
            }
        }
    }
    found
}
