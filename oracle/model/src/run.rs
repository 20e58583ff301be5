// SPDX-License-Identifier: Apache-2.0
//! "Rounds": building, starting terms and rounds under a budget of checks.

use crate::action::{Action, Built, Graph, Monomials};
use crate::image::{Image, Refusal};
use crate::slip::Slip;
use crate::term::{Pool, Quality, Runs};
use crate::transport::{Problem, Solution, solve};

/// "With budget B, the first B checks pass and the next one is expired." (02, Paper 13) "The
/// checks that passed" are counted as they pass.
pub struct Budget {
    left: u64,
    passed: u64,
    slip: Slip,
}

impl Budget {
    pub fn new(checks: u32, slip: Slip) -> Self {
        Budget {
            left: u64::from(checks) + u64::from(slip == Slip::BudgetOneMore),
            passed: 0,
            slip,
        }
    }

    pub fn spend(&mut self) -> bool {
        let passes = self.left > 0;
        self.left = self.left.saturating_sub(1);
        self.passed += u64::from(passes || self.slip == Slip::ChecksExpired);
        passes
    }

    /// For slips: forgets what was counted since there were so many.
    fn forget(&mut self, passed: u64, slip: Slip) {
        if self.slip == slip {
            self.passed = passed;
        }
    }
}

/// Where a run ended.
#[derive(Clone, Copy, Debug, PartialEq, Eq, PartialOrd, Ord)]
pub enum Phase {
    Building,
    StartingTerms,
    RoundStart,
    InsideRound,
    Complete,
}

/// What was met on the way, for the counts of a comparison.
#[derive(Clone, Debug, Default)]
pub struct Met {
    /// Winning actions by the kind of their operation.
    pub winners: [u64; 10],
    pub crossed: u64,
    pub monomials: Monomials,
    pub transports_solved: u64,
    pub largest_transport: usize,
    /// The best quality of the root after each finished round, from the start.
    pub root: Vec<Quality>,
}

pub struct Outcome {
    pub phase: Phase,
    pub pairs: usize,
    pub rounds: usize,
    /// Monomial pairs passed over in building, each once for the same classes and operation.
    pub skipped: usize,
    /// The checks that passed.
    pub checks: u64,
    pub root: usize,
    pub pool: Pool,
    pub met: Met,
}

/// A run that may enter `limit` pairs.
pub fn run(
    image: &Image,
    left: usize,
    right: usize,
    checks: u32,
    limit: usize,
    slip: Slip,
) -> Result<Outcome, Refusal> {
    let mut budget = Budget::new(checks, slip);
    let mut pool = Pool::new(slip);
    let mut met = Met::default();
    // "The root's starting term is entered before building."
    let root = pool.starting(image, left, right)?;
    let graph = match Graph::build(image, (left, right), &mut budget, limit, slip)? {
        Built::Whole(graph) => graph,
        // "A run cut short in building reports 1 pair, any other run n."
        Built::Cut {
            entered,
            skipped,
            met: monomials,
        } => {
            met.monomials = monomials;
            return Ok(Outcome {
                phase: Phase::Building,
                pairs: if slip == Slip::BuildingPairs {
                    entered
                } else {
                    1
                },
                rounds: 0,
                skipped,
                checks: match slip {
                    Slip::ChecksCutNone => 0,
                    _ => budget.passed,
                },
                root,
                pool,
                met,
            });
        }
    };
    let (pairs, skipped) = (graph.pairs.len(), graph.skipped());
    met.monomials = graph.met;
    budget.forget(0, Slip::ChecksBuilding);
    let built = budget.passed;
    let mut terms = Vec::new();
    for &(left, right) in &graph.pairs {
        if slip != Slip::FreeStartingTerms && !budget.spend() {
            return Ok(Outcome {
                phase: Phase::StartingTerms,
                pairs,
                rounds: 0,
                skipped,
                checks: budget.passed,
                root,
                pool,
                met,
            });
        }
        terms.push(pool.starting(image, left, right)?);
        budget.forget(built, Slip::ChecksStartingTerms);
    }
    let mut qualities: Vec<Quality> = terms.iter().map(|&t| pool.nodes[t].quality).collect();
    let mut rounds = 0;
    let mut before = terms[0];
    let (phase, root) = loop {
        met.root.push(qualities[0]);
        let cut = |root| {
            if slip == Slip::CutRootImproved {
                before
            } else {
                root
            }
        };
        let before_round = budget.passed;
        if slip != Slip::FreeRoundStart && !budget.spend() {
            break (Phase::RoundStart, cut(terms[0]));
        }
        budget.forget(before_round, Slip::ChecksRoundStart);
        let round = Round {
            image,
            graph: &graph,
            slip,
        };
        match round.pass(&terms, &qualities, &mut pool, &mut budget, &mut met)? {
            Pass::Cut(root) if slip == Slip::CutRoundKept => break (Phase::InsideRound, root),
            Pass::Cut(_) => {
                budget.forget(before_round, Slip::ChecksCutRound);
                break (Phase::InsideRound, cut(terms[0]));
            }
            // "The run is complete at the first finished round without change."
            Pass::Finished(next, _) if next == terms => {
                rounds += usize::from(slip == Slip::UnchangedCounted);
                budget.forget(before_round, Slip::ChecksQuietRound);
                break (Phase::Complete, terms[0]);
            }
            Pass::Finished(next, better) => {
                before = terms[0];
                (terms, qualities) = (next, better);
                rounds += 1;
                budget.forget(before_round, Slip::ChecksChangingRounds);
                if slip == Slip::OneRound {
                    break (Phase::Complete, terms[0]);
                }
            }
        }
    };
    Ok(Outcome {
        phase,
        pairs,
        rounds,
        skipped,
        checks: match slip {
            Slip::ChecksBudget => u64::from(checks),
            _ => budget.passed,
        },
        root,
        pool,
        met,
    })
}

struct Round<'a> {
    image: &'a Image,
    graph: &'a Graph,
    slip: Slip,
}

enum Pass {
    /// The terms and qualities after a finished round.
    Finished(Vec<usize>, Vec<Quality>),
    /// Cut short; the root's term that the round would have given.
    Cut(usize),
}

impl Round<'_> {
    /// One round: "all pairs read the previous round; a strictly better action
    /// replaces". A final term is entered at the end of its pair's turn.
    fn pass(
        &self,
        terms: &[usize],
        qualities: &[Quality],
        pool: &mut Pool,
        budget: &mut Budget,
        met: &mut Met,
    ) -> Result<Pass, Refusal> {
        let (mut next, mut better) = (terms.to_vec(), qualities.to_vec());
        let mut late = Vec::new();
        for (number, &(left, right)) in self.graph.pairs.iter().enumerate() {
            let free = self.slip == Slip::FreeSelfPairs && left == right;
            let before = budget.passed;
            if !free && !budget.spend() {
                return Ok(Pass::Cut(next[0]));
            }
            if left == right {
                budget.forget(before, Slip::ChecksSelfPairs);
            }
            let same = self.slip == Slip::SameRound;
            let qualities = if same { &better[..] } else { qualities };
            let terms = if same { &next[..] } else { terms };
            let mut best = qualities[number];
            let mut winner = None;
            for action in &self.graph.actions[number] {
                let Some((quality, solution)) = self.value(action, qualities, met) else {
                    continue;
                };
                if self.replaces(quality, best, winner.is_some()) {
                    best = quality;
                    if self.slip == Slip::CandidatesCounted {
                        self.term(action, solution.as_ref(), terms, pool)?;
                    }
                    winner = Some((action, solution));
                }
            }
            if let Some((action, solution)) = winner {
                met.winners[usize::from(self.image.operations[operation(action)].kind)] += 1;
                if let Action::Structural { crossed: true, .. } = action {
                    met.crossed += 1;
                }
                better[number] = best;
                if self.slip == Slip::EnterAtRoundEnd {
                    late.push((number, action, solution));
                } else {
                    next[number] = self.term(action, solution.as_ref(), terms, pool)?;
                }
            }
        }
        for (number, action, solution) in late {
            next[number] = self.term(action, solution.as_ref(), terms, pool)?;
        }
        Ok(Pass::Finished(next, better))
    }

    fn replaces(&self, new: Quality, old: Quality, improved: bool) -> bool {
        match self.slip {
            Slip::MassIgnored => new.0 < old.0,
            // Equal to the round before must not replace, or no run would end.
            Slip::LooseReplace if improved => new <= old,
            _ => new < old,
        }
    }

    /// "An action gives 1 plus the sum of count × size, and the sum of count × mass."
    fn value(
        &self,
        action: &Action,
        qualities: &[Quality],
        met: &mut Met,
    ) -> Option<(Quality, Option<Solution>)> {
        match action {
            Action::Structural { children, .. } => {
                let size: u128 = children.iter().map(|&child| qualities[child].0).sum();
                let mass = children.iter().map(|&child| qualities[child].1).sum();
                Some(((1 + size, mass), None))
            }
            Action::Transport {
                supply,
                demand,
                cells,
                ..
            } => {
                let problem = Problem {
                    supply: supply.clone(),
                    demand: demand.clone(),
                    cells: cells
                        .iter()
                        .map(|&child| Some(qualities[child]))
                        .map(|q| q.map(|(size, mass)| (size as u64, mass as u64)))
                        .collect(),
                };
                met.transports_solved += 1;
                met.largest_transport = met.largest_transport.max(cells.len());
                let solution = solve(&problem, self.slip).ok()?;
                Some(((1 + solution.size, solution.mass), Some(solution)))
            }
        }
    }

    fn term(
        &self,
        action: &Action,
        solution: Option<&Solution>,
        terms: &[usize],
        pool: &mut Pool,
    ) -> Result<usize, Refusal> {
        let runs: Runs = match (action, solution) {
            (Action::Transport { cells, .. }, Some(solution)) => cells
                .iter()
                .zip(&solution.plan)
                .filter(|&(_, &units)| units > 0)
                .map(|(&child, &units)| (terms[child], units))
                .collect(),
            (Action::Structural { children, .. }, _) => {
                children.iter().map(|&child| (terms[child], 1)).collect()
            }
            (Action::Transport { .. }, None) => unreachable!("a transport wins by its plan"),
        };
        pool.action(self.image, operation(action), runs)
    }
}

fn operation(action: &Action) -> usize {
    match action {
        Action::Structural { operation, .. } | Action::Transport { operation, .. } => *operation,
    }
}
