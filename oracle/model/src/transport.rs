// SPDX-License-Identifier: Apache-2.0
//! "Transport", and refusals 15 and 16. The network is dense, so no edge list is
//! kept: the edges of a node, in the order of insertion, follow from the plan.

use std::collections::VecDeque;

use crate::image::Refusal;
use crate::slip::Slip;

pub struct Problem {
    pub supply: Vec<u64>,
    pub demand: Vec<u64>,
    /// Row by row; none where forbidden.
    pub cells: Vec<Option<(u64, u64)>>,
}

#[derive(Debug, PartialEq, Eq)]
pub struct Solution {
    /// Row by row.
    pub plan: Vec<u64>,
    pub size: u128,
    pub mass: u128,
}

#[derive(Clone, Copy, PartialEq, Eq, Debug)]
enum Node {
    Source,
    Row(usize),
    Column(usize),
    Sink,
}

/// A path cost: the weight size × W + mass, and apart from it size and mass.
type Cost = (i128, i128, i128);

struct Search<'a> {
    problem: &'a Problem,
    plan: &'a [u64],
    weight: i128,
    slip: Slip,
    label: Vec<Option<Cost>>,
    before: Vec<Node>,
    queue: VecDeque<Node>,
}

pub fn solve(problem: &Problem, slip: Slip) -> Result<Solution, Refusal> {
    let (rows, columns) = (problem.supply.len(), problem.demand.len());
    if rows > 65 || columns > 65 || problem.cells.len() != rows * columns {
        return Err(Refusal(15));
    }
    let flow: u64 = problem.supply.iter().sum();
    if rows == 0 || columns == 0 || flow != problem.demand.iter().sum::<u64>() {
        return Err(Refusal(16));
    }
    let weight = weight(problem, flow, slip);
    let mut plan = vec![0u64; rows * columns];
    let mut sent = 0;
    let mut patience = Patience::new(slip);
    while sent < flow {
        patience.wait()?;
        let mut search = Search {
            problem,
            plan: &plan,
            weight,
            slip,
            label: vec![None; rows + columns + 2],
            before: vec![Node::Source; rows + columns + 2],
            queue: VecDeque::new(),
        };
        search.run(&mut patience)?;
        let path = search.path().ok_or(Refusal(16))?;
        let room = path.iter().map(|edge| search.room(*edge)).min();
        let step = room.expect("a path has an edge");
        for (from, to) in path {
            match (from, to) {
                (Node::Row(i), Node::Column(j)) => plan[i * columns + j] += step,
                (Node::Column(j), Node::Row(i)) => plan[i * columns + j] -= step,
                _ => {}
            }
        }
        sent += step;
    }
    let total = |part: fn((u64, u64)) -> u64| {
        plan.iter()
            .zip(&problem.cells)
            .map(|(&units, cell)| u128::from(units) * u128::from(cell.map_or(0, part)))
            .sum()
    };
    Ok(Solution {
        size: total(|(size, _)| size),
        mass: total(|(_, mass)| mass),
        plan,
    })
}

/// The model always ends; with a slip the search may not, and is given up.
struct Patience(Option<u32>);

impl Patience {
    fn new(slip: Slip) -> Self {
        Patience((slip != Slip::None).then_some(2_000_000))
    }

    fn wait(&mut self) -> Result<(), Refusal> {
        if let Some(left) = &mut self.0 {
            *left = left.checked_sub(1).ok_or(Refusal(16))?;
        }
        Ok(())
    }
}

/// "F is the total supply, V the largest mass in an allowed cell, W = F × V + 1."
fn weight(problem: &Problem, flow: u64, slip: Slip) -> i128 {
    let columns = problem.demand.len();
    let largest = problem
        .cells
        .iter()
        .enumerate()
        .filter(|(at, _)| {
            slip != Slip::VFromOpenCells
                || (problem.supply[at / columns] > 0 && problem.demand[at % columns] > 0)
        })
        .filter_map(|(_, cell)| cell.map(|(_, mass)| mass))
        .max()
        .unwrap_or(0);
    let flow = if slip == Slip::WithoutF { 1 } else { flow };
    i128::from(flow) * i128::from(largest) + i128::from(slip != Slip::WithoutOne)
}

impl Search<'_> {
    fn rows(&self) -> usize {
        self.problem.supply.len()
    }

    fn columns(&self) -> usize {
        self.problem.demand.len()
    }

    fn place(&self, node: Node) -> usize {
        match node {
            Node::Source => 0,
            Node::Row(i) => 1 + i,
            Node::Column(j) => 1 + self.rows() + j,
            Node::Sink => 1 + self.rows() + self.columns(),
        }
    }

    fn row_flow(&self, i: usize) -> u64 {
        let columns = self.columns();
        self.plan[i * columns..(i + 1) * columns].iter().sum()
    }

    fn column_flow(&self, j: usize) -> u64 {
        (0..self.rows())
            .map(|i| self.plan[i * self.columns() + j])
            .sum()
    }

    /// What an edge can still take; a cell takes at most the smaller margin.
    fn room(&self, edge: (Node, Node)) -> u64 {
        let Problem {
            supply,
            demand,
            cells,
        } = self.problem;
        match edge {
            (Node::Source, Node::Row(i)) => supply[i] - self.row_flow(i),
            (Node::Row(i), Node::Source) => self.row_flow(i),
            (Node::Column(j), Node::Sink) => demand[j] - self.column_flow(j),
            (Node::Sink, Node::Column(j)) => self.column_flow(j),
            (Node::Row(i), Node::Column(j)) => {
                let at = i * self.columns() + j;
                let least = if self.slip == Slip::CapacityOfRow {
                    supply[i]
                } else {
                    supply[i].min(demand[j])
                };
                cells[at].map_or(0, |_| least.saturating_sub(self.plan[at]))
            }
            (Node::Column(j), Node::Row(i)) => self.plan[i * self.columns() + j],
            _ => 0,
        }
    }

    /// "Edges in order: source to rows, columns to sink, cells row by row .. each
    /// with its reverse."
    fn edges(&self, node: Node) -> Vec<Node> {
        let rows = (0..self.rows()).map(Node::Row);
        let columns = (0..self.columns()).map(Node::Column);
        match node {
            Node::Source if self.slip == Slip::SourceFromLast => rows.rev().collect(),
            Node::Source => rows.collect(),
            Node::Row(_) if self.slip == Slip::ColumnsFirst => {
                columns.rev().chain([Node::Source]).collect()
            }
            Node::Row(_) => [Node::Source].into_iter().chain(columns).collect(),
            Node::Column(_) if self.slip == Slip::NoReverse => vec![Node::Sink],
            Node::Column(_) if self.slip == Slip::RowsFromLast => {
                [Node::Sink].into_iter().chain(rows.rev()).collect()
            }
            Node::Column(_) if self.slip == Slip::FirstRowOnly => vec![Node::Sink, Node::Row(0)],
            Node::Column(_) if self.slip == Slip::SinkLast => rows.chain([Node::Sink]).collect(),
            Node::Column(_) => [Node::Sink].into_iter().chain(rows).collect(),
            Node::Sink if self.slip == Slip::NoSinkEdges => vec![],
            Node::Sink => columns.collect(),
        }
    }

    fn cost(&self, edge: (Node, Node)) -> Cost {
        let cell = |i: usize, j: usize| {
            let (size, mass) = self.problem.cells[i * self.columns() + j].unwrap_or((0, 0));
            let (size, mass) = (i128::from(size), i128::from(mass));
            (size * self.weight + mass, size, mass)
        };
        match edge {
            (Node::Row(i), Node::Column(j)) => cell(i, j),
            (Node::Column(j), Node::Row(i)) => {
                let (weight, size, mass) = cell(i, j);
                match self.slip {
                    Slip::ReverseNotNegated => (weight, size, mass),
                    Slip::ReverseFree => (0, 0, 0),
                    _ => (-weight, -size, -mass),
                }
            }
            _ => (0, 0, 0),
        }
    }

    /// "A strict improvement only."
    fn improves(&self, new: Cost, old: Option<Cost>) -> bool {
        let Some(old) = old else {
            return true;
        };
        if self.slip == Slip::PathsBySizeThenMass {
            return (new.1, new.2) < (old.1, old.2);
        }
        new.0 < old.0
    }

    /// "Paths come from a first-in first-out queue, a node's edges in insertion
    /// order, a strict improvement only."
    fn run(&mut self, patience: &mut Patience) -> Result<(), Refusal> {
        let mut joined = vec![false; self.label.len()];
        self.label[0] = Some((0, 0, 0));
        self.queue.push_back(Node::Source);
        let mut turns = 0;
        while let Some(node) = self.next() {
            patience.wait()?;
            turns += 1;
            if self.slip == Slip::FewTurns && turns > self.label.len() {
                break;
            }
            let from = self.label[self.place(node)].expect("a queued node has a label");
            for to in self.edges(node) {
                if self.room((node, to)) == 0 {
                    continue;
                }
                let step = self.cost((node, to));
                let new = (from.0 + step.0, from.1 + step.1, from.2 + step.2);
                let place = self.place(to);
                if self.improves(new, self.label[place]) {
                    self.label[place] = Some(new);
                    self.before[place] = node;
                    let waits = match self.slip {
                        Slip::QueueOnce => joined[place],
                        _ => self.queue.contains(&to),
                    };
                    joined[place] = true;
                    if !waits {
                        self.queue.push_back(to);
                    }
                } else if self.slip == Slip::LooseRelax
                    && to == Node::Sink
                    && self.label[place].is_some_and(|old| old.0 == new.0)
                {
                    self.before[place] = node;
                }
            }
        }
        Ok(())
    }

    fn next(&mut self) -> Option<Node> {
        if self.slip == Slip::StackQueue {
            self.queue.pop_back()
        } else {
            self.queue.pop_front()
        }
    }

    /// The edges from source to sink, if the sink was reached.
    fn path(&self) -> Option<Vec<(Node, Node)>> {
        self.label[self.place(Node::Sink)]?;
        let mut path = Vec::new();
        let mut node = Node::Sink;
        while node != Node::Source {
            // Only a slip goes round in a circle.
            if path.len() > self.before.len() {
                return None;
            }
            let before = self.before[self.place(node)];
            path.push((before, node));
            node = before;
        }
        path.reverse();
        Some(path)
    }
}
