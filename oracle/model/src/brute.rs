// SPDX-License-Identifier: Apache-2.0
//! "Derivation", by brute force on tiny images: the qualities of all derivations of
//! a height, every whole-number plan and every choice of a derivation for each
//! place. Nothing is minimized on the way.

use std::collections::{BTreeSet, HashMap};

use crate::action::{Monomials, Pair, Transport, structural, transports};
use crate::image::Image;
use crate::slip::Slip;

type Qualities = BTreeSet<(u64, u64)>;

/// An image is tiny while no set of qualities and no list of plans passes this.
const TINY: usize = 3_000;

pub struct Derivations<'a> {
    image: &'a Image,
    known: HashMap<(Pair, usize), Qualities>,
}

impl<'a> Derivations<'a> {
    pub fn new(image: &'a Image) -> Self {
        Derivations {
            image,
            known: HashMap::new(),
        }
    }

    /// The least quality among the derivations of height at most `height`; none
    /// where the image is not tiny.
    pub fn least(&mut self, pair: Pair, height: usize) -> Option<(u64, u64)> {
        self.qualities(pair, height)?.first().copied()
    }

    fn qualities(&mut self, pair: Pair, height: usize) -> Option<Qualities> {
        if let Some(found) = self.known.get(&(pair, height)) {
            return Some(found.clone());
        }
        let size = |class: usize| u64::from(self.image.classes[class].size);
        let start = if pair.0 == pair.1 {
            (size(pair.0), 0)
        } else {
            let both = size(pair.0) + size(pair.1);
            (both, both)
        };
        let mut found = Qualities::from([start]);
        if height > 0 && pair.0 != pair.1 {
            for places in self.actions(pair)? {
                let mut sums = Qualities::from([(1, 0)]);
                for (joined, count) in places {
                    let below = self.qualities(joined, height - 1)?;
                    for _ in 0..count {
                        sums = add(&sums, &below)?;
                    }
                }
                found.extend(sums);
            }
        }
        if found.len() > TINY {
            return None;
        }
        self.known.insert((pair, height), found.clone());
        Some(found)
    }

    /// Every action with every plan, as joined pairs with counts.
    fn actions(&self, pair: Pair) -> Option<Vec<Vec<(Pair, u64)>>> {
        let mut found = Vec::new();
        for (_, _, joined) in structural(self.image, pair, Slip::None) {
            found.push(joined.into_iter().map(|pair| (pair, 1)).collect());
        }
        let mut met = Monomials::default();
        for transport in transports(self.image, pair, &mut met, Slip::None) {
            let skipped = transport.skipped(Slip::None);
            let Transport { left, right, .. } = transport;
            // "A monomial pair with an empty side has no plan."
            if skipped || left.is_empty() || right.is_empty() {
                continue;
            }
            if left.values().sum::<u64>() > 12 {
                return None;
            }
            let rows: Vec<(usize, u64)> = left.into_iter().collect();
            let columns: Vec<(usize, u64)> = right.into_iter().collect();
            plans(&rows, &columns, &mut Vec::new(), &mut found);
            if found.len() > TINY {
                return None;
            }
        }
        Some(found)
    }
}

fn add(a: &Qualities, b: &Qualities) -> Option<Qualities> {
    let mut sums = Qualities::new();
    for x in a {
        for y in b {
            sums.insert((x.0 + y.0, x.1 + y.1));
        }
    }
    (sums.len() <= TINY).then_some(sums)
}

/// Whole numbers that meet the margins: each row's first unit goes to each column
/// with room, cell by cell in order so that no plan comes twice.
fn plans(
    rows: &[(usize, u64)],
    columns: &[(usize, u64)],
    chosen: &mut Vec<(Pair, u64)>,
    found: &mut Vec<Vec<(Pair, u64)>>,
) {
    if found.len() > TINY {
        return;
    }
    let Some((&(row, supply), rest)) = rows.split_first() else {
        if columns.iter().all(|&(_, room)| room == 0) {
            found.push(chosen.clone());
        }
        return;
    };
    share(row, supply, 0, columns, chosen, &mut |columns, chosen| {
        plans(rest, columns, chosen, found);
    });
}

fn share(
    row: usize,
    supply: u64,
    at: usize,
    columns: &[(usize, u64)],
    chosen: &mut Vec<(Pair, u64)>,
    then: &mut dyn FnMut(&[(usize, u64)], &mut Vec<(Pair, u64)>),
) {
    if at == columns.len() {
        if supply == 0 {
            then(columns, chosen);
        }
        return;
    }
    let (column, room) = columns[at];
    for units in 0..=supply.min(room) {
        let mut left = columns.to_vec();
        left[at].1 -= units;
        chosen.push(((row, column), units));
        share(row, supply - units, at + 1, &left, chosen, then);
        chosen.pop();
    }
}
