// SPDX-License-Identifier: Apache-2.0
//! (02, Paper 6) "after each child, the list held is the monomial of the children read so far": the children are kept as
//! they came, and the list is made of all of them, anew after each.
//!
//! (Paper 7) "Narrowing a monomial must say that it failed and at which entry (from 0) first."

use std::collections::BTreeMap;

#[derive(Clone, Copy, Debug, PartialEq, Eq)]
pub enum Added {
    Held,
    /// The classes of the children read so far, with this one's, are more than the list has places for.
    Full,
    /// The counts of the child's class, with this one's, are more than 64 bits hold.
    Overflow,
}

/// The children that were added, and how many classes the list has places for.
pub struct Children {
    places: usize,
    read: Vec<(u64, u64)>,
}

fn sums(children: &[(u64, u64)]) -> BTreeMap<u64, u128> {
    let mut sums = BTreeMap::new();
    for (class, count) in children {
        *sums.entry(*class).or_insert(0) += u128::from(*count);
    }
    sums
}

impl Children {
    pub fn new(places: usize) -> Children {
        Children {
            places,
            read: Vec::new(),
        }
    }

    pub fn add(&mut self, class: u64, count: u64) -> Added {
        self.read.push((class, count));
        let sums = sums(&self.read);
        let refused = if sums.len() > self.places {
            Added::Full
        } else if sums[&class] > u128::from(u64::MAX) {
            Added::Overflow
        } else {
            return Added::Held;
        };
        self.read.pop();
        refused
    }

    /// Each class with its count, classes rising.
    pub fn list(&self) -> Vec<(u64, u64)> {
        let count = |sum: u128| u64::try_from(sum).expect("64 bits");
        sums(&self.read)
            .into_iter()
            .map(|(class, sum)| (class, count(sum)))
            .collect()
    }
}

/// The first entry of a list whose count is above 4,294,967,295, where there is one.
pub fn too_large(list: &[(u64, u64)]) -> Option<usize> {
    list.iter().position(|(_, count)| *count > 4_294_967_295)
}
