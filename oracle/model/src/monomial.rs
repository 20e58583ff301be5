// SPDX-License-Identifier: Apache-2.0
//! "Monomial. Classes rising, counts of one class added."

use std::collections::BTreeMap;

use crate::image::{Image, SET};
use crate::slip::Slip;

/// Counts by class.
pub type Monomial = BTreeMap<usize, u64>;

/// The monomials of a class under an operation: its members in stored order, then
/// "an operation with an identity also gives a class the monomial of itself once".
pub fn monomials(image: &Image, class: usize, operation: usize, slip: Slip) -> Vec<Monomial> {
    let mut found = Vec::new();
    for member in image.members_of(class) {
        if member.operation != operation {
            continue;
        }
        let mut monomial = Monomial::new();
        for child in image.children_of(member) {
            let count = monomial.entry(child.class).or_insert(0);
            if slip == Slip::SetAsOnce && image.kind_of(member) == SET {
                *count = 1;
            } else {
                *count += u64::from(child.count);
            }
        }
        found.push(monomial);
    }
    let stands = (image.identity(operation).is_some() || slip == Slip::SelfWithoutIdentity)
        && slip != Slip::NoSelfMonomial
        && (slip != Slip::SelfOnlyWithoutMember || found.is_empty());
    if stands {
        let itself = Monomial::from([(class, 1)]);
        if slip == Slip::SelfFirst {
            found.insert(0, itself);
        } else {
            found.push(itself);
        }
    }
    found
}

/// "Unequal totals are padded with the identity; without one there is no pair."
pub fn pad(
    left: &Monomial,
    right: &Monomial,
    identity: Option<usize>,
    slip: Slip,
) -> Option<(Monomial, Monomial)> {
    let (mut left, mut right) = (left.clone(), right.clone());
    let totals: [u64; 2] = [left.values().sum(), right.values().sum()];
    if totals[0] != totals[1] {
        if slip == Slip::PadLeftOnly && totals[1] < totals[0] {
            return None;
        }
        let short = if totals[0] < totals[1] {
            &mut left
        } else {
            &mut right
        };
        let units = match slip {
            Slip::PadOnce => 1,
            _ => totals[0].abs_diff(totals[1]),
        };
        *short.entry(identity?).or_insert(0) += units;
    }
    Some((left, right))
}

/// "A pair with a count above 4,294,967,295 on either side is skipped."
pub fn skipped(left: &Monomial, right: &Monomial, slip: Slip) -> bool {
    let most = u64::from(u32::MAX) - u64::from(slip == Slip::SkipAtLimit);
    left.values()
        .chain(right.values())
        .any(|&count| count > most)
}
