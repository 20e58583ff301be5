// SPDX-License-Identifier: Apache-2.0
//! Drawn children for the static library, one after another: `children SEED COUNT`.
//!
//! Each list has a buffer of any length up to 140 numbers with something in every number, and more children than it may
//! hold. After each child the answer, the number of terms and every number of the buffer are held to the model, which makes
//! the list anew of all children added so far. Now and then a call says more terms than the buffer has: then it is refused
//! and nothing changes.
//!
//! After each child the list is narrowed too, and so is a buffer of the same length with any numbers, many of them at the
//! limit of 32 bits, by any number of terms: the first entry that fails is held to the model's.

use std::collections::BTreeMap;

use harness::children::{draw, states};
use harness::rng::Rng;
use model::children::too_large;
use tariff_merge::raw::{self, AddedChild, NarrowedList};

/// What the library says of so many terms, as the model does: of all terms of the buffer where it has no more.
fn narrowed(buffer: &[u64], terms: usize) -> &'static str {
    let list: Vec<(u64, u64)> = buffer
        .chunks_exact(2)
        .take(terms)
        .map(|term| (term[0], term[1]))
        .collect();
    let (number, entry) = too_large(&list).map_or((0, 0), |entry| (1, entry));
    assert_eq!(
        raw::narrow(buffer, terms),
        NarrowedList { number, entry },
        "{terms} terms of {buffer:?}"
    );
    ["narrowed: fits", "narrowed: fails"][number as usize]
}

/// A buffer of any numbers, most of them small enough in most buffers, with two behind it that fail where one reads past
/// its end; and how many terms a call says.
fn any(rng: &mut Rng, numbers: usize) -> (Vec<u64>, usize) {
    let rare = *rng.pick(&[1, 10, 100]);
    let number = |rng: &mut Rng| match rng.once_in(rare) {
        true => *rng.pick(&[1 << 32, (1 << 32) + 1, 1 << 33, 1 << 63, u64::MAX]),
        false => *rng.pick(&[0, 1, 9, (1 << 32) - 2, (1 << 32) - 1]),
    };
    let terms = match rng.once_in(9) {
        true => usize::MAX,
        false => rng.range(0, numbers / 2 + 9),
    };
    let mut buffer: Vec<u64> = (0..numbers).map(|_| number(rng)).collect();
    buffer.extend([u64::MAX; 2]);
    (buffer, terms)
}

fn fuzz(seed: u64, count: u64) -> BTreeMap<&'static str, u64> {
    let mut rng = Rng::new(seed);
    // of its own, so that a seed draws the same children with it and without
    let mut others = Rng::new(!seed);
    let mut met = BTreeMap::new();
    let mut done = 0;
    while done < count {
        let numbers = *rng.pick(&[2, 5, 12, 40, 130, 140]);
        let (numbers, children) = (rng.range(0, numbers), rng.range(1, 100));
        let stream = draw(&mut rng, numbers, children);
        let mut list = stream.buffer.clone();
        let mut terms = 0;
        for (state, &(class, count)) in states(&stream).iter().zip(&stream.children) {
            if rng.once_in(50) {
                let before = list.clone();
                let many = numbers / 2 + rng.range(1, 9);
                let refused = raw::add_child(&mut list, many, class, count);
                let expected = AddedChild {
                    number: 1,
                    terms: many,
                };
                assert_eq!(
                    (refused, &list),
                    (expected, &before),
                    "seed {seed}: {many} terms"
                );
            }
            let added = raw::add_child(&mut list, terms, class, count);
            let right =
                added.number == state.number && added.terms == state.terms && list == state.buffer;
            assert!(
                right,
                "call {done} of seed {seed}: {added:?} {list:?}, expected {} {} {:?}; children {:?}",
                state.number, state.terms, state.buffer, stream.children
            );
            terms = added.terms;
            let (other, said) = any(&mut others, numbers);
            for what in [
                ["added", "full", "overflow"][added.number as usize],
                narrowed(&list, terms),
                narrowed(&other[..numbers], said),
            ] {
                *met.entry(what).or_insert(0) += 1;
            }
            done += 1;
        }
    }
    met
}

fn main() {
    let words: Vec<String> = std::env::args().skip(1).collect();
    let asked = match &words[..] {
        [seed, count] => seed.parse().ok().zip(count.parse().ok()),
        _ => None,
    };
    let Some((seed, count)) = asked else {
        eprintln!("children SEED COUNT");
        std::process::exit(2);
    };
    for (what, times) in fuzz(seed, count) {
        println!("{times:>9}  {what}");
    }
    println!("every child and every narrowed list as promised");
}
