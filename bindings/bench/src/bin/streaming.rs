// SPDX-License-Identifier: Apache-2.0
//! What a member's children cost as they arrive: added one by one by the library, and sorted and merged at the end as the
//! Rust does it (`canonize`, ac_repr.rs), or after each child, which is what holding the monomial of every prefix costs
//! there. Nanoseconds a list, the least of several passes.

use std::hint::black_box;
use std::time::Instant;

use harness::rng::Rng;
use tariff_merge::Monomial;

const PASSES: usize = 40;
const LISTS: u32 = 2_000;

/// `canonize` of the listed Rust, word for word but for the type of a class.
fn canonize(mut m: Vec<(u32, u64)>) -> Vec<(u32, u64)> {
    m.sort_unstable_by_key(|(c, _)| *c);
    let mut out: Vec<(u32, u64)> = Vec::with_capacity(m.len());
    for (c, k) in m {
        if k == 0 {
            continue;
        }
        match out.last_mut() {
            Some((lc, lk)) if *lc == c => *lk = lk.checked_add(k).expect("64 bits"),
            _ => out.push((c, k)),
        }
    }
    out
}

fn at_the_end(children: &[(u16, u64)]) -> Vec<(u32, u64)> {
    canonize(children.iter().map(|(c, k)| (u32::from(*c), *k)).collect())
}

fn after_each(children: &[(u16, u64)]) -> Vec<(u32, u64)> {
    let mut held = Vec::new();
    for (c, k) in children {
        held.push((u32::from(*c), *k));
        held = canonize(held);
    }
    held
}

fn added(children: &[(u16, u64)]) -> Monomial {
    let mut held = Monomial::new();
    for (c, k) in children {
        held.add(*c, *k).expect("64 children");
    }
    held
}

fn time<T>(children: &[(u16, u64)], make: impl Fn(&[(u16, u64)]) -> T) -> f64 {
    let pass = |_| {
        let start = Instant::now();
        for _ in 0..LISTS {
            black_box(make(black_box(children)));
        }
        start.elapsed().as_secs_f64() * 1e9 / f64::from(LISTS)
    };
    (0..PASSES).map(pass).fold(f64::INFINITY, f64::min)
}

fn lists() -> Vec<(&'static str, Vec<(u16, u64)>)> {
    let mut rng = Rng::new(1);
    let mut drawn = |children: usize, classes: usize| {
        let child = |_| (rng.below(classes) as u16, rng.range(1, 9) as u64);
        (0..children).map(child).collect()
    };
    vec![
        ("4 children of 3 classes", drawn(4, 3)),
        ("8 children of 5 classes", drawn(8, 5)),
        ("16 children of 8 classes", drawn(16, 8)),
        ("64 children of 8 classes", drawn(64, 8)),
        ("64 children of 256 classes", drawn(64, 256)),
        ("64 classes, rising", (0..64).map(|c| (c, 1)).collect()),
        (
            "64 classes, falling",
            (0..64).rev().map(|c| (c, 1)).collect(),
        ),
    ]
}

fn main() {
    println!("| Children | Rust, once at the end | Rust, after each | Library, after each |");
    println!("|---|---|---|---|");
    for (what, children) in lists() {
        let expected: Vec<(u32, u64)> = at_the_end(&children);
        assert_eq!(expected, after_each(&children), "{what}");
        let held = added(&children);
        let terms = held.iter().map(|(c, k)| (u32::from(c), k));
        assert!(terms.eq(expected), "{what}");
        println!(
            "| {what} | {:.0} | {:.0} | {:.0} |",
            time(&children, at_the_end),
            time(&children, after_each),
            time(&children, added)
        );
    }
    println!("nanoseconds a list");
}
