// SPDX-License-Identifier: Apache-2.0
//! Queries for the bench, for the comparison of the callers and for the test of the stack: frames (image, left, right,
//! budget).

pub mod buffers;
pub mod cards;
pub mod stack;

use harness::r#gen::{FAMILIES, class, lit, over};
use harness::img::{Class, Img, Member, Operation, Query};
use harness::limits::{many_terms, pairs};
use harness::turned::{First, Ran};
use harness::{draw, draw_first, text};
use tariff_merge::{Caller, Merger};

/// The words of a command line `SEED COUNT [FAMILY]`.
pub fn seed_count_family() -> Option<(u64, usize, Option<&'static str>)> {
    let words: Vec<String> = std::env::args().skip(1).collect();
    let (seed, count) = (words.first()?.parse().ok()?, words.get(1)?.parse().ok()?);
    let known = |name: &String| FAMILIES.iter().find(|family| family.0 == name);
    match &words[2..] {
        [] => Some((seed, count, None)),
        [name] => Some((seed, count, Some(known(name)?.0))),
        _ => None,
    }
}

fn op(kind: u8) -> Operation {
    Operation {
        kind,
        identity: None,
    }
}

fn frame(mut img: Img, left: usize, right: usize) -> Vec<u8> {
    img.order();
    assert!(img.settle(), "every class has a finite term");
    img.frame(&Query {
        left,
        right,
        budget: u32::MAX,
    })
}

fn literals(count: usize) -> Vec<Class> {
    (0..count).map(|n| class(vec![lit(0, n as u32)])).collect()
}

/// Two cycles of classes, with one step in each at a time: `left` × `right` pairs where the
/// lengths have no common divisor. One pair is cheaper than its two classes, and each round
/// carries that one pair further: as many rounds as pairs, and a formula as deep.
pub fn cycles(left: usize, right: usize) -> Vec<u8> {
    let mut classes = literals(3);
    for _ in 0..13 {
        let under = if classes.len() == 3 {
            0
        } else {
            classes.len() - 1
        };
        classes.push(class(vec![over(2, &[under, under])]));
    }
    let costly = classes.len() - 1;
    let starts = [classes.len(), classes.len() + left];
    for (first, length, own, end) in [(starts[0], left, 3, 1), (starts[1], right, 4, 2)] {
        for step in 0..length {
            let apart = if step + 1 == length {
                over(5, &[costly, end])
            } else {
                over(own, &[costly])
            };
            let next = over(1, &[first + (step + 1) % length]);
            classes.push(class(vec![next, apart]));
        }
    }
    let ops = vec![op(9), op(1), op(2), op(1), op(1), op(2)];
    frame(Img { ops, classes }, starts[0], starts[1])
}

/// 243 pairs, which the quote page may hold; the terms of 64 of them have up to 64 runs and are improved in 59 rounds: more
/// than 65,536 runs, so that both callers are refused by 13.
pub fn runs() -> Vec<u8> {
    let mut classes = literals(2);
    let mut roots = Vec::new();
    for literal in 0..2 {
        let mut tops = [literal; 2];
        for _ in 1..60 {
            classes.push(class(vec![over(1, &[tops[1]])]));
            tops = [tops[1], classes.len() - 1];
        }
        let mut rows = Vec::new();
        for row in 0..8 {
            // a row's own three bits, each in eight places
            let children: Vec<usize> = (0..64).map(|n| tops[(n + (row >> (n / 8))) % 2]).collect();
            rows.push(classes.len());
            classes.push(class(vec![over(2, &children)]));
        }
        roots.push(class(vec![over(3, &rows)]));
    }
    classes.extend(roots);
    let (a, b) = (classes.len() - 2, classes.len() - 1);
    let ops = vec![op(9), op(1), op(6), op(8)];
    frame(Img { ops, classes }, a, b)
}

/// A transport of 65 rows (64 and the identity that pads them) and `columns` columns: with 60 its
/// graph is near 4,096 pairs, with 61 it is refused (12).
pub fn transport(columns: usize) -> Vec<u8> {
    let mut classes = literals(65 + columns);
    let left: Vec<usize> = (1..65).collect();
    let mut right: Vec<(usize, u32)> = (65..65 + columns).map(|n| (n, 1)).collect();
    right[columns / 2].1 += 66 - columns as u32;
    classes.push(class(vec![over(1, &left)]));
    classes.push(class(vec![Member {
        op: 1,
        literal: 0,
        children: right,
    }]));
    let identity = Operation {
        kind: 7,
        identity: Some(0),
    };
    let (a, b) = (classes.len() - 2, classes.len() - 1);
    frame(
        Img {
            ops: vec![op(9), identity],
            classes,
        },
        a,
        b,
    )
}

/// The examples' tariffs.
fn tariffs() -> Vec<Vec<u8>> {
    [
        include_str!("../../../examples/E.txt"),
        include_str!("../../../examples/airport.txt"),
        include_str!("../../../examples/cap.txt"),
        include_str!("../../../examples/luggage.txt"),
        include_str!("../../../examples/night.txt"),
        include_str!("../../../examples/zones.txt"),
    ]
    .into_iter()
    .map(|source| {
        let (img, queries) = text::parse(source).expect("an example");
        img.frame(&queries[0])
    })
    .collect()
}

/// What the library says to a frame, through the Rust crate.
pub fn ran(merger: &mut Merger, frame: &[u8]) -> Ran {
    let Some((image, &[a, b, c, d, e, f, g, h])) = frame.split_last_chunk::<8>() else {
        return Ran::Refused(2);
    };
    let (left, right) = (u16::from_be_bytes([a, b]), u16::from_be_bytes([c, d]));
    match merger.merge(image, left, right, u32::from_be_bytes([e, f, g, h])) {
        Ok(listing) => Ran::Listing(First {
            complete: listing.complete,
            pairs: listing.pairs,
            rounds: listing.rounds,
            size: listing.size,
            mass: listing.mass,
            skipped: Some(listing.skipped),
            checks: listing.checks,
        }),
        Err(refusal) => Ran::Refused(refusal.number().into()),
    }
}

pub struct Family {
    pub name: &'static str,
    pub caller: Caller,
    /// What every call returns: 0, a listing, or the refusal that the family is about.
    pub number: u32,
    pub frames: Vec<Vec<u8>>,
}

/// What the bench asks.
pub fn families() -> Vec<Family> {
    let family = |name, frames| Family {
        name,
        caller: Caller::Desk,
        number: 0,
        frames,
    };
    let chains = many_terms(30);
    let n = chains.classes.len();
    let full = frame(pairs(4_096), 127, 128);
    vec![
        Family {
            caller: Caller::Page,
            ..family("quote page: the examples' tariffs", tariffs())
        },
        // The Rust has no page: it answers the whole query.
        Family {
            caller: Caller::Page,
            number: 12,
            ..family(
                "quote page: graph of 4,096 pairs, refused by 12 (listed: its whole run)",
                vec![full.clone()],
            )
        },
        family("drawn, family mixed", draw(7, 300, Some("mixed"))),
        family("drawn, all families", draw_first(7, 300)),
        family("transport of 65 × 60", vec![transport(60)]),
        family("graph of 4,096 pairs", vec![full]),
        family("terms: 30 × 30 chains", vec![frame(chains, n - 2, n - 1)]),
        family("rounds: cycles of 31 and 32", vec![cycles(31, 32)]),
        family("drawn, family skipped", draw(7, 300, Some("skipped"))),
    ]
}
