// SPDX-License-Identifier: Apache-2.0
//! The safe interface against document 01's image E and against the stored answers of the oracle.

use std::thread::Builder;

use tariff_merge::raw::{self, Lengths};
use tariff_merge::{Line, Listing, Merger, Query, Refusal, Run, Term};

const IMAGE: &[u8] = include_bytes!("E.image");

const MERGED: &str = "0 lit 0 5\n1 lit 0 7\n2 variants 1:1 0:1\n3 op 1 0:1 2:1\n";
const APART: &str = "0 lit 0 5\n1 lit 0 7\n2 op 1 0:1 1:1\n3 op 1 0:2\n4 variants 2:1 3:1\n";

fn query(left: u16, right: u16, budget: u32) -> Query {
    Query {
        left,
        right,
        budget,
    }
}

/// Frames or answers, each behind its 4-byte big-endian length.
fn unpack(mut bytes: &[u8]) -> Vec<&[u8]> {
    let mut items = Vec::new();
    while let Some((head, tail)) = bytes.split_first_chunk::<4>() {
        let (item, rest) = tail.split_at(u32::from_be_bytes(*head) as usize);
        items.push(item);
        bytes = rest;
    }
    items
}

/// The stored frames that have a query, as image and query, with the answers of program `merge`.
fn stored() -> Vec<(&'static [u8], Query, &'static [u8])> {
    let frames = unpack(include_bytes!("../../../oracle/sample/frames.bin"));
    let answers = unpack(include_bytes!("../../../oracle/sample/answers.bin"));
    assert_eq!(frames.len(), answers.len());
    let mut found = Vec::new();
    for (frame, answer) in frames.into_iter().zip(answers) {
        let Some((image, &[a, b, c, d, e, f, g, h])) = frame.split_last_chunk::<8>() else {
            assert_eq!(answer, b"refused 2\n");
            continue;
        };
        let asked = query(
            u16::from_be_bytes([a, b]),
            u16::from_be_bytes([c, d]),
            u32::from_be_bytes([e, f, g, h]),
        );
        found.push((image, asked, answer));
    }
    assert!(found.len() > 370);
    found
}

fn printed(result: &Result<Listing, Refusal>) -> Vec<u8> {
    match result {
        Ok(listing) => listing.bytes().to_vec(),
        Err(refusal) => format!("refused {}\n", refusal.number()).into_bytes(),
    }
}

fn ask(merger: &mut Merger, image: &[u8], q: Query) -> Result<Listing, Refusal> {
    merger.merge(image, q.left, q.right, q.budget)
}

/// Size and mass by document 01's *Quality*.
fn quality(listing: &Listing) -> (u64, u64) {
    let mut known: Vec<(u64, u64)> = Vec::new();
    for line in &listing.terms {
        let next = match line {
            Line::Literal { .. } => (1, 0),
            Line::Operation { children, .. } => {
                let of = |run: &Run| {
                    (
                        run.count * known[run.child].0,
                        run.count * known[run.child].1,
                    )
                };
                let sum = |a: (u64, u64), b: (u64, u64)| (a.0 + b.0, a.1 + b.1);
                sum((1, 0), children.iter().map(of).fold((0, 0), sum))
            }
            Line::Variants { left, right } => {
                let both = known[*left].0 + known[*right].0;
                (both, both)
            }
        };
        known.push(next);
    }
    known[listing.root()]
}

#[test]
fn lengths_are_the_librarys() {
    assert_eq!(
        raw::tariff_lengths(),
        Lengths {
            graph: raw::GRAPH,
            pairs: raw::PAIRS,
            work: raw::WORK,
            flow: raw::FLOW,
            terms: raw::TERMS,
            runs: raw::RUNS,
        }
    );
}

#[test]
fn image_e_at_its_budgets() {
    let mut merger = Merger::new();
    for (budget, checks, first, rest) in [
        (14, 14, "complete pairs 3 rounds 1 size 4 mass 2", MERGED),
        (1_000, 14, "complete pairs 3 rounds 1 size 4 mass 2", MERGED),
        (
            u32::MAX,
            14,
            "complete pairs 3 rounds 1 size 4 mass 2",
            MERGED,
        ),
        (13, 13, "partial pairs 3 rounds 1 size 4 mass 2", MERGED),
        (10, 10, "partial pairs 3 rounds 1 size 4 mass 2", MERGED),
        (9, 9, "partial pairs 3 rounds 0 size 6 mass 6", APART),
        (3, 3, "partial pairs 3 rounds 0 size 6 mass 6", APART),
        (2, 2, "partial pairs 1 rounds 0 size 6 mass 6", APART),
        (0, 0, "partial pairs 1 rounds 0 size 6 mass 6", APART),
    ] {
        let listing = merger.merge(IMAGE, 2, 3, budget).unwrap();
        let text = format!("{first} skipped 0 checks {checks}\n{rest}");
        assert_eq!(listing.bytes(), text.as_bytes());
        assert_eq!((listing.complete, listing.checks), (budget >= 14, checks));
        // Turned round: the same numbers, whatever the terms.
        let turned = merger.merge(IMAGE, 3, 2, budget).unwrap();
        let numbers = |l: &Listing| (l.complete, l.pairs, l.rounds, l.size, l.mass, l.checks);
        assert_eq!(numbers(&turned), numbers(&listing));
    }
}

/// What the stored answers say of their checks: 2n + (r + 1)(n + 1) of a complete run, the budget of
/// one that was cut short.
#[test]
fn checks_of_stored_answers() {
    let mut merger = Merger::new();
    let mut met = [0; 2];
    for (image, asked, answer) in stored() {
        if answer.starts_with(b"refused") {
            continue;
        }
        let listing = ask(&mut merger, image, asked).unwrap();
        let (n, r) = (listing.pairs, listing.rounds);
        let spent = if listing.complete {
            2 * n + (r + 1) * (n + 1)
        } else {
            u64::from(asked.budget)
        };
        assert_eq!(listing.checks, spent);
        met[usize::from(listing.complete)] += 1;
    }
    assert!(met.iter().all(|met| *met > 100), "{met:?}");
}

#[test]
fn image_e_parsed_and_read() {
    let listing = Merger::new().merge(IMAGE, 2, 3, 14).unwrap();
    let run = |child: usize, count: u64| Run { child, count };
    assert_eq!((listing.pairs, listing.rounds), (3, 1));
    assert_eq!((listing.size, listing.mass), (4, 2));
    assert_eq!((listing.skipped, listing.checks), (0, 14));
    assert_eq!(
        listing.terms,
        [
            Line::Literal {
                operation: 0,
                value: 5
            },
            Line::Literal {
                operation: 0,
                value: 7
            },
            Line::Variants { left: 1, right: 0 },
            Line::Operation {
                operation: 1,
                children: vec![run(0, 1), run(2, 1)]
            },
        ]
    );
    assert_eq!(listing.root(), 3);
    assert_eq!(listing.text(100), "op1(5, {7 | 5})");
    assert_eq!(listing.text(6), "op1(5,...");
    let left = listing.left_reading();
    assert_eq!(left.text(100), "op1(5, 7)");
    assert_eq!(left.root(), 2);
    let right = listing.right_reading();
    assert_eq!(right.text(100), "op1(5:2)");
    assert_eq!(
        right.terms,
        [
            Term::Literal {
                operation: 0,
                value: 5
            },
            Term::Operation {
                operation: 1,
                children: vec![run(0, 2)]
            },
        ]
    );
    // the readings are the starting term's
    let apart = Merger::new().merge(IMAGE, 2, 3, 0).unwrap();
    assert_eq!(apart.text(100), "{op1(5, 7) | op1(5:2)}");
    assert_eq!(apart.left_reading(), left);
    assert_eq!(apart.right_reading(), right);
}

#[test]
fn refusals_are_typed() {
    let mut merger = Merger::new();
    let changed = |at: usize, byte: u8| {
        let mut image = IMAGE.to_vec();
        image[at] = byte;
        image
    };
    assert_eq!(merger.merge(&[], 2, 3, 14), Err(Refusal::Length));
    assert_eq!(merger.merge(&IMAGE[..124], 2, 3, 14), Err(Refusal::Length));
    for (at, byte, refusal) in [
        (4, 2, Refusal::Version),
        (6, 65, Refusal::Count),
        (10, 5, Refusal::Tables),
        (13, 10, Refusal::Operation),
        (22, 1, Refusal::Member),
        (102, 9, Refusal::Child),
        (30, 2, Refusal::Best),
    ] {
        assert_eq!(merger.merge(&changed(at, byte), 2, 3, 14), Err(refusal));
    }
    let doubled = merger.merge(&changed(76, 5), 2, 3, 14);
    assert_eq!(doubled, Err(Refusal::Literal { class: 0 }));
    assert_eq!(merger.merge(IMAGE, 4, 3, 14), Err(Refusal::Query));
    assert_eq!(merger.merge(IMAGE, 2, u16::MAX, 14), Err(Refusal::Query));
    let mut short = Merger::with_output(113);
    assert_eq!(short.merge(IMAGE, 2, 3, 14), Err(Refusal::Output));
    assert!(Merger::with_output(114).merge(IMAGE, 2, 3, 14).is_ok());
    assert_eq!(
        Merger::with_output(0).merge(IMAGE, 2, 3, 14),
        Err(Refusal::Output)
    );
    let message = Refusal::Literal { class: 7 }.to_string();
    assert!(message.starts_with("refused 10: ") && message.contains("class 7"));
    assert!(message.contains("join it with the class that shares the literal"));
}

/// An image with one operation, Lit, and a class for each value.
fn literals(values: &[u32]) -> Vec<u8> {
    let classes = values.len() as u16;
    let mut tables = vec![1];
    for count in [1, classes, classes, 0] {
        tables.extend(count.to_be_bytes());
    }
    tables.extend([9, 0, 255, 255]);
    for class in 0..classes {
        // first member, count, best member; best size
        tables.extend([class, 1, class].map(u16::to_be_bytes).as_flattened());
        tables.extend(1u32.to_be_bytes());
    }
    for value in values {
        tables.extend(0u16.to_be_bytes());
        tables.extend(value.to_be_bytes());
        tables.extend([0; 4]);
    }
    let mut image = (tables.len() as u32).to_be_bytes().to_vec();
    image.extend(tables);
    image
}

#[test]
fn the_lowest_class_with_a_doubled_literal() {
    let mut merger = Merger::new();
    for (values, class) in [
        // two clashes, the lower class with the literal that is met twice later, and sooner
        (&[1, 10, 20, 20, 4, 10][..], 1),
        (&[1, 20, 10, 10, 4, 20], 1),
        (&[20, 1, 20, 10, 10], 0),
        // three holders
        (&[1, 2, 7, 3, 7, 7], 2),
        (&[1, 7, 9, 9, 7, 3, 7], 1),
        // the last two classes
        (&[1, 2, 3, 0, 0], 3),
    ] {
        let refused = merger.merge(&literals(values), 0, 1, 14);
        assert_eq!(refused, Err(Refusal::Literal { class }), "{values:?}");
    }
    // different, though the library marks 1 and 4,094 at one place
    assert!(merger.merge(&literals(&[1, 4_094, 0]), 0, 1, 14).is_ok());
}

#[test]
fn stored_answers() {
    let mut merger = Merger::new();
    for (at, (image, q, answer)) in stored().into_iter().enumerate() {
        let result = ask(&mut merger, image, q);
        assert!(printed(&result) == answer, "stored frame {at}");
        let Ok(listing) = result else { continue };
        assert_eq!((listing.size, listing.mass), quality(&listing));
        for text in [
            listing.text(1_000),
            listing.left_reading().text(1_000),
            listing.right_reading().text(1_000),
        ] {
            assert!(text.len() <= 1_003);
        }
    }
}

/// Each query of `skipped.txt`, as a frame, with its answer.
fn skipping() -> Vec<(Vec<u8>, String)> {
    let mut found: Vec<(Vec<u8>, String)> = Vec::new();
    for line in include_str!("../../../oracle/sample/skipped.txt").lines() {
        if line.starts_with(|first: char| first.is_ascii_digit()) {
            let frame = line.split(' ').map(|byte| byte.parse().unwrap()).collect();
            found.push((frame, String::new()));
        } else if let Some(text) = line.strip_prefix("  ") {
            let answer = &mut found.last_mut().unwrap().1;
            *answer += text;
            answer.push('\n');
        }
    }
    found
}

#[test]
fn skipped_pairs_are_reported() {
    let mut merger = Merger::new();
    let mut above = 0;
    for (frame, answer) in skipping() {
        let (image, &[a, b, c, d, e, f, g, h]) = frame.split_last_chunk::<8>().unwrap();
        let q = query(
            u16::from_be_bytes([a, b]),
            u16::from_be_bytes([c, d]),
            u32::from_be_bytes([e, f, g, h]),
        );
        let listing = ask(&mut merger, image, q).unwrap();
        assert_eq!(listing.bytes(), answer.as_bytes());
        let first = answer.lines().next().unwrap();
        let (skipped, checks) = (listing.skipped, listing.checks);
        assert!(first.ends_with(&format!(" skipped {skipped} checks {checks}")));
        above += usize::from(listing.skipped > 0);
    }
    assert!(above > 15, "only {above} above 0");
}

#[test]
fn buffers_are_kept_between_calls() {
    let mut merger = Merger::new();
    let small: Vec<_> = stored()
        .into_iter()
        .filter(|(image, ..)| image.len() < 400)
        .collect();
    for (image, q, answer) in small.iter().cycle().take(1_000) {
        assert_eq!(printed(&ask(&mut merger, image, *q)), *answer);
    }
}

#[test]
fn queries_of_one_image() {
    let mut merger = Merger::new();
    let queries: Vec<Query> = (0..5)
        .flat_map(|left| (0..5).map(move |right| query(left, right, 14)))
        .collect();
    let together = merger.merge_each(IMAGE, &queries);
    assert_eq!(together.len(), 25);
    for (q, result) in queries.iter().zip(together) {
        assert_eq!(ask(&mut merger, IMAGE, *q), result);
    }
    assert!(merger.merge_each(IMAGE, &[]).is_empty());
}

#[test]
fn two_mergers_on_two_small_threads() {
    let threads = [0, 1].map(|first: usize| {
        Builder::new()
            .stack_size(128 << 10)
            .spawn(move || {
                let mut merger = Merger::new();
                for (image, q, answer) in stored().into_iter().skip(first) {
                    assert!(printed(&ask(&mut merger, image, q)) == answer);
                }
            })
            .unwrap()
    });
    for thread in threads {
        thread.join().unwrap();
    }
}

#[test]
fn mergers_move_between_threads() {
    let mut merger = Merger::new();
    let before = merger.merge(IMAGE, 2, 3, 14);
    let after = std::thread::spawn(move || merger.merge(IMAGE, 2, 3, 14));
    assert_eq!(before, after.join().unwrap());
}
