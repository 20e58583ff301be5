// SPDX-License-Identifier: Apache-2.0
//! Drawn and damaged frames through the safe interface, against the model.

use harness::drive::Counts;
use harness::judge::Judge;
use harness::turned::turned;
use harness::{damage, draw, limits, skipped};
use model::image::verdict;
use model::slip::Slip;
use tariff_merge::{Caller, Merger, Refusal};

fn compare(frames: &[Vec<u8>]) {
    compare_for(Caller::Desk, frames);
}

fn compare_for(caller: Caller, frames: &[Vec<u8>]) {
    let judge = match caller {
        Caller::Page => "page",
        Caller::Desk => "model",
    };
    let answers = Judge::parse(judge).unwrap().answers(frames).unwrap();
    let mut merger = Merger::new();
    for (at, (frame, answer)) in frames.iter().zip(answers).enumerate() {
        // Without a query, or over 65,536 bytes, it is the program's refusal and not the call's.
        let Some((image, &[a, b, c, d, e, f, g, h])) = frame.split_last_chunk::<8>() else {
            continue;
        };
        if frame.len() > 65_536 {
            continue;
        }
        let left = u16::from_be_bytes([a, b]);
        let right = u16::from_be_bytes([c, d]);
        let budget = u32::from_be_bytes([e, f, g, h]);
        let merged = merger.merge_for(caller, image, left, right, budget);
        if let Err(Refusal::Literal { class }) = merged {
            let line = format!("refused 10 class {class}");
            assert_eq!(line, verdict(image, Slip::None), "frame {at}");
        }
        let printed = match merged {
            Ok(listing) => listing.bytes().to_vec(),
            Err(refusal) => format!("refused {}\n", refusal.number()).into_bytes(),
        };
        assert!(printed == answer, "frame {at}");
    }
}

#[test]
fn drawn_frames() {
    compare(&draw(5, 2_000, None));
}

#[test]
fn damaged_images() {
    compare(&draw(6, 1_000, Some("damaged")));
    compare(
        &damage::small()
            .into_iter()
            .map(|case| case.1)
            .collect::<Vec<_>>(),
    );
}

#[test]
fn doubled_literals() {
    compare(&draw(7, 1_000, Some("doubled")));
    compare(
        &damage::doubled()
            .into_iter()
            .map(|case| case.1)
            .collect::<Vec<_>>(),
    );
}

#[test]
fn skipped_pairs() {
    compare(&draw(8, 2_000, Some("skipped")));
}

#[test]
fn as_many_skipped_pairs_as_there_can_be() {
    compare(
        &skipped::COSTLY
            .iter()
            .filter_map(|name| skipped::costly(name))
            .collect::<Vec<_>>(),
    );
}

#[test]
fn both_callers() {
    let mut frames = draw(9, 600, Some("page"));
    frames.extend(draw(5, 1_000, None));
    frames.extend(limits::callers().into_iter().map(|case| case.1));
    for caller in [Caller::Page, Caller::Desk] {
        compare_for(caller, &frames);
    }
}

/// Left and right exchanged, at budgets about the checks that the run spends.
#[test]
fn turned_queries() {
    let mut merger = Merger::new();
    let mut runs = |frames: &[Vec<u8>]| {
        let ran = frames.iter().map(|frame| bench::ran(&mut merger, frame));
        Ok(ran.collect())
    };
    let mut counts = Counts::default();
    turned(&draw(13, 1_000, None), &mut runs, &mut counts).unwrap();
    turned(&draw(13, 500, Some("skipped")), &mut runs, &mut counts).unwrap();
    let complete = counts.get("enough checks: both complete");
    assert!(complete > 1_350, "{complete}");
}

/// "Neither refused": turned round a listing may be longer, so that 14 may be met one way only.
#[test]
fn refused_one_way_only() {
    let mut merger = Merger::new();
    let mut met = 0;
    for frame in draw(77, 3_000, Some("crossed")) {
        let (image, &[a, b, c, d, ..]) = frame.split_last_chunk::<8>().unwrap();
        let (left, right) = (u16::from_be_bytes([a, b]), u16::from_be_bytes([c, d]));
        let mut both = [(left, right), (right, left)]
            .map(|(left, right)| merger.merge(image, left, right, u32::MAX).unwrap())
            .map(|listing| listing.bytes().len());
        if both[0] == both[1] {
            continue;
        }
        met += 1;
        both.sort();
        let mut short = Merger::with_output(both[0]);
        let again = [(left, right), (right, left)]
            .map(|(left, right)| short.merge(image, left, right, u32::MAX));
        let refused = again.iter().filter(|one| **one == Err(Refusal::Output));
        assert_eq!(refused.count(), 1);
    }
    assert!(met > 0);
}

#[test]
fn limits_of_every_table() {
    compare(
        &limits::cases()
            .into_iter()
            .map(|case| case.1)
            .collect::<Vec<_>>(),
    );
}
