// SPDX-License-Identifier: Apache-2.0
//! The stored sample: frames chosen so that every deliberate slip is caught, every
//! phase, refusal and kind of action is met, and the bytes stay few.

use std::collections::BTreeSet;

use model::run::{Outcome, Phase};
use model::slip::{SLIPS, Slip};

use crate::damage;
use crate::drive::Counts;
use crate::r#gen;
use crate::judge::Said;
use crate::limits;
use crate::rng::Rng;
use crate::small;

pub struct Stored {
    pub frame: Vec<u8>,
    pub answer: Vec<u8>,
}

/// The model's answer; where the oracle judges, the two agree but for the fields that the Rust
/// does not write, and the checks are as many as the oracle counted.
pub fn judged(frame: &[u8]) -> Result<Vec<u8>, String> {
    let model = model::answer(frame, Slip::None);
    if !model.starts_with("refused") {
        let oracle = Said::of_oracle(frame, false);
        if oracle.counted.is_some() && !oracle.agrees(model.as_bytes()) {
            let oracle = oracle.print();
            return Err(format!("oracle and model differ:\n{oracle}{model}"));
        }
    }
    Ok(model.into_bytes())
}

/// Cases of limits.rs that are not stored, for their size.
const TOO_LARGE: [&str; 18] = [
    "1024 members",
    "1025 members",
    "4096 children",
    "4097 children",
    "256 classes",
    "257 classes",
    "all tables full, 2 3",
    "an input of 65536 bytes",
    "an input of 65537 bytes",
    "4095 pairs, budget 4294967295",
    "4096 pairs, budget 0",
    "4096 pairs, budget 1",
    "4097 pairs, budget 0",
    "4097 pairs, budget 4294967295",
    "far past 16,384 terms",
    "far past 65,536 runs",
    "a listing of 65535 bytes",
    "sizes near 2^32, 5 4 0",
];

/// How often each slip must be caught, and how many frames there are at least.
const CATCHES: usize = 4;
const FRAMES: usize = 380;

/// The slips that the first part of the sample is chosen by; the second part, drawn
/// apart, stands behind it.
const FIRST_SLIPS: usize = 54;

/// The slips of the first and second part; the third, drawn apart, stands behind both.
const SECOND_SLIPS: usize = 76;

/// The slips of all three parts; those about checks, behind them, are caught by the same frames.
const THIRD_SLIPS: usize = 85;

/// Drawn frames of at most so many bytes, the smallest first.
fn draw(
    rng: &mut Rng,
    count: usize,
    most: usize,
    family: fn(&mut Rng) -> &'static str,
) -> Vec<Vec<u8>> {
    let mut pool: Vec<Vec<u8>> = Vec::new();
    while pool.len() < count {
        let family = family(rng);
        for frame in r#gen::frames(rng, family) {
            if frame.len() <= most {
                pool.push(frame);
            }
        }
    }
    pool.sort_by_key(|frame| (frame.len(), frame.clone()));
    pool.dedup();
    pool
}

/// The model's answer without its field `checks`: the parts are chosen as they were before there
/// was one.
fn without_checks(frame: &[u8], slip: Slip) -> String {
    let answer = model::answer(frame, slip);
    match answer.split_once(" checks ") {
        Some((first, rest)) => {
            let rest = rest.trim_start_matches(|c: char| c.is_ascii_digit());
            format!("{first}{rest}")
        }
        None => answer,
    }
}

/// Every slip caught, by small frames.
fn catch(
    slips: &[(Slip, &str, &str)],
    pool: &[Vec<u8>],
    chosen: &mut Vec<Vec<u8>>,
    taken: &mut BTreeSet<Vec<u8>>,
) {
    let answers: Vec<String> = pool.iter().map(|f| without_checks(f, Slip::None)).collect();
    for &(slip, _, _) in slips {
        let mut caught = chosen
            .iter()
            .filter(|f| f.len() < 600 && without_checks(f, slip) != without_checks(f, Slip::None))
            .count();
        for (frame, answer) in pool.iter().zip(&answers) {
            if caught >= CATCHES {
                break;
            }
            if !taken.contains(frame) && without_checks(frame, slip) != *answer {
                caught += 1;
                taken.insert(frame.clone());
                chosen.push(frame.clone());
            }
        }
    }
}

pub fn choose(source: &str, seed: u64, drawn: usize) -> Result<Vec<Stored>, String> {
    let mut fixed: Vec<Vec<u8>> = Vec::new();
    for (_, img, queries) in small::images(source)? {
        fixed.extend(queries.iter().map(|query| img.frame(query)));
    }
    fixed.extend(damage::small().into_iter().map(|(_, frame)| frame));
    for (what, frame) in limits::cases() {
        if !TOO_LARGE.contains(&what.as_str()) {
            fixed.push(frame);
        }
    }
    let mut rng = Rng::new(seed);
    let pool = draw(&mut rng, drawn, 320, |rng| r#gen::family(rng, r#gen::FIRST));
    let mut chosen: Vec<Vec<u8>> = Vec::new();
    let mut taken = BTreeSet::new();
    for frame in fixed {
        if taken.insert(frame.clone()) {
            chosen.push(frame);
        }
    }
    catch(&SLIPS[..FIRST_SLIPS], &pool, &mut chosen, &mut taken);
    // The rest: some of each phase, some crossed, some with several rounds.
    let quotas: [(usize, fn(&Outcome) -> bool); 6] = [
        (14, |o| o.met.crossed > 0),
        (14, |o| o.rounds > 2),
        (8, |o| o.phase == Phase::Building),
        (8, |o| o.phase == Phase::StartingTerms),
        (8, |o| o.phase == Phase::RoundStart && o.rounds > 0),
        (FRAMES, |o| o.rounds > 1),
    ];
    for (quota, wanted) in quotas {
        let mut more = quota.min(FRAMES.saturating_sub(chosen.len()));
        for _ in 0..20_000 {
            let frame = rng.pick(&pool);
            if more > 0
                && !taken.contains(frame)
                && model::outcome(frame, Slip::None).is_ok_and(|(_, outcome)| wanted(&outcome))
            {
                more -= 1;
                taken.insert(frame.clone());
                chosen.push(frame.clone());
            }
        }
    }
    // The second part.
    let mut rng = Rng::new(seed + 1);
    for frame in damage::more() {
        if taken.insert(frame.clone()) {
            chosen.push(frame);
        }
    }
    let pool = draw(&mut rng, drawn, 900, |rng| match rng.below(4) {
        0 => "literals",
        1 => "reverse",
        2 => "cells",
        _ => r#gen::family(rng, r#gen::SECOND),
    });
    catch(
        &SLIPS[FIRST_SLIPS..SECOND_SLIPS],
        &pool,
        &mut chosen,
        &mut taken,
    );
    // The third part.
    let mut rng = Rng::new(seed + 2);
    let pool = draw(&mut rng, drawn, 320, |_| "skipped");
    catch(
        &SLIPS[SECOND_SLIPS..THIRD_SLIPS],
        &pool,
        &mut chosen,
        &mut taken,
    );
    chosen
        .into_iter()
        .map(|frame| {
            let answer = judged(&frame)?;
            Ok(Stored { frame, answer })
        })
        .collect()
}

/// Slips that change no result, so that no frame can catch them: see HOW.md.
pub const EQUAL: [&str; 3] = ["PathsBySizeThenMass", "VFromOpenCells", "CapacityOfRow"];

/// Slips of the solver that only stored problems catch (transport.txt).
pub const BY_PROBLEMS: [&str; 3] = ["RowsFromLast", "SinkLast", "NoSinkEdges"];

/// Which frames catch each slip.
pub fn table(stored: &[Stored]) -> Vec<(&'static str, &'static str, Vec<usize>)> {
    SLIPS
        .iter()
        .map(|&(slip, name, meaning)| {
            let caught = stored
                .iter()
                .enumerate()
                .filter(|(_, s)| model::answer(&s.frame, slip).as_bytes() != s.answer)
                .map(|(n, _)| n)
                .collect();
            (name, meaning, caught)
        })
        .collect()
}

/// Whether some frame catches a slip; small frames are asked first.
pub fn catches(stored: &[Stored], slip: Slip) -> bool {
    let mut order: Vec<&Stored> = stored.iter().collect();
    order.sort_by_key(|one| one.frame.len() + one.answer.len());
    order
        .iter()
        .any(|one| model::answer(&one.frame, slip).as_bytes() != one.answer)
}

/// The stored answers against oracle and model again.
pub fn check(stored: &[Stored]) -> Result<Counts, String> {
    let mut counts = Counts::default();
    for (n, one) in stored.iter().enumerate() {
        if judged(&one.frame)? != one.answer {
            return Err(format!("stored answer {n} is not the judges'"));
        }
        counts.meet(&one.frame);
    }
    Ok(counts)
}
