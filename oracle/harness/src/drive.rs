// SPDX-License-Identifier: Apache-2.0
//! Runs two judges over frames, compares every byte (`Judge::same`; with the oracle also its own
//! count of checks) and counts what was met.

use std::collections::BTreeMap;

use model::image::Refusal;
use model::run::Phase;
use model::slip::Slip;

use crate::img::{Img, KINDS, Query};
use crate::judge::{Judge, Said};
use crate::text;

/// Counts of a comparison.
#[derive(Default)]
pub struct Counts {
    lines: BTreeMap<String, u64>,
    most: BTreeMap<&'static str, u64>,
}

impl Counts {
    pub fn one(&mut self, what: impl Into<String>) {
        self.some(what, 1);
    }

    pub fn some(&mut self, what: impl Into<String>, count: u64) {
        if count > 0 {
            *self.lines.entry(what.into()).or_insert(0) += count;
        }
    }

    fn top(&mut self, what: &'static str, value: u64) {
        let most = self.most.entry(what).or_insert(0);
        *most = value.max(*most);
    }

    /// What the model meets in answering a frame.
    pub fn meet(&mut self, frame: &[u8]) {
        self.one("frames");
        let outcome = match model::outcome(frame, Slip::None) {
            Err(Refusal(number)) => return self.one(format!("refused {number:2}")),
            Ok((text, outcome)) => {
                self.top("bytes of a listing", text.len() as u64);
                outcome
            }
        };
        self.one(match outcome.phase {
            Phase::Building => "phase 1 cut in building",
            Phase::StartingTerms => "phase 2 cut in starting terms",
            Phase::RoundStart => "phase 3 cut at a round's start",
            Phase::InsideRound => "phase 4 cut inside a round",
            Phase::Complete => "phase 5 complete",
        });
        self.one(format!(
            "rounds {:2}{}",
            outcome.rounds.min(10),
            ["", " or more"][usize::from(outcome.rounds > 9)]
        ));
        for (kind, &count) in outcome.met.winners.iter().enumerate() {
            self.some(format!("action {}", KINDS[kind]), count);
        }
        let met = &outcome.met;
        self.some("action SPair, crossed", met.crossed);
        self.some("transports solved", met.transports_solved);
        self.some("monomial pairs", met.monomials.paired);
        self.some("monomial pairs padded", met.monomials.padded);
        self.some("monomial pairs skipped", met.monomials.skipped);
        if outcome.skipped > 0 {
            self.one("skipped above 0");
            let cut = outcome.phase == Phase::Building;
            self.some("skipped above 0, cut in building", u64::from(cut));
            let again = met.monomials.skipped > outcome.skipped as u64;
            self.some("skipped above 0, some again", u64::from(again));
        }
        self.top("skipped", outcome.skipped as u64);
        self.some(
            "monomial pairs with a class as itself",
            met.monomials.with_itself,
        );
        self.some(
            "monomial pairs with an empty side",
            met.monomials.empty_side,
        );
        self.top("pairs", outcome.pairs as u64);
        self.top("checks", outcome.checks);
        self.top("rounds", outcome.rounds as u64);
        self.top("cells of a transport", met.largest_transport as u64);
        self.top("terms", outcome.pool.nodes.len() as u64);
        self.top("size", outcome.pool.nodes[outcome.root].quality.0 as u64);
    }

    pub fn print(&self) -> String {
        let mut text = String::new();
        for (what, count) in &self.lines {
            text += &format!("{count:>9}  {what}\n");
        }
        for (what, value) in &self.most {
            text += &format!("{value:>9}  most {what}\n");
        }
        text
    }

    pub fn get(&self, what: &str) -> u64 {
        self.lines.get(what).copied().unwrap_or(0)
    }
}

/// The first frame on which two judges differ, made small.
pub struct Difference {
    pub at: usize,
    pub frame: Vec<u8>,
    pub first: String,
    pub second: String,
}

const UNHOLDABLE: &[u8] = b"unholdable\n";

fn pair(a: &Judge, b: &Judge, frame: &[u8]) -> Result<Option<(String, String)>, String> {
    let one = [frame.to_vec()];
    let (x, y) = (a.says(&one)?.remove(0), b.says(&one)?.remove(0));
    let model = model::answer(frame, Slip::None).into_bytes();
    let silent =
        |judge: &Judge, said: &Said| !judge.judges(frame, &model) || said.answer == UNHOLDABLE;
    if a.same(&x, b, &y) || silent(a, &x) || silent(b, &y) {
        return Ok(None);
    }
    Ok(Some((x.print(), y.print())))
}

/// Compares two judges; counts go by the model.
pub fn compare(
    a: &Judge,
    b: &Judge,
    frames: &[Vec<u8>],
    counts: &mut Counts,
) -> Result<Option<Difference>, String> {
    let wanted: Vec<Vec<u8>> = frames
        .iter()
        .map(|frame| model::answer(frame, Slip::None).into_bytes())
        .collect();
    // A judge is not asked what it does not judge.
    let ask = |judge: &Judge| -> Result<Vec<Option<Said>>, String> {
        if let Judge::Model(Slip::None) = judge {
            return Ok(wanted.iter().cloned().map(Said::alone).map(Some).collect());
        }
        let asked: Vec<bool> = frames
            .iter()
            .zip(&wanted)
            .map(|(frame, model)| judge.judges(frame, model))
            .collect();
        let some: Vec<Vec<u8>> = frames
            .iter()
            .zip(&asked)
            .filter(|(_, asked)| **asked)
            .map(|(frame, _)| frame.clone())
            .collect();
        let mut answers = judge.says(&some)?.into_iter();
        Ok(asked
            .iter()
            .map(|asked| if *asked { answers.next() } else { None })
            .collect())
    };
    let (first, second) = (ask(a)?, ask(b)?);
    for (at, frame) in frames.iter().enumerate() {
        counts.meet(frame);
        let (Some(x), Some(y)) = (&first[at], &second[at]) else {
            counts.one("not compared: a refusal, which the oracle does not judge");
            continue;
        };
        if x.answer == UNHOLDABLE || y.answer == UNHOLDABLE {
            counts.one("not compared: unholdable for the oracle");
            continue;
        }
        counts.one("compared");
        if [x, y].iter().any(|said| said.counted.is_some()) {
            counts.one("compared, checks with the oracle's own count");
        }
        if !a.same(x, b, y) {
            let (frame, first, second) = shrink(a, b, frame)?;
            return Ok(Some(Difference {
                at,
                frame,
                first,
                second,
            }));
        }
    }
    Ok(None)
}

/// A smaller frame on which the two still differ.
fn shrink(a: &Judge, b: &Judge, frame: &[u8]) -> Result<(Vec<u8>, String, String), String> {
    let Some((mut x, mut y)) = pair(a, b, frame)? else {
        return Err("a difference that does not come again".to_string());
    };
    let mut best = frame.to_vec();
    'again: loop {
        let Ok((image, left, right, budget)) = model::query(&best, Slip::None) else {
            return Ok((best, x, y));
        };
        let img = Img::of(&image);
        let query = Query {
            left,
            right,
            budget,
        };
        for (img, query) in smaller(&img, &query) {
            let frame = img.frame(&query);
            if model::query(&frame, Slip::None).is_ok()
                && let Some((p, q)) = pair(a, b, &frame)?
            {
                (best, x, y) = (frame, p, q);
                continue 'again;
            }
        }
        return Ok((best, x, y));
    }
}

/// One step smaller, each way.
fn smaller(img: &Img, query: &Query) -> Vec<(Img, Query)> {
    let mut found = Vec::new();
    let mut add = |img: Img, query: Query| {
        let mut plain = img.clone();
        if plain.settle() {
            found.push((plain, query.clone()));
        }
        let mut chosen = img;
        if chosen.size_by_choice() {
            found.push((chosen, query));
        }
    };
    for gone in 0..img.classes.len() {
        let used = img
            .classes
            .iter()
            .enumerate()
            .filter(|(n, _)| *n != gone)
            .flat_map(|(_, c)| &c.members)
            .flat_map(|m| &m.children)
            .any(|c| c.0 == gone);
        let identity = img.ops.iter().any(|op| op.identity == Some(gone));
        if used || identity || [query.left, query.right].contains(&gone) {
            continue;
        }
        let down = |class: usize| class - usize::from(class > gone);
        let mut next = img.clone();
        next.classes.remove(gone);
        for child in next
            .classes
            .iter_mut()
            .flat_map(|c| &mut c.members)
            .flat_map(|m| &mut m.children)
        {
            child.0 = down(child.0);
        }
        for op in &mut next.ops {
            op.identity = op.identity.map(down);
        }
        add(
            next,
            Query {
                left: down(query.left),
                right: down(query.right),
                budget: query.budget,
            },
        );
    }
    for n in 0..img.classes.len() {
        for k in 0..img.classes[n].members.len() {
            if img.classes[n].members.len() > 1 {
                let mut next = img.clone();
                next.classes[n].members.remove(k);
                next.classes[n].best = 0;
                add(next, query.clone());
            }
            for c in 0..img.classes[n].members[k].children.len() {
                let mut next = img.clone();
                next.classes[n].members[k].children.remove(c);
                add(next, query.clone());
                let count = img.classes[n].members[k].children[c].1;
                for less in [1, count / 2, count - 1] {
                    if less >= 1 && less < count {
                        let mut next = img.clone();
                        next.classes[n].members[k].children[c].1 = less;
                        add(next, query.clone());
                    }
                }
            }
        }
    }
    for gone in 0..img.ops.len() {
        let members = || img.classes.iter().flat_map(|c| &c.members);
        if img.ops.len() > 1 && members().all(|m| m.op != gone) {
            let mut next = img.clone();
            next.ops.remove(gone);
            for member in next.classes.iter_mut().flat_map(|c| &mut c.members) {
                member.op -= usize::from(member.op > gone);
            }
            add(next, query.clone());
        }
    }
    for (n, op) in img.ops.iter().enumerate() {
        if op.identity.is_some() {
            let mut next = img.clone();
            next.ops[n].identity = None;
            add(next, query.clone());
        }
    }
    for less in [query.budget / 2, query.budget.saturating_sub(1)] {
        if less < query.budget {
            let query = Query {
                budget: less,
                ..query.clone()
            };
            found.push((img.clone(), query));
        }
    }
    found
}

impl Difference {
    pub fn print(&self, a: &str, b: &str) -> String {
        let image = match model::query(&self.frame, Slip::None) {
            Err(Refusal(number)) => format!("(the model refuses it: {number})\n"),
            Ok((image, left, right, budget)) => text::print(
                &Img::of(&image),
                &[Query {
                    left,
                    right,
                    budget,
                }],
            ),
        };
        let bytes: Vec<String> = self.frame.iter().map(u8::to_string).collect();
        format!(
            "frame {} differs; made small:\n{image}bytes {}\n{a}:\n{}{b}:\n{}",
            self.at,
            bytes.join(" "),
            self.first,
            self.second
        )
    }
}
