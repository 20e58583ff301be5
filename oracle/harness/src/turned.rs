// SPDX-License-Identifier: Apache-2.0
//! (02, Paper 13) "Sellers also enter the two fleets in either order": drawn queries, and the same
//! with left and right exchanged.
//!
//! Each is asked with more checks than any run spends, as it was drawn, and with as many checks as
//! the complete run spends, one less, and half of them. Held of every answer that is no refusal:
//!
//! * "A complete run with n pairs and r rounds spends exactly 2n + (r+1)(n+1)", not above its
//!   budget; one cut short spends its budget;
//! * where the query with enough checks is complete with c, that with budget B spends the lesser
//!   of the two, and is complete where B is not below c;
//! * "Complete runs on (left, right) and (right, left), neither refused," have "equal pairs,
//!   rounds, size, mass and checks", and skip as many monomial pairs: the whole first line is the
//!   same. With the same budget runs that are cut short have these fields too, but for `skipped`.

use model::slip::Slip;

use crate::drive::Counts;
use crate::judge::{Judge, Said};

/// The first line of a listing; the oracle's says nothing of `skipped`.
#[derive(Clone, Copy, Debug, PartialEq, Eq)]
pub struct First {
    pub complete: bool,
    pub pairs: u64,
    pub rounds: u64,
    pub size: u64,
    pub mass: u64,
    pub skipped: Option<u64>,
    pub checks: u64,
}

impl First {
    /// "2n + (r+1)(n+1)"
    pub fn spent(&self) -> u64 {
        2 * self.pairs + (self.rounds + 1) * (self.pairs + 1)
    }

    /// Whether the checks are those that a run with this budget spends.
    pub fn as_promised(&self, budget: u32) -> bool {
        let budget = u64::from(budget);
        let spent = if self.complete { self.spent() } else { budget };
        self.checks == spent && spent <= budget
    }

    /// Of what a judge says; the checks of the oracle are its own count. None where it is no listing.
    pub fn read(said: &Said) -> Option<First> {
        let text = std::str::from_utf8(&said.answer).ok()?;
        let words: Vec<&str> = text.lines().next()?.split(' ').collect();
        let complete = match words.first()? {
            &"complete" => true,
            &"partial" => false,
            _ => return None,
        };
        let number = |at: usize, word: &str| match &words[at..at + 2] {
            [named, number] if *named == word => number.parse().ok(),
            _ => None,
        };
        let (skipped, checks) = match (words.len(), said.counted) {
            (9, Some(counted)) => (None, counted),
            (13, None) => (Some(number(9, "skipped")?), number(11, "checks")?),
            _ => return None,
        };
        Some(First {
            complete,
            pairs: number(1, "pairs")?,
            rounds: number(3, "rounds")?,
            size: number(5, "size")?,
            mass: number(7, "mass")?,
            skipped,
            checks,
        })
    }
}

/// What comes of a query.
#[derive(Clone, Copy, Debug, PartialEq, Eq)]
pub enum Ran {
    Listing(First),
    Refused(u32),
    /// The oracle is not asked where the model refuses, and says nothing of what it cannot hold.
    Silent,
}

impl Ran {
    fn of(said: &Said) -> Result<Ran, String> {
        if said.answer == b"unholdable\n" {
            return Ok(Ran::Silent);
        }
        if let Some(first) = First::read(said) {
            return Ok(Ran::Listing(first));
        }
        let answer = String::from_utf8_lossy(&said.answer);
        let number = answer.strip_prefix("refused ");
        number
            .and_then(|number| number.trim_end().parse().ok())
            .map(Ran::Refused)
            .ok_or_else(|| format!("neither a listing with its checks nor a refusal: {answer}"))
    }

    fn kind(self) -> String {
        match self {
            Ran::Listing(first) if first.complete => "complete".to_string(),
            Ran::Listing(_) => "partial".to_string(),
            Ran::Refused(number) => format!("refused {number:2}"),
            Ran::Silent => "not asked".to_string(),
        }
    }
}

/// Who runs queries: frames in, what comes of each out.
pub type Runs<'a> = &'a mut dyn FnMut(&[Vec<u8>]) -> Result<Vec<Ran>, String>;

/// A judge runs them.
pub fn by_judge(judge: &Judge, frames: &[Vec<u8>]) -> Result<Vec<Ran>, String> {
    if !matches!(judge, Judge::Oracle { .. }) {
        return judge.says(frames)?.iter().map(Ran::of).collect();
    }
    let mut found = Vec::new();
    for frame in frames {
        let model = model::answer(frame, Slip::None);
        found.push(if judge.judges(frame, model.as_bytes()) {
            Ran::of(&judge.says(std::slice::from_ref(frame))?[0])?
        } else {
            Ran::Silent
        });
    }
    Ok(found)
}

/// The frame with left and right exchanged, and with another budget.
fn query(frame: &[u8], turned: bool, budget: u32) -> Vec<u8> {
    let mut other = frame.to_vec();
    let tail = other.len() - 8;
    if turned {
        other[tail..tail + 4].rotate_left(2);
    }
    other[tail + 4..].copy_from_slice(&budget.to_be_bytes());
    other
}

fn held(ran: Ran, budget: u32, enough: Ran) -> Result<(), String> {
    let Ran::Listing(first) = ran else {
        return Ok(());
    };
    if !first.as_promised(budget) {
        return Err("another number of checks should pass".to_string());
    }
    let budget = u64::from(budget);
    match enough {
        Ran::Listing(whole) if whole.complete => {
            let right = first.checks == budget.min(whole.checks)
                && first.complete == (budget >= whole.checks);
            right
                .then_some(())
                .ok_or_else(|| format!("with enough checks {whole:?}"))
        }
        _ => Ok(()),
    }
}

/// One query both ways.
fn turn(ran: [Ran; 2], what: &str, counts: &mut Counts) -> Result<(), String> {
    let [kind, other] = ran.map(Ran::kind);
    match ran {
        [Ran::Listing(one), Ran::Listing(turned)] => {
            let unskipped = |first: First| First {
                skipped: None,
                ..first
            };
            if unskipped(one) != unskipped(turned) {
                return Err("the two runs differ".to_string());
            }
            if one.complete && one != turned {
                return Err("two complete runs skip other numbers".to_string());
            }
            counts.one(format!("{what}: both {kind}"));
            if one != turned {
                counts.one(format!("{what}: both {kind}, other numbers skipped"));
            }
        }
        _ if kind == other => counts.one(format!("{what}: both {kind}")),
        _ => {
            let mut both = [kind, other];
            both.sort();
            counts.one(format!("{what}: one {}, one {}", both[0], both[1]));
        }
    }
    Ok(())
}

/// Drawn frames both ways; `runs` is given them in parts.
pub fn turned(frames: &[Vec<u8>], runs: Runs, counts: &mut Counts) -> Result<(), String> {
    let frames: Vec<&Vec<u8>> = frames.iter().filter(|frame| frame.len() >= 8).collect();
    for part in frames.chunks(500) {
        let asked: Vec<Vec<u8>> = part
            .iter()
            .flat_map(|frame| [false, true].map(|turned| query(frame, turned, u32::MAX)))
            .collect();
        let enough: Vec<[Ran; 2]> = runs(&asked)?
            .chunks_exact(2)
            .map(|two| [two[0], two[1]])
            .collect();
        // As drawn; and about the checks that the whole run spends.
        let mut more: Vec<(usize, &str, u32)> = Vec::new();
        for (at, (frame, whole)) in part.iter().zip(&enough).enumerate() {
            let (_, drawn) = frame.split_last_chunk::<4>().expect("a query");
            more.push((at, "as drawn", u32::from_be_bytes(*drawn)));
            let whole = whole.iter().find_map(|ran| match ran {
                Ran::Listing(first) if first.complete => u32::try_from(first.checks).ok(),
                _ => None,
            });
            if let Some(checks) = whole {
                more.push((at, "as many checks as it spends", checks));
                more.push((at, "one check less", checks - 1));
                more.push((at, "half of its checks", checks / 2));
            }
        }
        let asked: Vec<Vec<u8>> = more
            .iter()
            .flat_map(|&(at, _, budget)| {
                [false, true].map(|turned| query(part[at], turned, budget))
            })
            .collect();
        let answers = runs(&asked)?;
        let whole = enough.iter().enumerate();
        let whole = whole.map(|(at, ran)| (at, "enough checks", u32::MAX, *ran));
        let more = more.into_iter().zip(answers.chunks_exact(2));
        let more = more.map(|((at, what, budget), ran)| (at, what, budget, [ran[0], ran[1]]));
        for (at, what, budget, ran) in whole.chain(more) {
            let holds = turn(ran, what, counts)
                .and_then(|()| held(ran[0], budget, enough[at][0]))
                .and_then(|()| held(ran[1], budget, enough[at][1]));
            holds.map_err(|why| {
                let bytes: Vec<String> = part[at].iter().map(u8::to_string).collect();
                let bytes = bytes.join(" ");
                format!("{why}: budget {budget}, {ran:?}, frame {bytes}")
            })?;
        }
        counts.some("queries", part.len() as u64);
    }
    Ok(())
}
