// SPDX-License-Identifier: Apache-2.0
//! Who answers frames: the oracle, the model, the model with a slip, or a command.

use std::io::Write;
use std::process::{Command, Stdio};

use model::slip::{SLIPS, Slip};

use crate::skipped;

pub enum Judge {
    Oracle {
        pruning: bool,
    },
    Model(Slip),
    /// The model with the quote page's 256 pairs.
    Page,
    /// The model, with the number of skipped monomial pairs counted by force.
    Force,
    /// A command that takes a stream of frames and gives a stream of answers.
    Stream(String),
    /// A command that takes one frame and gives one answer, run once a frame.
    Each(String),
}

/// Frames or answers, each behind its 4-byte big-endian length.
pub fn pack(items: &[Vec<u8>]) -> Vec<u8> {
    let mut bytes = Vec::new();
    for item in items {
        bytes.extend((item.len() as u32).to_be_bytes());
        bytes.extend(item);
    }
    bytes
}

pub fn unpack(bytes: &[u8]) -> Result<Vec<Vec<u8>>, String> {
    let mut items = Vec::new();
    let mut rest = bytes;
    while !rest.is_empty() {
        let (head, tail) = rest.split_first_chunk::<4>().ok_or("a cut length")?;
        let (item, after) = tail
            .split_at_checked(u32::from_be_bytes(*head) as usize)
            .ok_or("a cut frame")?;
        items.push(item.to_vec());
        rest = after;
    }
    Ok(items)
}

/// A listing without the two fields that the Rust does not write, and how many checks they say.
/// A refusal has no first line, stays as it is, and says none.
#[derive(Debug, PartialEq, Eq)]
pub struct AsTheRust {
    pub listing: Vec<u8>,
    pub checks: Option<u64>,
}

/// "The comparison with the Rust drops this last field" (02, Paper 7), "and the comparison with
/// the Rust drops it too" (Paper 13): a listing without ` skipped N checks N` at the end of its
/// first line. None where they are not there in this order, each with a number as it is printed.
pub fn as_the_rust(answer: &[u8]) -> Option<AsTheRust> {
    if ![&b"complete "[..], b"partial "]
        .iter()
        .any(|status| answer.starts_with(status))
    {
        return Some(AsTheRust {
            listing: answer.to_vec(),
            checks: None,
        });
    }
    let end = answer.iter().position(|&byte| byte == b'\n')?;
    let (first, rest) = answer.split_at(end);
    let first = std::str::from_utf8(first).ok()?;
    let (first, checks) = last_field(first, " checks ")?;
    let (first, _) = last_field(first, " skipped ")?;
    Some(AsTheRust {
        listing: [first.as_bytes(), rest].concat(),
        checks: Some(checks),
    })
}

/// A line without its last field, and the field's number.
fn last_field<'a>(line: &'a str, word: &str) -> Option<(&'a str, u64)> {
    let (kept, printed) = line.rsplit_once(word)?;
    let number: u64 = printed.parse().ok()?;
    (number.to_string() == printed).then_some((kept, number))
}

/// What a judge says to a frame: its answer, and the oracle's own count of the checks that passed,
/// where it has a listing.
#[derive(Clone, Debug, PartialEq, Eq)]
pub struct Said {
    pub answer: Vec<u8>,
    pub counted: Option<u64>,
}

impl Said {
    pub fn alone(answer: impl Into<Vec<u8>>) -> Said {
        Said {
            answer: answer.into(),
            counted: None,
        }
    }

    /// The oracle on a frame.
    pub fn of_oracle(frame: &[u8], pruning: bool) -> Said {
        let answer = listed::answer(frame, pruning);
        Said {
            answer: answer.text().into(),
            counted: answer.checks(),
        }
    }

    /// Whether the oracle says the same as this answer: every byte but for the two fields, and as
    /// many checks as it counted.
    pub fn agrees(&self, answer: &[u8]) -> bool {
        as_the_rust(answer)
            .is_some_and(|other| other.listing == self.answer && other.checks == self.counted)
    }

    /// The answer, with the oracle's count behind it.
    pub fn print(&self) -> String {
        let count = match self.counted {
            Some(checks) => format!("checks counted by the oracle: {checks}\n"),
            None => String::new(),
        };
        format!("{}{count}", String::from_utf8_lossy(&self.answer))
    }
}

/// What a command says to an input.
pub fn call(line: &str, input: &[u8]) -> Result<Vec<u8>, String> {
    let mut child = Command::new("sh")
        .args(["-c", line])
        .stdin(Stdio::piped())
        .stdout(Stdio::piped())
        .spawn()
        .map_err(|why| format!("{line}: {why}"))?;
    let mut stdin = child.stdin.take().ok_or("no standard input")?;
    let input = input.to_vec();
    let writer = std::thread::spawn(move || stdin.write_all(&input));
    let output = child.wait_with_output().map_err(|why| why.to_string())?;
    // A program may close its input early; its answer says enough.
    let _ = writer.join();
    Ok(output.stdout)
}

impl Judge {
    /// `oracle`, `oracle-pruning`, `model`, `page`, `force`, `slip:NAME`, `stream:COMMAND` or
    /// `each:COMMAND`.
    pub fn parse(word: &str) -> Result<Judge, String> {
        match word.split_once(':') {
            None if word == "oracle" => Ok(Judge::Oracle { pruning: false }),
            None if word == "oracle-pruning" => Ok(Judge::Oracle { pruning: true }),
            None if word == "model" => Ok(Judge::Model(Slip::None)),
            None if word == "page" => Ok(Judge::Page),
            None if word == "force" => Ok(Judge::Force),
            Some(("stream", line)) => Ok(Judge::Stream(line.to_string())),
            Some(("each", line)) => Ok(Judge::Each(line.to_string())),
            Some(("slip", name)) => SLIPS
                .iter()
                .find(|slip| slip.1 == name)
                .map(|slip| Judge::Model(slip.0))
                .ok_or_else(|| format!("no slip {name}")),
            _ => Err(format!("{word:?} is no judge")),
        }
    }

    pub fn answers(&self, frames: &[Vec<u8>]) -> Result<Vec<Vec<u8>>, String> {
        let said = self.says(frames)?;
        Ok(said.into_iter().map(|said| said.answer).collect())
    }

    pub fn says(&self, frames: &[Vec<u8>]) -> Result<Vec<Said>, String> {
        let each = |answer: &dyn Fn(&[u8]) -> Vec<u8>| {
            let said = frames.iter().map(|frame| Said::alone(answer(frame)));
            Ok(said.collect())
        };
        match self {
            Judge::Oracle { pruning } => Ok(frames
                .iter()
                .map(|frame| Said::of_oracle(frame, *pruning))
                .collect()),
            Judge::Model(slip) => each(&|frame| model::answer(frame, *slip).into()),
            Judge::Page => {
                each(&|frame| model::answer_within(model::PAGE, frame, Slip::None).into())
            }
            Judge::Force => each(&skipped::forced),
            Judge::Stream(line) => {
                let answers = unpack(&call(line, &pack(frames))?)?;
                if answers.len() != frames.len() {
                    return Err(format!(
                        "{line}: {} answers to {} frames",
                        answers.len(),
                        frames.len()
                    ));
                }
                Ok(answers.into_iter().map(Said::alone).collect())
            }
            Judge::Each(line) => frames
                .iter()
                .map(|frame| call(line, frame).map(Said::alone))
                .collect(),
        }
    }

    /// Whether two answers are the same: every byte. Where one of the two is the Rust's, the two
    /// fields that it does not write are dropped, and the checks are held to its own count.
    pub fn same(&self, said: &Said, other: &Judge, others: &Said) -> bool {
        let rust = |judge: &Judge| matches!(judge, Judge::Oracle { .. });
        match (rust(self), rust(other)) {
            (true, false) => said.agrees(&others.answer),
            (false, true) => others.agrees(&said.answer),
            _ => said == others,
        }
    }

    /// The oracle answers accepted, holdable queries only: refusals are the model's.
    pub fn judges(&self, frame: &[u8], model: &[u8]) -> bool {
        match self {
            Judge::Oracle { .. } => !model.starts_with(b"refused") && frame.len() <= 65_536,
            _ => true,
        }
    }
}
