// SPDX-License-Identifier: Apache-2.0
//! "A table starts with a byte for each precedence from 1 to 9 (0 groups it to the left, any other
//! to the right); then 9 bytes for each operation give its sign (1 to 8 ASCII letters, or one of + -
//! * / < >, zeros up to 8 bytes) and its precedence, higher binding first."

use crate::card_slip::CardSlip;

/// A proper sign of its own, and a precedence from 1 to 9.
pub struct Sign {
    pub word: Vec<u8>,
    pub precedence: u8,
}

pub struct Signs {
    signs: Vec<Option<Sign>>,
    /// The precedences that group to the right, from 1.
    right: [bool; 10],
}

const GROUPINGS: usize = 9;
const ENTRY: usize = 9;
const OPERATIONS: usize = 64;

pub fn is_symbol(byte: u8) -> bool {
    b"+-*/<>".contains(&byte)
}

/// The word of 8 bytes with zeros behind it, where it is a sign.
fn word(bytes: &[u8], slip: CardSlip) -> Option<&[u8]> {
    let end = bytes
        .iter()
        .position(|byte| *byte == 0)
        .unwrap_or(bytes.len());
    let (word, zeros) = bytes.split_at(end);
    if zeros.iter().any(|byte| *byte != 0) && slip != CardSlip::PaddingIgnored {
        return None;
    }
    let letters = word.iter().all(|byte| match slip {
        CardSlip::Digits => byte.is_ascii_alphanumeric(),
        _ => byte.is_ascii_alphabetic(),
    });
    let symbols = word.iter().all(|byte| is_symbol(*byte));
    let symbol = word.len() == 1 || slip == CardSlip::ManySymbols;
    let some = !word.is_empty() || slip == CardSlip::EmptySign;
    (some && (letters || symbols && symbol)).then_some(word)
}

impl Signs {
    /// Any bytes are a table: whole entries count, and at most 64.
    pub fn new(table: &[u8], slip: CardSlip) -> Signs {
        let mut right = [false; 10];
        for (right, byte) in right[1..].iter_mut().zip(table) {
            *right = match slip {
                CardSlip::RightByOne => *byte == 1,
                CardSlip::RightByZero => *byte == 0,
                _ => *byte != 0,
            };
        }
        if slip == CardSlip::GroupingsFrom0 {
            right.rotate_left(1);
        }
        let mut entries = table.get(GROUPINGS..).unwrap_or(&[]).to_vec();
        if slip == CardSlip::CutEntry {
            entries.resize(entries.len().next_multiple_of(ENTRY), 0);
        }
        let most = match slip {
            CardSlip::Entry65 => usize::MAX,
            CardSlip::Entries63 => 63,
            _ => OPERATIONS,
        };
        let entries: Vec<(&[u8], u8)> = entries
            .chunks_exact(ENTRY)
            .take(most)
            .map(|entry| (&entry[..8], entry[8]))
            .collect();
        let signs = (0..entries.len())
            .map(|at| own(&entries, at, slip))
            .collect();
        Signs { signs, right }
    }

    pub fn of(&self, operation: usize) -> Option<&Sign> {
        self.signs.get(operation)?.as_ref()
    }

    /// The operation whose sign a word is.
    pub fn find(&self, word: &[u8]) -> Option<usize> {
        let is = |sign: &Option<Sign>| sign.as_ref().is_some_and(|sign| sign.word == word);
        self.signs.iter().position(is)
    }

    pub fn groups_right(&self, precedence: u8) -> bool {
        self.right.get(usize::from(precedence)) == Some(&true)
    }
}

/// The proper sign and precedence of an operation; a sign is its own where no other entry has it,
/// whatever that one's precedence.
fn own(entries: &[(&[u8], u8)], at: usize, slip: CardSlip) -> Option<Sign> {
    let (bytes, precedence) = entries[at];
    let mine = word(bytes, slip)?;
    let shared = entries
        .iter()
        .enumerate()
        .any(|(other, (bytes, precedence))| {
            let theirs = word(bytes, slip);
            let same = match slip {
                CardSlip::CaseIgnored => theirs.is_some_and(|one| one.eq_ignore_ascii_case(mine)),
                _ => theirs == Some(mine),
            };
            let counts = match slip {
                CardSlip::SharedByProper => (1..=9).contains(precedence),
                CardSlip::SharedByLater => other < at,
                CardSlip::SharedByEarlier => other > at,
                CardSlip::SharedSigns => false,
                _ => true,
            };
            other != at && same && counts
        });
    let range = match slip {
        CardSlip::Precedence0 => 0..=9,
        CardSlip::Precedence10 => 1..=10,
        CardSlip::Precedence8 => 1..=8,
        _ => 1..=9,
    };
    (!shared && range.contains(&precedence)).then(|| Sign {
        word: mine.to_vec(),
        precedence,
    })
}
