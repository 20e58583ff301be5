// SPDX-License-Identifier: Apache-2.0
//! Cards (02, Paper 1): drawn sign tables, terms, texts and inputs; a second writer; the grammar
//! taken literally; the stored cards; programs against the model.

pub mod draw;
pub mod grammar;
pub mod sample;
pub mod terms;
pub mod texts;
pub mod with;

/// Which program an input is for.
#[derive(Clone, Copy, Debug, PartialEq, Eq, PartialOrd, Ord)]
pub enum Kind {
    /// A table and what program `merge` reads: program `card`.
    Card,
    /// A table and a card: program `read_card`.
    ReadCard,
    /// A table and listing lines: the card of their last term.
    Lines,
}

pub const KINDS: [Kind; 3] = [Kind::Card, Kind::ReadCard, Kind::Lines];

/// A table behind its length, and what follows it.
pub fn input(table: &[u8], rest: &[u8]) -> Vec<u8> {
    let mut input = (table.len() as u32).to_be_bytes().to_vec();
    input.extend(table);
    input.extend(rest);
    input
}

/// A sign table from text: a line `sign OPERATION WORD PRECEDENCE` for each operation that has one,
/// a line `right PRECEDENCE` for each precedence that groups to the right.
pub fn table_text(text: &str) -> Result<Vec<u8>, String> {
    let mut groupings = [0; 9];
    let mut entries: Vec<([u8; 8], u8)> = Vec::new();
    for (at, line) in text.lines().enumerate() {
        let wrong = || format!("line {}: {line:?} is not known", at + 1);
        let line = line.split('#').next().unwrap_or("");
        let words: Vec<&str> = line.split_whitespace().collect();
        match words[..] {
            [] => {}
            ["right", precedence] => {
                let precedence: usize = precedence.parse().map_err(|_| wrong())?;
                let byte = precedence
                    .checked_sub(1)
                    .and_then(|at| groupings.get_mut(at));
                *byte.ok_or_else(wrong)? = 1;
            }
            ["sign", operation, word, precedence] if word.len() <= 8 => {
                let operation: usize = operation.parse().map_err(|_| wrong())?;
                let precedence = precedence.parse().map_err(|_| wrong())?;
                if operation > 63 {
                    return Err(wrong());
                }
                if entries.len() <= operation {
                    entries.resize(operation + 1, ([0; 8], 0));
                }
                entries[operation] = (draw::padded(word.as_bytes()), precedence);
            }
            _ => return Err(wrong()),
        }
    }
    Ok(draw::table(groupings, &entries))
}
