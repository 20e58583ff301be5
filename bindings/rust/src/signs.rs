// SPDX-License-Identifier: Apache-2.0
//! Signs and precedences of operations, for cards.

use std::fmt;

/// How many bytes the groupings have, and an operation's entry.
const GROUPINGS: usize = 9;
const ENTRY: usize = 9;

/// The signs of operations with their precedences, and which precedences group to the right: what a card
/// is written and read with. A higher precedence binds first.
///
/// ```
/// use tariff_merge::SignTable;
///
/// let table = SignTable::new()
///     .sign(3, "*", 2)?
///     .sign(4, "+", 1)?
///     .sign(1, "km", 9)?
///     .groups_right(2)?;
/// assert_eq!(table.bytes()[..9], [0, 1, 0, 0, 0, 0, 0, 0, 0]);
/// assert_eq!(table.bytes()[36..45], *b"*\0\0\0\0\0\0\0\x02");
/// # Ok::<(), tariff_merge::Unsigned>(())
/// ```
#[derive(Clone, Debug, PartialEq, Eq, Hash)]
pub struct SignTable {
    bytes: Vec<u8>,
}

impl SignTable {
    /// How many operations may have a sign: as many as an image has.
    pub const OPERATIONS: u16 = 64;

    /// No operation has a sign, and every precedence groups to the left: `a - b - c` is `(a - b) - c`.
    pub fn new() -> SignTable {
        SignTable {
            bytes: vec![0; GROUPINGS],
        }
    }

    /// Any bytes: one for each precedence from 1 to 9, 0 where it groups to the left, and then 9 for each
    /// operation, its sign with zeros up to 8 and its precedence. An operation whose entry is not whole or
    /// not proper, or shares its sign with another entry, has no sign.
    pub fn from_bytes(bytes: impl Into<Vec<u8>>) -> SignTable {
        SignTable {
            bytes: bytes.into(),
        }
    }

    /// The table as the library reads it.
    pub fn bytes(&self) -> &[u8] {
        &self.bytes
    }

    /// The operation's entry, where it is there.
    fn entry(&self, operation: u16) -> Option<&[u8]> {
        let at = GROUPINGS + ENTRY * usize::from(operation);
        self.bytes.get(at..at + ENTRY)
    }

    /// With this sign for an operation, in place of one that it had: 1 to 8 ASCII letters, or one of
    /// `+ - * / < >`; and with a precedence from 1 to 9.
    ///
    /// # Errors
    ///
    /// [`Unsigned`] where it would not be a proper sign of the operation's own.
    pub fn sign(
        mut self,
        operation: u16,
        sign: &str,
        precedence: u8,
    ) -> Result<SignTable, Unsigned> {
        if operation >= SignTable::OPERATIONS {
            return Err(Unsigned::Operation);
        }
        let word = sign.as_bytes();
        let letters = (1..=8).contains(&word.len()) && word.iter().all(u8::is_ascii_alphabetic);
        if !letters && !["+", "-", "*", "/", "<", ">"].contains(&sign) {
            return Err(Unsigned::Sign);
        }
        precedence_of(precedence)?;
        let mut entry = [0; ENTRY];
        entry[..word.len()].copy_from_slice(word);
        entry[ENTRY - 1] = precedence;
        let has = |other: &u16| self.entry(*other).is_some_and(|one| one[..8] == entry[..8]);
        let mut others = (0..SignTable::OPERATIONS).filter(|other| *other != operation);
        if let Some(holder) = others.find(has) {
            return Err(Unsigned::Shared { holder });
        }
        let at = GROUPINGS + ENTRY * usize::from(operation);
        if self.bytes.len() < at + ENTRY {
            self.bytes.resize(at + ENTRY, 0);
        }
        self.bytes[at..at + ENTRY].copy_from_slice(&entry);
        Ok(self)
    }

    /// Where this precedence groups to the right: `a - b - c` is `a - (b - c)`.
    ///
    /// # Errors
    ///
    /// [`Unsigned::Precedence`] where it is not one from 1 to 9.
    pub fn groups_right(mut self, precedence: u8) -> Result<SignTable, Unsigned> {
        let at = precedence_of(precedence)?;
        if self.bytes.len() < GROUPINGS {
            self.bytes.resize(GROUPINGS, 0);
        }
        self.bytes[at] = 1;
        Ok(self)
    }
}

/// The place of a precedence's grouping.
fn precedence_of(precedence: u8) -> Result<usize, Unsigned> {
    match precedence {
        1..=9 => Ok(usize::from(precedence) - 1),
        _ => Err(Unsigned::Precedence),
    }
}

impl Default for SignTable {
    fn default() -> SignTable {
        SignTable::new()
    }
}

/// Why a sign was not taken.
#[derive(Clone, Copy, Debug, PartialEq, Eq, Hash)]
pub enum Unsigned {
    /// The operation is above 63.
    Operation,
    /// The sign is neither 1 to 8 ASCII letters nor one of `+ - * / < >`.
    Sign,
    /// The precedence is not one from 1 to 9.
    Precedence,
    /// Another operation has this sign.
    Shared { holder: u16 },
}

impl fmt::Display for Unsigned {
    fn fmt(&self, f: &mut fmt::Formatter<'_>) -> fmt::Result {
        match self {
            Unsigned::Operation => f.write_str("operations are numbered from 0 to 63"),
            Unsigned::Sign => f.write_str("a sign is 1 to 8 ASCII letters, or one of + - * / < >"),
            Unsigned::Precedence => f.write_str("a precedence is a number from 1 to 9"),
            Unsigned::Shared { holder } => {
                write!(
                    f,
                    "operation {holder} has this sign; a sign is one operation's own"
                )
            }
        }
    }
}

impl std::error::Error for Unsigned {}
