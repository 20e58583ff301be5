// SPDX-License-Identifier: Apache-2.0
//! A formula alone: the lines of a listing behind its first one.

use crate::cards::Cards;
use crate::listing::{Line, terms_of, text_of};
use crate::reading::{Reading, Side};
use crate::refusal::Refusal;
use crate::signs::SignTable;

/// A formula as a graph: term `k` is a distinct subterm, and what it is made of stands before it. Of a
/// [`Listing`](crate::Listing), or read from a card ([`Cards::read`]). Two formulas are equal where their
/// terms are, child for child.
#[derive(Clone, Debug, PartialEq, Eq, Hash)]
pub struct Formula {
    /// The distinct subterms, in the order a left-to-right walk finishes them; the last one is the
    /// formula. Never empty.
    pub terms: Vec<Line>,
    bytes: Vec<u8>,
}

impl Formula {
    /// Parses what the library wrote.
    pub(crate) fn of(bytes: Vec<u8>) -> Formula {
        let text = std::str::from_utf8(&bytes).ok();
        let lines = text.and_then(|text| Some(text.strip_suffix('\n')?.split('\n')));
        let terms = lines.and_then(terms_of).expect("lines of libtariff.a");
        Formula { terms, bytes }
    }

    /// Its lines, as a listing has them behind its first one.
    pub fn bytes(&self) -> &[u8] {
        &self.bytes
    }

    /// The number of the formula among `terms`: the last one.
    pub fn root(&self) -> usize {
        self.terms.len() - 1
    }

    /// The formula with the first branch at every marked place.
    pub fn left_reading(&self) -> Reading {
        Reading::of(&self.terms, Side::Left)
    }

    /// The formula with the second branch at every marked place.
    pub fn right_reading(&self) -> Reading {
        Reading::of(&self.terms, Side::Right)
    }

    /// The formula in one line, written as [`Listing::text`](crate::Listing::text) does.
    pub fn text(&self, most: usize) -> String {
        text_of(&self.terms, most)
    }

    /// The formula's card: [`Cards::write`] with a thread and buffers for this call alone.
    ///
    /// # Errors
    ///
    /// Those of [`Cards::write`].
    pub fn card(&self, table: &SignTable) -> Result<String, Refusal> {
        Cards::new().write(table, self)
    }
}
