// SPDX-License-Identifier: Apache-2.0
//! Who asks for a merge.

/// Who asks, and so how many pairs of classes a query may hold: beyond it is
/// [`Refusal::Pairs`](crate::Refusal::Pairs). Nothing else depends on the caller: what the quote page is
/// answered by a listing, the account desk is answered by the same bytes.
#[derive(Clone, Copy, Debug, Default, PartialEq, Eq, Hash)]
pub enum Caller {
    /// The public quote page, for small tariffs.
    Page,
    /// The account desk.
    #[default]
    Desk,
}

impl Caller {
    /// How many pairs of classes a query may hold.
    pub const fn pairs(self) -> usize {
        match self {
            Caller::Page => 256,
            Caller::Desk => 4_096,
        }
    }
}
