// Copyright Amazon.com, Inc. or its affiliates. All Rights Reserved.
// SPDX-License-Identifier: Apache-2.0
// Taken from au/mod.rs and cut down; see EDITS.md.
//! Anti-unification: the listed modules and the few items of mod.rs they use.

pub mod ac_repr;
pub mod actions;
pub mod egraph_api;
pub mod estimates;
pub(crate) mod exact_fixed;
pub mod terms;
pub mod transport;

use crate::containers;

containers::define_id31! {
    /// Dense index of a live e-class inside one AU snapshot (§5.3). Minted only by
    /// the snapshot's representative-to-dense map, so a non-canonical id or an id
    /// from another snapshot cannot enter search state.
    pub struct AuClassId / StoredAuClassId, "auc";
}

containers::define_id31! { pub struct TermChildId / StoredTermChildId, "tc"; }
containers::define_id31! { pub struct ActionId / StoredActionId, "act"; }

/// The 31-bit AU id family. Used by `DefaultConfig`.
pub struct AuIds31;
impl crate::config::AuIds for AuIds31 {
    type Index = u32;
    type Class = AuClassId;
    type Action = ActionId;
    type Term = terms::TermId;
    type TermChild = TermChildId;
}

/// A typed span into a flattened persistent pool: `start` is a typed position
/// in the target pool (so spans cannot be applied to the wrong pool), `len`
/// is in the configured index width. All conversions are checked.
#[derive(Debug, Clone, Copy, PartialEq, Eq, Default)]
pub struct Span<I: containers::DenseId> {
    pub start: I,
    pub len: I::Index,
}

impl<I: containers::DenseId> Span<I> {
    #[inline]
    pub fn new(start: usize, len: usize) -> Self {
        use crate::containers::IndexLike;
        Span {
            start: I::try_new(start)
                .unwrap_or_else(|| panic!("span start {start} exceeds the configured AU capacity")),
            len: I::Index::try_from_usize(len).expect("span length exceeds configured AU capacity"),
        }
    }

    #[inline]
    pub fn start_usize(&self) -> usize {
        self.start.to_usize()
    }

    #[inline]
    pub fn len_usize(&self) -> usize {
        use crate::containers::IndexLike;
        self.len.as_usize()
    }
}

/// Errors surfaced while building an AU snapshot (§4.1).
#[derive(Debug, Clone, PartialEq, Eq)]
pub enum AuError {
    NoFiniteRepresentative(u64),
    CycleModeMismatch,
}
