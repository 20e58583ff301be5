// SPDX-License-Identifier: Apache-2.0
//! Stand-in for config.rs: the id types that the listed files name, and the one
//! configuration used here (31-bit ids, 32-bit counts, 32-bit literal values).

use crate::containers::{DenseId, IndexLike};
use crate::multiplicity::{Multiplicity, MultiplicityLike};

pub trait EGraphConfig: 'static {
    type G: DenseId;
    type O: DenseId;
    type V: DenseId;
    type C: Copy;
    type M: MultiplicityLike;
    type Au: AuIds;
}

pub trait AuIds: 'static {
    type Index: IndexLike;
    type Class: DenseId<Index = Self::Index>;
    type Term: DenseId<Index = Self::Index>;
    type TermChild: DenseId<Index = Self::Index>;
    type Action: DenseId<Index = Self::Index>;
}

semi_persistent_containers::define_dense_id! {
    /// A literal value stands for itself: all 32 bits are used.
    pub struct LitValId, u32, 0xffff_ffff
}

pub struct ImageConfig;
impl EGraphConfig for ImageConfig {
    type G = crate::id::ENodeId;
    type O = crate::id::OpId;
    type V = LitValId;
    type C = ();
    type M = Multiplicity;
    type Au = crate::au::AuIds31;
}
