// SPDX-License-Identifier: Apache-2.0
//! Stand-in: the bound `MSetCanon: VarCanon<G, C>` that every signature of the
//! listed files carries. Nothing is asked of it.

pub struct MSetCanon;
pub trait VarCanon<G, C> {}
impl<G, C> VarCanon<G, C> for MSetCanon {}
