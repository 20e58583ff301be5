// SPDX-License-Identifier: Apache-2.0
//! Stand-in for egraph_api.rs: a snapshot that answers from the image.

use super::AuError;
use crate::canon::{MSetCanon, VarCanon};
use crate::config::{AuIds, EGraphConfig};
use crate::containers::DenseId;
use crate::egraph::EGraph;
use crate::literal::LitVal;

/// Class id projected from a config's AU family.
pub type ClassOf<Cfg> = <<Cfg as EGraphConfig>::Au as AuIds>::Class;

pub struct AuSnapshot<'eg, Cfg: EGraphConfig, L: LitVal, const T: bool, const P: bool>
where
    MSetCanon: VarCanon<Cfg::G, Cfg::C>,
{
    eg: &'eg EGraph<Cfg, L, T, P>,
    /// The member table as the listed files want it: (op, member number).
    member_pool: Vec<(Cfg::O, Cfg::G)>,
    /// The class of each member.
    member_class: Vec<ClassOf<Cfg>>,
}

/// Asked for by `reachable_pairs` alone, which `run` does not call.
pub struct Reachability;

impl Reachability {
    pub fn reach_count<C>(&self, _source: C) -> u64 {
        unimplemented!("run asks for no reachability")
    }
    pub fn is_reachable<C>(&self, _source: C, _target: C) -> bool {
        unimplemented!("run asks for no reachability")
    }
}

impl<'eg, Cfg: EGraphConfig, L: LitVal, const T: bool, const P: bool> AuSnapshot<'eg, Cfg, L, T, P>
where
    MSetCanon: VarCanon<Cfg::G, Cfg::C>,
{
    pub fn new(eg: &'eg EGraph<Cfg, L, T, P>) -> Self {
        let image = &eg.image;
        let member_pool = image
            .members
            .iter()
            .enumerate()
            .map(|(number, member)| (Cfg::O::from_usize(member.op), Cfg::G::from_usize(number)))
            .collect();
        let mut member_class = Vec::new();
        for (number, class) in image.classes.iter().enumerate() {
            for _ in 0..class.members {
                member_class.push(<ClassOf<Cfg>>::from_usize(number));
            }
        }
        AuSnapshot {
            eg,
            member_pool,
            member_class,
        }
    }

    pub fn class_of(&self, id: Cfg::G) -> Option<ClassOf<Cfg>> {
        self.member_class.get(id.to_usize()).copied()
    }

    pub fn best_size(&self, au: ClassOf<Cfg>) -> u32 {
        self.eg.image.classes[au.to_usize()].best_size
    }

    pub fn best_node(&self, au: ClassOf<Cfg>) -> Cfg::G {
        Cfg::G::from_usize(self.eg.image.classes[au.to_usize()].best)
    }

    pub fn members(&self, au: ClassOf<Cfg>) -> &[(Cfg::O, Cfg::G)] {
        let class = &self.eg.image.classes[au.to_usize()];
        &self.member_pool[class.first..class.first + class.members]
    }

    pub fn reachability(&self) -> &Reachability {
        &Reachability
    }

    pub fn egraph(&self) -> &'eg EGraph<Cfg, L, T, P> {
        self.eg
    }

    /// An accepted image gives it nothing to refuse.
    pub fn validate_finite_from(&self, _root: ClassOf<Cfg>) -> Result<(), AuError> {
        Ok(())
    }

    pub fn op_identity_class(&self, op: Cfg::O) -> Option<ClassOf<Cfg>> {
        self.eg.image.operations[op.to_usize()]
            .identity
            .map(<ClassOf<Cfg>>::from_usize)
    }

    pub fn op_is_commutative(&self, op: Cfg::O) -> bool {
        matches!(
            self.eg.ops().info(op).canon_class(),
            crate::id::ENodeKind::SPair | crate::id::ENodeKind::MSet | crate::id::ENodeKind::Set
        )
    }
}
