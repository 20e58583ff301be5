// SPDX-License-Identifier: Apache-2.0
//! Stand-in for the e-graph: node-level answers from the image. An e-node is a
//! member, by its number in the member table; a child class is named by its first
//! member.

use core::marker::PhantomData;

use crate::config::EGraphConfig;
use crate::containers::DenseId;
use crate::id::ENodeKind;
use crate::image::Image;
use crate::literal::LitVal;
use crate::multiplicity::MultiplicityLike;

pub struct OpInfo {
    kind: ENodeKind,
}

impl OpInfo {
    pub fn canon_class(&self) -> ENodeKind {
        self.kind
    }
}

pub struct Ops<O> {
    infos: Vec<OpInfo>,
    op: PhantomData<O>,
}

impl<O: DenseId> Ops<O> {
    pub fn info(&self, op: O) -> &OpInfo {
        &self.infos[op.to_usize()]
    }
}

pub struct EGraph<Cfg: EGraphConfig, L: LitVal, const T: bool, const P: bool> {
    pub(crate) image: Image,
    ops: Ops<Cfg::O>,
    lit: PhantomData<L>,
}

fn kind_of(number: u8) -> ENodeKind {
    [
        ENodeKind::Plain0,
        ENodeKind::Plain1,
        ENodeKind::Plain2,
        ENodeKind::Plain3,
        ENodeKind::PlainN,
        ENodeKind::SPair,
        ENodeKind::Seq,
        ENodeKind::MSet,
        ENodeKind::Set,
        ENodeKind::Lit,
    ][usize::from(number)]
}

impl<Cfg: EGraphConfig, L: LitVal, const T: bool, const P: bool> EGraph<Cfg, L, T, P> {
    pub fn new(image: Image) -> Self {
        let infos = image
            .operations
            .iter()
            .map(|op| OpInfo {
                kind: kind_of(op.kind),
            })
            .collect();
        EGraph {
            image,
            ops: Ops {
                infos,
                op: PhantomData,
            },
            lit: PhantomData,
        }
    }

    pub fn ops(&self) -> &Ops<Cfg::O> {
        &self.ops
    }

    pub fn node_op(&self, id: Cfg::G) -> Cfg::O {
        Cfg::O::from_usize(self.image.members[id.to_usize()].op)
    }

    pub fn get_lit_val_id(&self, id: Cfg::G) -> Option<Cfg::V> {
        let member = &self.image.members[id.to_usize()];
        let kind = kind_of(self.image.operations[member.op].kind);
        (kind == ENodeKind::Lit).then(|| Cfg::V::from_usize(member.literal as usize))
    }

    pub fn for_each_child(&self, id: Cfg::G, mut each: impl FnMut(Cfg::G, Cfg::M)) -> usize {
        let children = &self.image.members[id.to_usize()].children;
        for &(class, count) in children {
            each(self.first_member(class), Self::count(count));
        }
        children.len()
    }

    pub fn mset_children(&self, id: Cfg::G, buf: &mut Vec<(Cfg::G, Cfg::M)>) {
        buf.clear();
        for &(class, count) in &self.image.members[id.to_usize()].children {
            buf.push((self.first_member(class), Self::count(count)));
        }
    }

    fn first_member(&self, class: usize) -> Cfg::G {
        Cfg::G::from_usize(self.image.classes[class].first)
    }

    fn count(count: u32) -> Cfg::M {
        Cfg::M::try_from_u64(u64::from(count)).expect("a stored count fits its width")
    }
}
