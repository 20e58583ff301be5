// Copyright Amazon.com, Inc. or its affiliates. All Rights Reserved.
// SPDX-License-Identifier: Apache-2.0
// Changed for this repository; every change is listed in EDITS.md.
//! Result-term pool (§4.4): hash-consed arena of anti-unifier terms.
//!
//! Terms are `(TermOp, children)` where children are spans into a shared pool.
//! `Variants` nodes have two children (left, right projections). Size counts 1
//! per ordinary node and 0 for each `Variants` node (its children are counted).

use crate::canon::{MSetCanon, VarCanon};
use crate::config::{AuIds, EGraphConfig};
use crate::containers::{
    AppendOnlyVec, DenseId, IndexLike, MapToken, ShrinkPolicy, SpMap, VecToken,
};
use crate::literal::LitVal;
use crate::multiplicity::MultiplicityLike;

use super::egraph_api::{AuSnapshot, ClassOf};
use super::{AuIds31, Span};

crate::containers::define_id31! {
    /// Index of a term in the hash-consed term pool.
    pub struct TermId / StoredTermId, "t";
}

/// The operator of a term node.
#[derive(Debug, Clone, PartialEq, Eq, Hash)]
pub enum TermOp<O: DenseId, V: DenseId> {
    /// An e-graph operator (from the original e-graph).
    EGraph(O),
    /// A literal value.
    Literal(O, V),
    /// A `Variants(left, right)` node: where left and right differ.
    Variants,
}

/// Hash-consed term pool. Structurally equal terms get the same term id.
/// All fields are semi-persistent (AppendOnlyVec/SpMap); mark/restore truncates.
/// The id family `A` defaults to the 31-bit family; a Config64 session
/// instantiates `TermPool<O, V, AuIds64>` through `Cfg::Au`.
///
/// Every pool here is addressed by an id whose `Index` is `A::Index`, so that word —
/// not `usize` — is the index type: the five term-indexed columns are addressed by
/// `A::Term`, `child_pool` by `A::TermChild`, and `by_structure`'s log positions are
/// what `A::Term`s are minted from. Pinning them keeps each saved frame length and
/// each hash-index value at the configured width instead of 8 bytes.
pub struct TermPool<O: DenseId, V: DenseId, A: AuIds = AuIds31> {
    ops: AppendOnlyVec<TermOp<O, V>, A::Index>,
    child_spans: AppendOnlyVec<Span<A::TermChild>, A::Index>,
    child_pool: AppendOnlyVec<A::Term, A::Index>,
    sizes: AppendOnlyVec<u32, A::Index>,
    vmasses: AppendOnlyVec<u32, A::Index>,
    by_structure: SpMap<(TermOp<O, V>, Vec<A::Term>), A::Term, A::Index>,
    /// Memoized [`build_best_term`] result per snapshot class.
    ///
    /// A class's minimal member is fixed by the snapshot, so its extracted term
    /// is a pure function of the class id; caching it makes `build_best_term`
    /// amortized O(1) per class after the first build instead of re-walking the
    /// member tree on every call (quadratic on deep chains). The cache lives in
    /// the same semi-persistent storage as the term columns and is truncated by
    /// the same token bundle, so a surviving entry always names a surviving
    /// term: the entry was appended after its term was interned, and restore
    /// truncates both logs at the same mark.
    ///
    /// Class ids are snapshot-relative, so the cache assumes every
    /// `build_best_term` call on this pool uses the same snapshot. That holds
    /// by construction: every pool is created next to one snapshot
    /// (`session.rs`, `exact.rs`, `mcgs.rs`) and never outlives it.
    best_terms: SpMap<A::Class, A::Term, A::Index>,
}

/// Token for restoring a `TermPool` to a previous state.
#[derive(Clone, Copy, Debug)]
pub struct TermPoolToken {
    ops: VecToken,
    child_spans: VecToken,
    child_pool: VecToken,
    sizes: VecToken,
    vmasses: VecToken,
    by_structure: MapToken,
    best_terms: MapToken,
}

impl<O: DenseId + core::hash::Hash, V: DenseId + core::hash::Hash, A: AuIds> TermPool<O, V, A> {
    pub fn new() -> Self {
        TermPool {
            ops: AppendOnlyVec::new(),
            child_spans: AppendOnlyVec::new(),
            child_pool: AppendOnlyVec::new(),
            sizes: AppendOnlyVec::new(),
            vmasses: AppendOnlyVec::new(),
            by_structure: SpMap::new(),
            best_terms: SpMap::new(),
        }
    }

    /// Number of interned terms, in the configured index word.
    ///
    /// A term count is a position count — the next term interns at exactly this
    /// index — so it is reported in `A::Index` rather than widened to `usize`.
    pub fn len(&self) -> A::Index {
        self.ops.len()
    }

    pub fn is_empty(&self) -> bool {
        self.ops.is_empty()
    }

    /// Intern a term. Returns the existing id if structurally equal term exists.
    pub fn intern(&mut self, op: TermOp<O, V>, children: &[A::Term]) -> A::Term {
        let key = (op.clone(), children.to_vec());
        if let Some(log_idx) = self.by_structure.id_of(&key) {
            return *self.by_structure.get_val(log_idx);
        }

        let id: A::Term = crate::id::id_at_index(self.ops.len());
        let start = self.child_pool.len().as_usize();
        for &c in children {
            self.child_pool
                .try_push(c)
                .expect("AU arena sized by its index word");
        }

        // Expanded sizes saturate. They do not wrap, and they do not panic.
        //
        // A term is a hash-consed DAG, so the *expanded* size these fields count is
        // exponential in the DAG's depth: a chain of 32 binary nodes already names
        // 2^32 leaves out of 33 stored rows. `u32` is therefore reachable from a
        // pool small enough to build, and no wider word makes it unreachable — `u64`
        // only moves the chain to depth 64. The width is a storage choice; the
        // arithmetic has to be total either way.
        //
        // Saturation rather than a panic because these two fields are read only as
        // the `quality` ranking key, where lower is better. A term too large to
        // count belongs at the *worst* end of that order, which is exactly where
        // `u32::MAX` puts it; two such terms tie, and a tie between candidates
        // nobody can materialize costs nothing. Wrapping put them at the *best*
        // end — a 2^32-node generalization scored 0 and was selected as the minimal
        // one. That was silent: `Iterator::sum` on `u32` panics in debug and wraps
        // in release, so it only ever misbehaved in the configuration that ships.
        //
        // `AuSnapshot::best_size` takes the same view from the other side: it
        // reserves `u32::MAX` as an explicit "no finite representative" sentinel and
        // rejects any total that reaches it (`egraph_api.rs`).
        let child_size_sum = children.iter().fold(0u32, |acc, &c| {
            acc.saturating_add(*self.sizes.get(c.to_index()))
        });
        let (size, vmass) = match &op {
            TermOp::Variants => (child_size_sum, child_size_sum),
            _ => {
                let vm = children.iter().fold(0u32, |acc, &c| {
                    acc.saturating_add(*self.vmasses.get(c.to_index()))
                });
                (child_size_sum.saturating_add(1), vm)
            }
        };

        self.ops
            .try_push(op)
            .expect("AU arena sized by its index word");
        self.child_spans
            .try_push(Span::new(start, children.len()))
            .expect("AU arena sized by its index word");
        self.sizes
            .try_push(size)
            .expect("AU arena sized by its index word");
        self.vmasses
            .try_push(vmass)
            .expect("AU arena sized by its index word");
        self.by_structure
            .try_insert(key, id)
            .expect("AU arena sized by its index word");
        id
    }

    /// Intern the result term of one action.
    ///
    /// `commutative` MUST be true exactly for operators whose canonical node kind is
    /// commutative (SPair, MSet, Set): their children are sorted into canonical
    /// structural order. For ordered operators (Plain*, Seq) it MUST be false: the
    /// pair order of the action is positional semantics and is preserved verbatim.
    ///
    /// Counts arrive at the *surface* width. Two callers feed this: the structural path,
    /// whose counts are [`EGraphConfig::M`] multiplicities, and the transport path, whose
    /// counts are flow cells at the solver's own narrower capacity. `u64` is the one width
    /// that holds both without a fallible conversion — [`MultiplicityLike::to_u64`] is
    /// total and lossless at every configured width — and the count is consumed here
    /// rather than stored, so the width costs nothing beyond the call.
    ///
    /// [`EGraphConfig::M`]: crate::config::EGraphConfig::M
    /// [`MultiplicityLike::to_u64`]: crate::multiplicity::MultiplicityLike::to_u64
    pub fn intern_action_result(
        &mut self,
        op: TermOp<O, V>,
        children_with_counts: &[(A::Term, u64)],
        commutative: bool,
    ) -> A::Term {
        // Expand counts into repeated children.
        crate::hold::check(children_with_counts.iter().map(|&(_, count)| count));
        let mut expanded: Vec<A::Term> = Vec::new();
        for &(child, count) in children_with_counts {
            for _ in 0..count {
                expanded.push(child);
            }
        }
        if commutative {
            // Canonical structural order: allocation-independent, so the same
            // semantic result interns identically regardless of construction order.
            expanded.sort_by(|&a, &b| self.structural_cmp(a, b));
        }
        self.intern(op, &expanded)
    }

    /// Total structural order on terms, independent of allocation order:
    /// operator variant rank, then operator/value ids, then arity, then children
    /// lexicographically. Equal ids are structurally equal (hash-consing), so this
    /// returns `Equal` only for identical ids.
    ///
    /// Iterative (explicit work stack): the first non-`Equal` comparison in
    /// depth-first, left-to-right order decides, exactly like the recursive
    /// lexicographic definition. Depth is heap-bounded, not call-stack-bounded.
    pub fn structural_cmp(&self, a: A::Term, b: A::Term) -> core::cmp::Ordering {
        use core::cmp::Ordering;
        fn rank<O: DenseId, V: DenseId>(op: &TermOp<O, V>) -> u8 {
            match op {
                TermOp::EGraph(_) => 0,
                TermOp::Literal(_, _) => 1,
                TermOp::Variants => 2,
            }
        }
        let mut stack: Vec<(A::Term, A::Term)> = vec![(a, b)];
        while let Some((a, b)) = stack.pop() {
            if a == b {
                continue;
            }
            let (oa, ob) = (self.op(a), self.op(b));
            let ord = rank(oa).cmp(&rank(ob));
            if ord != Ordering::Equal {
                return ord;
            }
            let ord = match (oa, ob) {
                (TermOp::EGraph(x), TermOp::EGraph(y)) => x.to_usize().cmp(&y.to_usize()),
                (TermOp::Literal(x, v), TermOp::Literal(y, w)) => x
                    .to_usize()
                    .cmp(&y.to_usize())
                    .then(v.to_usize().cmp(&w.to_usize())),
                _ => Ordering::Equal,
            };
            if ord != Ordering::Equal {
                return ord;
            }
            let (ca, cb) = (self.children(a), self.children(b));
            let ord = ca.len().cmp(&cb.len());
            if ord != Ordering::Equal {
                return ord;
            }
            // Push child pairs in reverse so the leftmost pair is compared first.
            for (&x, &y) in ca.iter().zip(cb.iter()).rev() {
                stack.push((x, y));
            }
        }
        Ordering::Equal
    }

    /// Get the size of a term. Saturates at `u32::MAX` for terms whose expanded
    /// size exceeds the counter (see `intern`); such a term is ranked worst, never
    /// best.
    #[inline]
    pub fn size(&self, id: A::Term) -> u32 {
        *self.sizes.get(id.to_index())
    }

    /// Get the variant mass of a term: concrete nodes under `Variants` nodes.
    /// `size - variant_mass` is the backbone (shared structure) size.
    #[inline]
    pub fn variant_mass(&self, id: A::Term) -> u32 {
        *self.vmasses.get(id.to_index())
    }

    /// The lexicographic quality key `(size, variant_mass)`. Lower is better:
    /// primary objective is minimum size; at equal size the term with less
    /// variant mass has more backbone (more factored structure) and wins.
    ///
    /// Both components saturate (`intern`), so the order is total and monotone but
    /// loses discrimination among terms too large to count — they all tie at the
    /// bottom. That is the intended degradation: the alternative, wrapping, inverted
    /// the comparison and made the largest term look like the best one.
    #[inline]
    pub fn quality(&self, id: A::Term) -> (u32, u32) {
        (
            *self.sizes.get(id.to_index()),
            *self.vmasses.get(id.to_index()),
        )
    }

    /// Get the operator of a term.
    #[inline]
    pub fn op(&self, id: A::Term) -> &TermOp<O, V> {
        self.ops.get(id.to_index())
    }

    /// Get the children of a term.
    #[inline]
    pub fn children(&self, id: A::Term) -> &[A::Term] {
        let span = *self.child_spans.get(id.to_index());
        let (start, len) = (span.start_usize(), span.len_usize());
        // Verified `as_slice()` instead of `from_raw_parts` — see the counterpart in
        // `space.rs::ContextStore::get`. The children of a term are pushed
        // consecutively when it is interned, so the span is in bounds.
        &self.child_pool.as_slice()[start..start + len]
    }

    /// The memoized minimal term for a snapshot class, if one was built since
    /// the last surviving mark (see `best_terms`).
    #[inline]
    fn cached_best_term(&self, class: A::Class) -> Option<A::Term> {
        self.best_terms.get_by_key(&class).copied()
    }

    /// Record the minimal term extracted for a snapshot class. Callers check
    /// the cache first, so a key is never overwritten (no shadow log entries).
    fn cache_best_term(&mut self, class: A::Class, term: A::Term) {
        debug_assert!(
            self.best_terms.id_of(&class).is_none(),
            "best-term cache entries are written at most once per class"
        );
        self.best_terms
            .try_insert(class, term)
            .expect("AU arena sized by its index word");
    }

    pub fn mark(&mut self) -> TermPoolToken {
        TermPoolToken {
            ops: self
                .ops
                .try_mark(ShrinkPolicy::Never)
                .expect("mark: depth bounded by the search driver"),
            child_spans: self
                .child_spans
                .try_mark(ShrinkPolicy::Never)
                .expect("mark: depth bounded by the search driver"),
            child_pool: self
                .child_pool
                .try_mark(ShrinkPolicy::Never)
                .expect("mark: depth bounded by the search driver"),
            sizes: self
                .sizes
                .try_mark(ShrinkPolicy::Never)
                .expect("mark: depth bounded by the search driver"),
            vmasses: self
                .vmasses
                .try_mark(ShrinkPolicy::Never)
                .expect("mark: depth bounded by the search driver"),
            by_structure: self
                .by_structure
                .try_mark(ShrinkPolicy::Never)
                .expect("mark: depth bounded by the search driver"),
            best_terms: self
                .best_terms
                .try_mark(ShrinkPolicy::Never)
                .expect("mark: depth bounded by the search driver"),
        }
    }

    /// Is this token restorable right now (same instances, live branches on
    /// every inner container)?
    pub fn is_valid_token(&self, token: &TermPoolToken) -> bool {
        self.ops.is_valid_token(&token.ops)
            && self.child_spans.is_valid_token(&token.child_spans)
            && self.child_pool.is_valid_token(&token.child_pool)
            && self.sizes.is_valid_token(&token.sizes)
            && self.vmasses.is_valid_token(&token.vmasses)
            && self.by_structure.is_valid_token(&token.by_structure)
            && self.best_terms.is_valid_token(&token.best_terms)
    }

    pub fn restore(&mut self, token: TermPoolToken) {
        self.best_terms
            .try_restore(token.best_terms)
            .expect("restore: token minted by this container's own mark");
        self.by_structure
            .try_restore(token.by_structure)
            .expect("restore: token minted by this container's own mark");
        self.vmasses
            .try_restore(token.vmasses)
            .expect("restore: token minted by this container's own mark");
        self.sizes
            .try_restore(token.sizes)
            .expect("restore: token minted by this container's own mark");
        self.child_pool
            .try_restore(token.child_pool)
            .expect("restore: token minted by this container's own mark");
        self.child_spans
            .try_restore(token.child_spans)
            .expect("restore: token minted by this container's own mark");
        self.ops
            .try_restore(token.ops)
            .expect("restore: token minted by this container's own mark");
    }

    /// Project one side of the anti-unifier: replace every `Variants` node —
    /// at any depth — by its left (side 0) or right (side 1) child, recursively.
    /// The result contains no `Variants` node (§1: variant projection must land
    /// in the source class). New nodes may be interned for rebuilt spines.
    ///
    /// Iterative post-order fold (explicit frame stack): each frame projects
    /// its children left to right, then re-interns only if a child changed, so
    /// the interning order matches the recursive definition exactly. A
    /// `Variants` node is a tail step (follow the chosen arm), so it never
    /// occupies a frame. Depth is heap-bounded, not call-stack-bounded.
    pub fn project(&mut self, id: A::Term, side: usize) -> A::Term {
        debug_assert!(side < 2);
        struct Frame<T, Op> {
            id: T,
            op: Op,
            children: Vec<T>,
            cursor: usize,
            new_children: Vec<T>,
            changed: bool,
        }
        let mut stack: Vec<Frame<A::Term, TermOp<O, V>>> = Vec::new();
        let mut pending = id;
        loop {
            // Enter: resolve the Variants chain (tail steps), push a frame.
            let mut nid = pending;
            while matches!(self.op(nid), TermOp::Variants) {
                nid = self.children(nid)[side];
            }
            let children = self.children(nid).to_vec();
            let capacity = children.len();
            stack.push(Frame {
                id: nid,
                op: self.op(nid).clone(),
                children,
                cursor: 0,
                new_children: Vec::with_capacity(capacity),
                changed: false,
            });
            // Advance the top frame; complete frames deliver upward.
            loop {
                let top = stack.last_mut().expect("project stack cannot be empty");
                if top.cursor < top.children.len() {
                    pending = top.children[top.cursor];
                    break; // descend into the next child
                }
                let frame = stack.pop().expect("project stack cannot be empty");
                let projected = if frame.changed {
                    self.intern(frame.op, &frame.new_children)
                } else {
                    frame.id
                };
                let Some(parent) = stack.last_mut() else {
                    return projected;
                };
                let original = parent.children[parent.cursor];
                parent.changed |= projected != original;
                parent.new_children.push(projected);
                parent.cursor += 1;
            }
        }
    }

    /// Does this term contain any `Variants` node (at any depth)?
    /// Iterative DFS with an explicit stack; depth is heap-bounded.
    pub fn has_variants(&self, id: A::Term) -> bool {
        let mut stack: Vec<A::Term> = vec![id];
        while let Some(t) = stack.pop() {
            if matches!(self.op(t), TermOp::Variants) {
                return true;
            }
            stack.extend_from_slice(self.children(t));
        }
        false
    }
}

impl<O: DenseId + core::hash::Hash, V: DenseId + core::hash::Hash> Default for TermPool<O, V> {
    fn default() -> Self {
        Self::new()
    }
}

impl<O: DenseId, V: DenseId> core::fmt::Debug for TermPool<O, V> {
    fn fmt(&self, f: &mut core::fmt::Formatter<'_>) -> core::fmt::Result {
        f.debug_struct("TermPool")
            .field("len", &self.ops.len())
            .finish()
    }
}

/// Evaluate the shared terminal generalize action for a class pair.
///
/// Equal classes yield their smallest concrete representative. Unequal classes
/// yield `Variants(best_term(l), best_term(r))` without recursively factoring
/// either representative; operator-aware factoring belongs to structural
/// actions shared by Exact and UCT.
pub(crate) fn evaluate_generalize_action<
    Cfg: EGraphConfig,
    L: LitVal,
    const T: bool,
    const P: bool,
>(
    snap: &AuSnapshot<Cfg, L, T, P>,
    pool: &mut TermPool<Cfg::O, Cfg::V, Cfg::Au>,
    l: ClassOf<Cfg>,
    r: ClassOf<Cfg>,
) -> <Cfg::Au as AuIds>::Term
where
    MSetCanon: VarCanon<Cfg::G, Cfg::C>,
{
    if l == r {
        return build_best_term(snap, pool, l);
    }
    let l_term = build_best_term(snap, pool, l);
    let r_term = build_best_term(snap, pool, r);
    pool.intern(TermOp::Variants, &[l_term, r_term])
}

/// Build the best (smallest) concrete term for a class, interned in the pool.
///
/// Iterative post-order fold (explicit frame stack): each frame resolves its
/// class's best node, evaluates child classes left to right (in
/// `for_each_child` order, repeating AC children per multiplicity), then
/// interns — the same interning order as the recursive definition. Depth is
/// heap-bounded, not call-stack-bounded.
///
/// Memoized per class in the pool: the result is a pure
/// function of `(snap, class)` and the pool binds to one snapshot, so a
/// completed class's term is cached and later builds return it without
/// re-walking the member tree — amortized O(1) per class after the first
/// build. The cache changes nothing observable: interning is idempotent, so
/// the uncached walk would re-intern the identical ids in the identical
/// order; only the redundant walk is skipped. Restore truncates the cache
/// with the pool's other columns, so an entry never outlives its term.
pub fn build_best_term<Cfg: EGraphConfig, L: LitVal, const T: bool, const P: bool>(
    snap: &AuSnapshot<Cfg, L, T, P>,
    pool: &mut TermPool<Cfg::O, Cfg::V, Cfg::Au>,
    class: ClassOf<Cfg>,
) -> <Cfg::Au as AuIds>::Term
where
    MSetCanon: VarCanon<Cfg::G, Cfg::C>,
{
    struct Frame<O, C, M, Term> {
        /// The class this frame extracts, cached when the frame completes.
        class: C,
        op: O,
        /// Child classes with multiplicities, in `for_each_child` order.
        child_classes: Vec<(C, M)>,
        cursor: usize,
        children: Vec<Term>,
    }
    let eg = snap.egraph();
    let mut stack: Vec<Frame<Cfg::O, ClassOf<Cfg>, Cfg::M, <Cfg::Au as AuIds>::Term>> = Vec::new();
    let mut pending = class;
    loop {
        // Enter: cached classes complete immediately, as do literals; other
        // nodes resolve the class's best node and get a frame.
        let mut done: Option<<Cfg::Au as AuIds>::Term> = None;
        if let Some(term) = pool.cached_best_term(pending) {
            done = Some(term);
        } else {
            let best_id = snap.best_node(pending);
            let op = eg.node_op(best_id);
            if let Some(val_id) = eg.get_lit_val_id(best_id) {
                let term = pool.intern(TermOp::Literal(op, val_id), &[]);
                pool.cache_best_term(pending, term);
                done = Some(term);
            } else {
                let mut child_classes: Vec<(ClassOf<Cfg>, Cfg::M)> = Vec::new();
                eg.for_each_child(best_id, |child, mult| {
                    child_classes.push((snap.class_of(child).unwrap(), mult));
                });
                crate::hold::check(child_classes.iter().map(|&(_, mult)| mult.to_u64()));
                stack.push(Frame {
                    class: pending,
                    op,
                    child_classes,
                    cursor: 0,
                    children: Vec::new(),
                });
            }
        }
        // Advance: deliver any completed term upward, then descend or compose.
        loop {
            if let Some(term) = done.take() {
                let Some(parent) = stack.last_mut() else {
                    return term;
                };
                let (_, mult) = parent.child_classes[parent.cursor];
                for _ in 0..mult.to_usize() {
                    parent.children.push(term);
                }
                parent.cursor += 1;
            }
            let top = stack
                .last_mut()
                .expect("build_best_term stack cannot be empty");
            if top.cursor < top.child_classes.len() {
                pending = top.child_classes[top.cursor].0;
                break; // descend into the next child class
            }
            let frame = stack.pop().expect("build_best_term stack cannot be empty");
            let term = pool.intern(TermOp::EGraph(frame.op), &frame.children);
            pool.cache_best_term(frame.class, term);
            done = Some(term);
        }
    }
}

