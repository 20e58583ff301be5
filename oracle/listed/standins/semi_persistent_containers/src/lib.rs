// SPDX-License-Identifier: Apache-2.0
//! Stand-in for the containers that the listed files use: dense ids, an
//! append-only vector and an insert-only map. Marks remember a length and
//! restoring truncates; `run` uses neither.

use std::collections::HashMap;
use std::fmt::Debug;
use std::hash::Hash;

/// A word that counts positions.
pub trait IndexLike: Copy + Eq + Ord + Hash + Debug + Default + 'static {
    fn as_usize(self) -> usize;
    fn try_from_usize(n: usize) -> Option<Self>;
}

impl IndexLike for u32 {
    fn as_usize(self) -> usize {
        self as usize
    }
    fn try_from_usize(n: usize) -> Option<Self> {
        u32::try_from(n).ok()
    }
}

impl IndexLike for u16 {
    fn as_usize(self) -> usize {
        usize::from(self)
    }
    fn try_from_usize(n: usize) -> Option<Self> {
        u16::try_from(n).ok()
    }
}

/// An id that is a position below a bound.
pub trait DenseId: Copy + Eq + Ord + Hash + Debug + Default + 'static {
    type Index: IndexLike;
    fn try_new(pos: usize) -> Option<Self>;
    fn to_index(self) -> Self::Index;

    fn to_usize(self) -> usize {
        self.to_index().as_usize()
    }
    fn from_usize(pos: usize) -> Self {
        Self::try_new(pos).expect("position past the id bound")
    }
}

#[macro_export]
macro_rules! define_dense_id {
    ($(#[$meta:meta])* $vis:vis struct $name:ident, $word:ty, $bound:expr) => {
        $(#[$meta])*
        #[derive(Clone, Copy, PartialEq, Eq, PartialOrd, Ord, Hash, Debug, Default)]
        $vis struct $name($word);

        impl $crate::DenseId for $name {
            type Index = $word;
            fn try_new(pos: usize) -> Option<Self> {
                if pos <= $bound { Some($name(pos as $word)) } else { None }
            }
            fn to_index(self) -> $word {
                self.0
            }
        }
    };
}

#[macro_export]
macro_rules! define_id31 {
    ($(#[$meta:meta])* $vis:vis struct $name:ident / $stored:ident, $prefix:literal;) => {
        $crate::define_dense_id! { $(#[$meta])* $vis struct $name, u32, 0x7fff_ffff }
    };
}

#[macro_export]
macro_rules! define_id15 {
    ($(#[$meta:meta])* $vis:vis struct $name:ident / $stored:ident, $prefix:literal;) => {
        $crate::define_dense_id! { $(#[$meta])* $vis struct $name, u16, 0x7fff }
    };
}

define_id31! { pub struct SparseSetId / StoredSparseSetId, "ss"; }
define_id31! { pub struct UseListId / StoredUseListId, "ul"; }
define_id31! { pub struct UseNodeId / StoredUseNodeId, "un"; }

/// Whether a mark may give storage back. Nothing here shrinks.
#[derive(Clone, Copy, Debug)]
pub enum ShrinkPolicy {
    Never,
}

#[derive(Clone, Copy, Debug)]
pub struct VecToken(usize);

#[derive(Clone, Copy, Debug)]
pub struct MapToken(usize);

/// The id or index space is used up, or a token is of no use.
#[derive(Clone, Copy, Debug)]
pub struct Full;

pub struct AppendOnlyVec<T, I: IndexLike> {
    items: Vec<T>,
    index: core::marker::PhantomData<I>,
}

impl<T, I: IndexLike> AppendOnlyVec<T, I> {
    #[allow(clippy::new_without_default)]
    pub fn new() -> Self {
        AppendOnlyVec {
            items: Vec::new(),
            index: core::marker::PhantomData,
        }
    }
    pub fn len(&self) -> I {
        I::try_from_usize(self.items.len()).expect("length past the index word")
    }
    pub fn is_empty(&self) -> bool {
        self.items.is_empty()
    }
    pub fn get(&self, at: I) -> &T {
        &self.items[at.as_usize()]
    }
    pub fn as_slice(&self) -> &[T] {
        &self.items
    }
    pub fn try_push(&mut self, item: T) -> Result<(), Full> {
        I::try_from_usize(self.items.len() + 1).ok_or(Full)?;
        self.items.push(item);
        Ok(())
    }
    pub fn try_mark(&mut self, _: ShrinkPolicy) -> Result<VecToken, Full> {
        Ok(VecToken(self.items.len()))
    }
    pub fn is_valid_token(&self, token: &VecToken) -> bool {
        token.0 <= self.items.len()
    }
    pub fn try_restore(&mut self, token: VecToken) -> Result<(), Full> {
        self.items.truncate(token.0);
        Ok(())
    }
}

pub struct SpMap<K, V, I: IndexLike> {
    log: Vec<(K, V)>,
    at: HashMap<K, I>,
}

impl<K: Clone + Eq + Hash, V, I: IndexLike> SpMap<K, V, I> {
    #[allow(clippy::new_without_default)]
    pub fn new() -> Self {
        SpMap {
            log: Vec::new(),
            at: HashMap::new(),
        }
    }
    pub fn id_of(&self, key: &K) -> Option<I> {
        self.at.get(key).copied()
    }
    pub fn get_val(&self, at: I) -> &V {
        &self.log[at.as_usize()].1
    }
    pub fn get_by_key(&self, key: &K) -> Option<&V> {
        self.id_of(key).map(|at| self.get_val(at))
    }
    pub fn try_insert(&mut self, key: K, value: V) -> Result<(), Full> {
        let at = I::try_from_usize(self.log.len()).ok_or(Full)?;
        self.log.push((key.clone(), value));
        self.at.insert(key, at);
        Ok(())
    }
    pub fn try_mark(&mut self, _: ShrinkPolicy) -> Result<MapToken, Full> {
        Ok(MapToken(self.log.len()))
    }
    pub fn is_valid_token(&self, token: &MapToken) -> bool {
        token.0 <= self.log.len()
    }
    pub fn try_restore(&mut self, token: MapToken) -> Result<(), Full> {
        while self.log.len() > token.0 {
            if let Some((key, _)) = self.log.pop() {
                self.at.remove(&key);
            }
        }
        Ok(())
    }
}
