// SPDX-License-Identifier: Apache-2.0
//! A member's children, added up as they arrive.

use std::fmt;
use std::iter::FusedIterator;
use std::slice::ChunksExact;

use crate::raw;

/// Classes rising, each with its count: the children of a member, the counts of one class added.
///
/// Children are added one at a time. After each, the list held is the monomial of the children added
/// so far: that is the contract of the library's function, and it is proved. A child that is refused
/// leaves the list as it was.
///
/// ```
/// use tariff_merge::{Monomial, Unadded};
///
/// let mut children = Monomial::new();
/// children.add(4, 1)?;
/// children.add(2, 3)?;
/// assert_eq!(children.iter().collect::<Vec<_>>(), [(2, 3), (4, 1)]);
/// children.add(4, 2)?;
/// assert_eq!(children.iter().collect::<Vec<_>>(), [(2, 3), (4, 3)]);
/// assert_eq!(children.total(), 6);
/// assert_eq!(children.add(4, u64::MAX), Err(Unadded::Overflow));
/// # Ok::<(), Unadded>(())
/// ```
#[derive(Clone)]
pub struct Monomial {
    numbers: [u64; 2 * Monomial::CAPACITY],
    terms: usize,
}

impl Monomial {
    /// How many classes it has places for: the 64 children that a member has at most, and an identity.
    /// So of a member's children none is refused.
    pub const CAPACITY: usize = 65;

    /// No children.
    pub const fn new() -> Monomial {
        Monomial {
            numbers: [0; 2 * Monomial::CAPACITY],
            terms: 0,
        }
    }

    /// A child of this class, so many times; 0 times makes a term of count 0, which no image has.
    ///
    /// # Errors
    ///
    /// [`Unadded::Full`] where the class is new and every place is taken, [`Unadded::Overflow`] where the
    /// class's count would pass 64 bits. The list is then as it was.
    pub fn add(&mut self, class: u16, count: u64) -> Result<(), Unadded> {
        let added = raw::add_child(&mut self.numbers, self.terms, class, count);
        self.terms = added.terms;
        match added.number {
            0 => Ok(()),
            1 => Err(Unadded::Full),
            2 => Err(Unadded::Overflow),
            number => unreachable!("number {number} from libtariff.a: is it of this version?"),
        }
    }

    /// Whether every count is at most 4,294,967,295, as the merge takes them.
    ///
    /// A list that fails is in no monomial pair that the merge aligns: it passes over every one in which a
    /// count, after padding, is above, and [`Listing::skipped`](crate::Listing::skipped) counts them. A
    /// list that fits can be passed over too, since padding adds to the count of the operation's identity.
    ///
    /// ```
    /// use tariff_merge::{Monomial, TooLarge};
    ///
    /// let mut children = Monomial::new();
    /// children.add(2, 3)?;
    /// children.add(4, 4_294_967_295)?;
    /// assert_eq!(children.narrow(), Ok(()));
    /// children.add(4, 1)?;
    /// assert_eq!(children.narrow(), Err(TooLarge { entry: 1 }));
    /// # Ok::<(), tariff_merge::Unadded>(())
    /// ```
    ///
    /// # Errors
    ///
    /// [`TooLarge`] with the first entry whose count is above.
    pub fn narrow(&self) -> Result<(), TooLarge> {
        let narrowed = raw::narrow(&self.numbers, self.terms);
        match narrowed.number {
            0 => Ok(()),
            1 => Err(TooLarge {
                entry: narrowed.entry,
            }),
            number => unreachable!("number {number} from libtariff.a: is it of this version?"),
        }
    }

    /// Each class with its count, classes rising.
    pub fn iter(&self) -> Terms<'_> {
        Terms(self.numbers[..2 * self.terms].chunks_exact(2))
    }

    /// How many classes it has.
    pub fn len(&self) -> usize {
        self.terms
    }

    /// Whether it has no children.
    pub fn is_empty(&self) -> bool {
        self.terms == 0
    }

    /// The sum of the counts. It may pass 64 bits, though no count does.
    pub fn total(&self) -> u128 {
        self.iter().map(|(_, count)| u128::from(count)).sum()
    }
}

impl Default for Monomial {
    fn default() -> Monomial {
        Monomial::new()
    }
}

impl PartialEq for Monomial {
    fn eq(&self, other: &Monomial) -> bool {
        self.iter().eq(other)
    }
}

impl Eq for Monomial {}

impl fmt::Debug for Monomial {
    fn fmt(&self, f: &mut fmt::Formatter<'_>) -> fmt::Result {
        f.debug_map().entries(self).finish()
    }
}

impl<'a> IntoIterator for &'a Monomial {
    type Item = (u16, u64);
    type IntoIter = Terms<'a>;

    fn into_iter(self) -> Terms<'a> {
        self.iter()
    }
}

/// The terms of a [`Monomial`], classes rising.
#[derive(Clone, Debug)]
pub struct Terms<'a>(ChunksExact<'a, u64>);

impl Iterator for Terms<'_> {
    type Item = (u16, u64);

    fn next(&mut self) -> Option<(u16, u64)> {
        // every class came in as a `u16`
        self.0.next().map(|term| (term[0] as u16, term[1]))
    }

    fn size_hint(&self) -> (usize, Option<usize>) {
        self.0.size_hint()
    }
}

impl ExactSizeIterator for Terms<'_> {}

impl FusedIterator for Terms<'_> {}

/// Why a child was not added. The list is as it was.
#[derive(Clone, Copy, Debug, PartialEq, Eq, Hash)]
pub enum Unadded {
    /// The child's class is new, and every place is taken.
    Full,
    /// The count of the child's class would pass 64 bits.
    Overflow,
}

impl fmt::Display for Unadded {
    fn fmt(&self, f: &mut fmt::Formatter<'_>) -> fmt::Result {
        match self {
            Unadded::Full => write!(
                f,
                "the list has no place for another class; a member has at most 64 children, and the \
                 list holds {} classes",
                Monomial::CAPACITY
            ),
            Unadded::Overflow => f.write_str(
                "the count of the child's class would pass 18,446,744,073,709,551,615; a child's count \
                 has 32 bits, so a member's children do not come near it",
            ),
        }
    }
}

impl std::error::Error for Unadded {}

/// A count is above 4,294,967,295.
#[derive(Clone, Copy, Debug, PartialEq, Eq, Hash)]
pub struct TooLarge {
    /// The first term of which that is so, from 0, in the order of [`Monomial::iter`].
    pub entry: usize,
}

impl fmt::Display for TooLarge {
    fn fmt(&self, f: &mut fmt::Formatter<'_>) -> fmt::Result {
        write!(
            f,
            "the count of entry {}, from 0, is above 4,294,967,295; the merge passes over every monomial \
             pair with such a count, so bring it down, or the merge does without these children",
            self.entry
        )
    }
}

impl std::error::Error for TooLarge {}
