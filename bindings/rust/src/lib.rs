// SPDX-License-Identifier: Apache-2.0
//! The tariff merge: two classes of an image in, one formula out, with marked places where they
//! differ. The merge itself is the static library of crate `tariff`, proved to meet its contract;
//! this crate calls it and parses what it writes.
//!
//! ```
//! use tariff_merge::{Merger, Refusal};
//!
//! # fn main() -> Result<(), Box<dyn std::error::Error>> {
//! # let image = std::fs::read(concat!(env!("CARGO_MANIFEST_DIR"), "/tests/E.image"))?;
//! let mut merger = Merger::new();
//! let listing = merger.merge(&image, 2, 3, 14)?;
//! assert!(listing.complete);
//! assert_eq!((listing.skipped, listing.checks), (0, 14));
//! assert_eq!(listing.text(100), "op1(5, {7 | 5})");
//! assert_eq!(listing.left_reading().text(100), "op1(5, 7)");
//! assert_eq!(listing.right_reading().text(100), "op1(5:2)");
//! assert_eq!(merger.merge(&image, 2, 4, 14), Err(Refusal::Query));
//! # Ok(())
//! # }
//! ```
//!
//! These are the account desk's calls; the public quote page asks with [`Caller::Page`]
//! ([`Merger::merge_for`]), and is refused beyond 256 pairs of classes.
//!
//! A [`Monomial`] adds up a member's children as they arrive, and says whether their counts have the 32
//! bits that the merge takes.
//!
//! [`Cards`] writes a formula as infix text for a driver's card, with the signs and precedences of a
//! [`SignTable`], and reads such text back.
//!
//! `unsafe` stands in two places: at the calls of the library (`raw`), and where the thread of a
//! [`Merger`] or of [`Cards`] promises it enough stack.

#[cfg(not(all(target_arch = "x86_64", target_os = "linux")))]
compile_error!("libtariff.a is for x86-64 Linux");

mod caller;
mod cards;
mod formula;
mod listing;
mod merger;
mod monomial;
pub mod raw;
mod reading;
mod refusal;
mod signs;
mod text;
mod worker;

pub use caller::Caller;
pub use cards::Cards;
pub use formula::Formula;
pub use listing::{Line, Listing, Run};
pub use merger::{Merger, Query};
pub use monomial::{Monomial, Terms, TooLarge, Unadded};
pub use reading::{Reading, Term};
pub use refusal::Refusal;
pub use signs::{SignTable, Unsigned};
