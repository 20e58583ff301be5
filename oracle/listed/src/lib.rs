// SPDX-License-Identifier: Apache-2.0
//! The oracle: the listed Rust (id.rs, multiplicity.rs and au/) over stand-ins for
//! what it leaves out. EDITS.md lists every change to a listed file.

#![allow(dead_code)]

pub use semi_persistent_containers as containers;

pub mod au;
pub mod canon;
pub mod clock;
pub mod config;
pub mod egraph;
pub mod hold;
pub mod id;
pub mod image;
mod listing;
pub mod literal;
pub mod multiplicity;

use au::egraph_api::AuSnapshot;
use au::transport::{Cell, TransportProblem, TransportSolution, solve_transport};
use config::ImageConfig;
use containers::DenseId;
use egraph::EGraph;

/// What the oracle says to one frame (image, left, right, budget).
#[derive(Clone, Debug, PartialEq, Eq)]
pub enum Answer {
    /// The listing, and how many checks passed by the clock's own count: the Rust does not write it.
    Listing { text: String, checks: u64 },
    /// An expanded child list would pass 1,000,000 entries.
    Unholdable,
    /// Not the frame of an accepted image: the oracle does not judge these.
    Unreadable,
}

impl Answer {
    pub fn text(&self) -> &str {
        match self {
            Answer::Listing { text, .. } => text,
            Answer::Unholdable => "unholdable\n",
            Answer::Unreadable => "unreadable\n",
        }
    }

    /// The checks that passed, where there is a listing.
    pub fn checks(&self) -> Option<u64> {
        match self {
            Answer::Listing { checks, .. } => Some(*checks),
            _ => None,
        }
    }
}

pub fn answer(frame: &[u8], pruning: bool) -> Answer {
    let Some(query) = image::read(frame) else {
        return Answer::Unreadable;
    };
    let classes = query.image.classes.len();
    if query.left >= classes || query.right >= classes {
        return Answer::Unreadable;
    }
    clock::start();
    let run = std::panic::AssertUnwindSafe(|| {
        let egraph: EGraph<ImageConfig, u32, false, false> = EGraph::new(query.image);
        let snap = AuSnapshot::new(&egraph);
        let (result, pool) = au::exact_fixed::run(
            &snap,
            au::AuClassId::from_usize(query.left),
            au::AuClassId::from_usize(query.right),
            Some(clock::Duration::checks(query.budget)),
            pruning,
        )
        .expect("no image is refused here");
        listing::listing(&result, &pool)
    });
    match std::panic::catch_unwind(run) {
        Ok(text) => Answer::Listing {
            text,
            checks: clock::passed(),
        },
        Err(cause) if cause.is::<hold::Unholdable>() => Answer::Unholdable,
        Err(cause) => std::panic::resume_unwind(cause),
    }
}

/// The transport solver alone; a cell without a cost is forbidden.
pub fn transport(
    row_supply: Vec<u32>,
    col_demand: Vec<u32>,
    cells: Vec<Vec<Option<(u32, u32)>>>,
) -> Option<TransportSolution> {
    let cost = cells
        .into_iter()
        .map(|row| {
            row.into_iter()
                .map(|cell| cell.map_or(Cell::Forbidden, |(size, mass)| Cell::Cost(size, mass)))
                .collect()
        })
        .collect();
    solve_transport(&TransportProblem {
        row_supply,
        col_demand,
        cost,
    })
}
