// SPDX-License-Identifier: Apache-2.0
//! Stand-in: the standard library's sets and maps under the name that
//! actions.rs uses. Only membership is asked of them, never an order.

pub use std::collections::{HashMap, HashSet};
