// SPDX-License-Identifier: Apache-2.0
//! Stand-in: the type of literal values, named by the listed signatures only.

pub trait LitVal: 'static {}
impl LitVal for u32 {}
