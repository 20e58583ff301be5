// SPDX-License-Identifier: Apache-2.0
//! The quote page and the account desk: each refused beyond its own limit, and alike below both.

use tariff_merge::{Caller, Listing, Merger, Query, Refusal};

/// An image, and the two classes to ask for: a sum of `rows` literals, one of `columns` literals, and `more` pairs by
/// position. Their graph has `rows` × `columns` + 1 + `more` pairs.
fn graph_of(rows: u16, columns: u16, more: u16) -> (Vec<u8>, u16, u16) {
    let literals = rows + columns;
    let children = rows + columns + 2 * more;
    let mut tables = vec![1];
    for count in [3, literals + 2, literals + 4, children] {
        tables.extend(count.to_be_bytes());
    }
    // Lit, MSet, Seq
    for kind in [[9, 0], [7, 1], [6, 0]] {
        tables.extend(kind);
        tables.extend(u16::MAX.to_be_bytes());
    }
    // first member, count, best member; best size
    let mut class = |first: u16, count: u16, size: u32| {
        tables.extend([first, count, first].map(u16::to_be_bytes).as_flattened());
        tables.extend(size.to_be_bytes());
    };
    for first in 0..literals {
        class(first, 1, 1);
    }
    for first in [literals, literals + 2] {
        class(first, 2, u32::from(rows) + 1);
    }
    let mut first = 0;
    let mut member = |operation: u16, value: u32, children: u16| {
        tables.extend(operation.to_be_bytes());
        tables.extend(value.to_be_bytes());
        tables.extend([first, children].map(u16::to_be_bytes).as_flattened());
        first += children;
    };
    for value in 0..literals {
        member(0, u32::from(value), 0);
    }
    for over in [rows, columns] {
        member(1, 0, over);
        member(2, 0, more);
    }
    let mut child = |class: u16, count: u32| {
        tables.extend(class.to_be_bytes());
        tables.extend(count.to_be_bytes());
    };
    (0..rows).for_each(|row| child(row, 1));
    (0..more).for_each(|row| child(row, 1));
    child(rows, u32::from(rows - columns) + 1);
    (rows + 1..literals).for_each(|column| child(column, 1));
    (0..more).for_each(|row| child((row + 1) % rows, 1));
    let mut image = (tables.len() as u32).to_be_bytes().to_vec();
    image.extend(tables);
    (image, literals, literals + 1)
}

fn pairs(answer: Result<Listing, Refusal>) -> Result<u64, Refusal> {
    answer.map(|listing| {
        assert!(listing.complete);
        listing.pairs
    })
}

#[test]
fn each_caller_has_its_own_limit() {
    assert_eq!(Caller::default(), Caller::Desk);
    assert_eq!((Caller::Page.pairs(), Caller::Desk.pairs()), (256, 4_096));
    let mut merger = Merger::new();
    for (rows, columns, more) in [
        // 255 to 257 pairs, in images that the lent buffers have room for and in larger ones
        (16, 15, 14),
        (16, 15, 15),
        (16, 15, 16),
        (64, 3, 62),
        (64, 3, 63),
        (64, 3, 64),
        (64, 63, 63),
        (64, 63, 64),
    ] {
        let count = u64::from(rows * columns + 1 + more);
        let (image, left, right) = graph_of(rows, columns, more);
        let mut ask = |caller, budget| merger.merge_for(caller, &image, left, right, budget);
        let within = |limit| match count <= limit {
            true => Ok(count),
            false => Err(Refusal::Pairs),
        };
        let (page, desk) = (ask(Caller::Page, u32::MAX), ask(Caller::Desk, u32::MAX));
        assert!(page.is_err() || page == desk, "{count} pairs");
        assert_eq!(pairs(page), within(256), "{count} pairs");
        assert_eq!(pairs(desk), within(4_096), "{count} pairs");
        // one check enters them all; with none the run is cut short before
        let (page, desk) = (ask(Caller::Page, 1), ask(Caller::Desk, 1));
        assert_eq!(page.is_ok(), count <= 256);
        assert_eq!(desk.is_ok(), count <= 4_096);
        assert!(page.is_err() || page == desk);
        assert_eq!(ask(Caller::Page, 0), ask(Caller::Desk, 0));
        assert!(ask(Caller::Page, 0).is_ok());
    }
}

#[test]
fn calls_without_a_caller_are_the_desks() {
    let mut merger = Merger::new();
    let (image, left, right) = graph_of(16, 15, 16);
    let query = |budget| Query {
        left,
        right,
        budget,
    };
    let desk = merger.merge(&image, left, right, u32::MAX);
    assert_eq!(pairs(desk.clone()), Ok(257));
    assert_eq!(
        merger.merge_for(Caller::Desk, &image, left, right, u32::MAX),
        desk
    );
    let queries = [0, 1, 300, u32::MAX].map(query);
    let each = merger.merge_each(&image, &queries);
    assert_eq!(each[3], desk);
    assert_eq!(each, merger.merge_each_for(Caller::Desk, &image, &queries));
    let page = merger.merge_each_for(Caller::Page, &image, &queries);
    assert_eq!(page[0], each[0]);
    assert!(page[1..].iter().all(|one| *one == Err(Refusal::Pairs)));
    // a Merger that was the page's is the desk's again
    assert_eq!(merger.merge_each(&image, &queries), each);
}

#[test]
fn the_pages_refusals() {
    let mut merger = Merger::new();
    let (image, left, right) = graph_of(16, 15, 16);
    let mut ask = |image: &[u8], right| merger.merge_for(Caller::Page, image, left, right, 9);
    assert_eq!(ask(&image, right), Err(Refusal::Pairs));
    assert_eq!(ask(&image, right + 1), Err(Refusal::Query));
    assert_eq!(ask(&image[1..], right), Err(Refusal::Length));
    // 12 before 14, 14 where 12 is not met
    let mut short = Merger::with_output(0);
    let mut ask = |image: &[u8], budget| short.merge_for(Caller::Page, image, left, right, budget);
    assert_eq!(ask(&image, 9), Err(Refusal::Pairs));
    assert_eq!(ask(&image, 0), Err(Refusal::Output));
    let message = Refusal::Pairs.to_string();
    assert!(message.starts_with("refused 12: "));
    assert!(message.contains(" 256 ") && message.contains(" 4,096 "));
}

/// Frames, each behind its 4-byte big-endian length.
fn frames() -> Vec<&'static [u8]> {
    let mut bytes = &include_bytes!("../../../oracle/sample/frames.bin")[..];
    let mut found = Vec::new();
    while let Some((head, tail)) = bytes.split_first_chunk::<4>() {
        let (frame, rest) = tail.split_at(u32::from_be_bytes(*head) as usize);
        found.push(frame);
        bytes = rest;
    }
    found
}

#[test]
fn stored_queries_of_both_callers() {
    let mut merger = Merger::new();
    let (mut listings, mut beyond) = (0, 0);
    for (image, &[a, b, c, d, e, f, g, h]) in
        frames().into_iter().filter_map(<[u8]>::split_last_chunk)
    {
        let (left, right) = (u16::from_be_bytes([a, b]), u16::from_be_bytes([c, d]));
        let budget = u32::from_be_bytes([e, f, g, h]);
        let page = merger.merge_for(Caller::Page, image, left, right, budget);
        let desk = merger.merge_for(Caller::Desk, image, left, right, budget);
        match page {
            Err(Refusal::Pairs) => {
                beyond += 1;
                assert!(desk.is_err() || desk.is_ok_and(|l| !l.complete || l.pairs > 256));
            }
            page => {
                listings += usize::from(page.is_ok());
                assert_eq!(page, desk);
            }
        }
    }
    assert!(listings > 300 && beyond > 3, "{listings} and {beyond}");
}
