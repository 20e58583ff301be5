// SPDX-License-Identifier: Apache-2.0
//! Images and queries at every limit of document 01 and just past it.

use model::DESK;
use model::run::run;
use model::slip::Slip;

use crate::r#gen::{class, lit, over};
use crate::img::{Class, Img, Member, Operation, Query};

pub type Case = (String, Vec<u8>);

fn op(kind: u8) -> Operation {
    Operation {
        kind,
        identity: None,
    }
}

fn settled(mut img: Img) -> Img {
    img.order();
    assert!(img.settle(), "a limit image has finite terms");
    img
}

fn ask(left: usize, right: usize, budget: u32) -> Query {
    Query {
        left,
        right,
        budget,
    }
}

fn literals(count: usize) -> Vec<Class> {
    (0..count).map(|n| class(vec![lit(0, n as u32)])).collect()
}

/// The four counts at their limits and one past them.
fn tables(found: &mut Vec<Case>) {
    for ops in [64, 65] {
        let mut img = Img {
            ops: vec![op(9); ops],
            classes: vec![class(vec![lit(0, 1)]), class(vec![lit(63, 1)])],
        };
        img.classes[1].members[0].op = ops - 1;
        found.push((
            format!("{ops} operations"),
            settled(img).frame(&ask(0, 1, 9)),
        ));
    }
    for classes in [256, 257] {
        let img = Img {
            ops: vec![op(9)],
            classes: literals(classes),
        };
        let frame = settled(img).frame(&ask(254, 255, 9));
        found.push((format!("{classes} classes"), frame));
    }
    for members in [1_024, 1_025] {
        let mut img = Img {
            ops: vec![op(9), op(0)],
            classes: vec![class(vec![lit(0, 7)]), class(vec![])],
        };
        img.classes[1].members = vec![over(1, &[]); members - 1];
        found.push((
            format!("{members} members"),
            settled(img).frame(&ask(0, 1, 9)),
        ));
    }
    for children in [4_096, 4_097] {
        let mut classes = literals(2);
        let mut left = children;
        while left > 0 {
            let take = left.min(64);
            classes.push(class(vec![over(1, &vec![left % 2; take])]));
            left -= take;
        }
        let img = Img {
            ops: vec![op(9), op(6)],
            classes,
        };
        found.push((
            format!("{children} children"),
            settled(img).frame(&ask(2, 3, 90)),
        ));
    }
    for width in [64, 65] {
        let mut classes = literals(1);
        classes.push(class(vec![over(1, &vec![0; width])]));
        let img = Img {
            ops: vec![op(9), op(6)],
            classes,
        };
        let frame = settled(img).frame(&ask(1, 1, 9));
        found.push((format!("a member with {width} children"), frame));
    }
}

/// 64 operations, 256 classes, 1,024 members and 4,096 children at once.
fn full(found: &mut Vec<Case>) {
    let mut classes = literals(2);
    for n in 0..64 {
        classes.push(class(vec![over(1, &vec![n % 2; 64])]));
    }
    let mut value = 100;
    while classes.len() < 256 {
        let count = if classes.len() == 255 { 13 } else { 5 };
        let members = (0..count).map(|n| lit(63, value + n)).collect();
        value += count;
        classes.push(class(members));
    }
    let mut ops = vec![op(9), op(6)];
    ops.resize(64, op(9));
    let img = settled(Img { ops, classes });
    for (left, right) in [(2, 3), (65, 255)] {
        let frame = img.frame(&ask(left, right, 900));
        found.push((format!("all tables full, {left} {right}"), frame));
    }
}

/// Best sizes at the end of their range; a sum that wraps at 32 bits.
fn sizes(found: &mut Vec<Case>) {
    let mset = |children: &[(usize, u32)]| Member {
        op: 1,
        literal: 0,
        children: children.to_vec(),
    };
    let most = 2_147_483_646u32;
    for (what, count, size) in [
        ("best size 2,147,483,646", most - 1, most),
        ("best size 2,147,483,647", most, most + 1),
        ("best size 2,147,483,646, its sum one more", most, most),
        ("best size wraps to 0", u32::MAX, 0),
    ] {
        let mut classes = literals(2);
        classes.push(class(vec![mset(&[(0, count)])]));
        let mut img = Img {
            ops: vec![op(9), op(7)],
            classes,
        };
        img.classes[0].size = 1;
        img.classes[1].size = 1;
        img.classes[2].size = size;
        found.push((what.to_string(), img.frame(&ask(2, 1, 99))));
        if size == most {
            found.push((format!("{what}, with itself"), img.frame(&ask(2, 2, 99))));
        }
    }
    let mut classes = literals(1);
    classes.push(class(vec![mset(&[(0, u32::MAX), (0, 7)])]));
    let mut img = Img {
        ops: vec![op(9), op(7)],
        classes,
    };
    img.classes[0].size = 1;
    img.classes[1].size = 7;
    found.push(("best size wraps to 7".to_string(), img.frame(&ask(0, 1, 9))));
    // Sizes of Variants and of a sum that are near 2^32.
    let mut classes = literals(3);
    classes.push(class(vec![mset(&[(0, most - 1)])]));
    classes.push(class(vec![mset(&[(0, most - 2), (1, 1)])]));
    classes.push(class(vec![mset(&[(2, most - 1)])]));
    let img = settled(Img {
        ops: vec![op(9), op(7)],
        classes,
    });
    for (left, right) in [(3, 4), (3, 5), (5, 4)] {
        for budget in [0, 99] {
            let what = format!("sizes near 2^32, {left} {right} {budget}");
            found.push((what, img.frame(&ask(left, right, budget))));
        }
    }
}

/// Inputs of 65,536 bytes and one more, both with a right length field.
fn inputs(found: &mut Vec<Case>) {
    for bytes in [65_536usize, 65_537] {
        let mut frame = vec![0; bytes];
        frame[..4].copy_from_slice(&((bytes - 12) as u32).to_be_bytes());
        frame[4] = 1;
        for (at, count) in [(6, 64u8), (8, 8), (10, 8), (12, 8)] {
            frame[at] = count;
        }
        found.push((format!("an input of {bytes} bytes"), frame));
    }
}

/// A graph of exactly `count` pairs, 4,033 to 4,097.
pub fn pairs(count: usize) -> Img {
    pairs_over(64, 63, count)
}

/// A graph of exactly `count` pairs: `rows` × `columns` cells, the root, and at most `rows` pairs
/// by position. The last two classes are queried.
pub fn pairs_over(rows: usize, columns: usize, count: usize) -> Img {
    let mut classes = literals(rows + columns);
    let left: Vec<usize> = (0..rows).collect();
    let mut right: Vec<(usize, u32)> = (rows..rows + columns).map(|n| (n, 1)).collect();
    right[0].1 += (rows - columns) as u32;
    let more = count - 1 - rows * columns;
    assert!(more <= rows, "pairs by position are different");
    classes.push(class(vec![
        over(1, &left),
        over(2, &(0..more).collect::<Vec<_>>()),
    ]));
    classes.push(class(vec![
        Member {
            op: 1,
            literal: 0,
            children: right,
        },
        over(2, &(1..=more).map(|n| n % rows).collect::<Vec<_>>()),
    ]));
    settled(Img {
        ops: vec![op(9), op(7), op(6)],
        classes,
    })
}

fn graphs(found: &mut Vec<Case>) {
    for count in [4_095, 4_096, 4_097] {
        let img = pairs(count);
        for budget in [0, 1, u32::MAX] {
            if count != 4_095 || budget == u32::MAX {
                let what = format!("{count} pairs, budget {budget}");
                found.push((what, img.frame(&ask(127, 128, budget))));
            }
        }
    }
}

/// (02, Paper 9) Graphs at the limits of both callers and just past them, with their numbers of
/// pairs. Those about the quote page's limit also in an image of more than the 64 classes that the
/// lent buffers have room for.
pub fn callers() -> Vec<(usize, Vec<u8>)> {
    let shapes = [(16, 15), (64, 3)].map(|shape| (shape, [255, 256, 257]));
    let mut found = Vec::new();
    for ((rows, columns), counts) in shapes {
        found.extend(counts.map(|count| (count, pairs_over(rows, columns, count))));
    }
    found.extend([4_096, 4_097].map(|count| (count, pairs(count))));
    found
        .into_iter()
        .map(|(count, img)| {
            let n = img.classes.len();
            (count, img.frame(&ask(n - 2, n - 1, u32::MAX)))
        })
        .collect()
}

/// Graphs of `rows` x `columns` cells and the root.
pub fn crowded(rows: usize, columns: usize) -> Img {
    let mut classes = literals(rows + columns);
    let left: Vec<usize> = (0..rows).collect();
    let mut right: Vec<(usize, u32)> = (rows..rows + columns).map(|n| (n, 1)).collect();
    right[columns - 1].1 += (rows - columns) as u32;
    classes.push(class(vec![over(1, &left)]));
    classes.push(class(vec![Member {
        op: 1,
        literal: 0,
        children: right,
    }]));
    settled(Img {
        ops: vec![op(9), op(7)],
        classes,
    })
}

/// 65 rows: 64 classes on the left and the identity that pads them.
fn rows() -> Img {
    let mut classes = literals(125);
    let left: Vec<usize> = (1..65).collect();
    let right = (65..125)
        .map(|n| (n, if n == 70 { 6 } else { 1 }))
        .collect();
    classes.push(class(vec![over(1, &left)]));
    classes.push(class(vec![Member {
        op: 1,
        literal: 0,
        children: right,
    }]));
    settled(Img {
        ops: vec![
            op(9),
            Operation {
                kind: 7,
                identity: Some(0),
            },
        ],
        classes,
    })
}

fn transports(found: &mut Vec<Case>) {
    let frame = rows().frame(&ask(125, 126, u32::MAX));
    found.push(("a transport of 65 rows and 60 columns".to_string(), frame));
}

/// Chains of each side, each pair of them improved round after round: many terms.
/// Every turn has an action that is overtaken.
pub fn many_terms(depth: usize) -> Img {
    let mut classes = literals(3);
    let mut rows = [vec![0], vec![1]];
    for row in &mut rows {
        for _ in 1..depth {
            let under = row[row.len() - 1];
            row.push(classes.len());
            classes.push(class(vec![over(1, &[under, 2]), over(2, &[under])]));
        }
    }
    for row in rows {
        classes.push(class(vec![over(3, &row)]));
    }
    settled(Img {
        ops: vec![op(9), op(2), op(1), op(8)],
        classes,
    })
}

/// Pairs whose terms have 64 runs each, improved in 17 rounds: many runs.
fn many_runs() -> Img {
    let mut classes = literals(2);
    let mut chains = [vec![0], vec![1]];
    for chain in &mut chains {
        for _ in 0..27 {
            let under = chain[chain.len() - 1];
            chain.push(classes.len());
            classes.push(class(vec![over(1, &[under])]));
        }
    }
    let mut rows = [vec![], vec![]];
    for (row, chain) in rows.iter_mut().zip(&chains) {
        for k in 0..8 {
            let children: Vec<usize> = (0..64).map(|n| chain[19 + k + n % 2]).collect();
            row.push(classes.len());
            classes.push(class(vec![over(2, &children)]));
        }
    }
    for row in rows {
        classes.push(class(vec![over(3, &row)]));
    }
    settled(Img {
        ops: vec![op(9), op(1), op(6), op(8)],
        classes,
    })
}

/// Six copies of one chain on each side: far more improvements than 16,384, and
/// few distinct terms.
fn equal_terms() -> Img {
    let mut classes = vec![class(vec![over(0, &[])]), class(vec![over(1, &[])])];
    let mut rows = [vec![], vec![]];
    for (side, row) in rows.iter_mut().enumerate() {
        for _ in 0..6 {
            let mut under = side;
            for _ in 0..10 {
                row.push(classes.len());
                classes.push(class(vec![over(2, &[under])]));
                under = classes.len() - 1;
            }
        }
    }
    for row in rows {
        classes.push(class(vec![over(3, &row)]));
    }
    settled(Img {
        ops: vec![op(0), op(0), op(1), op(8)],
        classes,
    })
}

/// The least budget at which the model refuses with 13.
fn first_refusal(img: &Img, left: usize, right: usize) -> Option<u32> {
    let image = model::image::accept(&img.bytes(), Slip::None).ok()?;
    let refused = |budget: u32| run(&image, left, right, budget, DESK, Slip::None).is_err();
    let (mut low, mut high) = (0, 1 << 24);
    if !refused(high) {
        return None;
    }
    while high - low > 1 {
        let middle = (low + high) / 2;
        if refused(middle) {
            high = middle;
        } else {
            low = middle;
        }
    }
    Some(high)
}

fn terms(found: &mut Vec<Case>) {
    let img = equal_terms();
    let n = img.classes.len();
    let frame = img.frame(&ask(n - 2, n - 1, u32::MAX));
    found.push(("many equal terms".to_string(), frame));
    for (what, img) in [
        ("16,384 terms", many_terms(60)),
        ("65,536 runs", many_runs()),
    ] {
        let n = img.classes.len();
        let first = first_refusal(&img, n - 2, n - 1).expect("a limit of terms is met");
        for (when, budget) in [("at", first - 1), ("past", first), ("far past", u32::MAX)] {
            let frame = img.frame(&ask(n - 2, n - 1, budget));
            found.push((format!("{when} {what}"), frame));
        }
    }
}

/// Formulas of many long lines; `tail` single steps and literal values lengthen
/// them by a little.
pub fn long_lines(width: usize, tail: usize, values: &[u32]) -> Img {
    let mut classes: Vec<Class> = values.iter().map(|&v| class(vec![lit(0, v)])).collect();
    let half = values.len() / 2;
    let mut sides = [vec![], vec![]];
    for (side, members) in sides.iter_mut().zip([12, 8]) {
        let base = if members == 12 { 0 } else { half };
        for k in 0..members {
            let children: Vec<usize> = (0..width).map(|n| base + (n + k) % width).collect();
            side.push(classes.len());
            classes.push(class(vec![over(1, &children)]));
        }
    }
    let mut end = 0;
    for _ in 0..tail {
        classes.push(class(vec![over(2, &[end])]));
        end = classes.len() - 1;
    }
    let [left, right] = sides;
    let mut roots = Vec::new();
    for (side, step) in [(&left, 0), (&right, 1)] {
        let mut halves = vec![end];
        for part in 0..2 {
            let children: Vec<usize> = (part * 48..(part + 1) * 48)
                .map(|n| if step == 0 { side[n / 8] } else { side[n % 8] })
                .collect();
            halves.push(classes.len());
            classes.push(class(vec![over(1, &children)]));
        }
        roots.push(over(1, &halves));
    }
    for root in roots {
        classes.push(class(vec![root]));
    }
    settled(Img {
        ops: vec![op(9), op(4), op(1)],
        classes,
    })
}

fn listing_length(img: &Img) -> usize {
    let image = model::image::accept(&img.bytes(), Slip::None).expect("a sound image");
    let n = img.classes.len();
    let outcome = run(&image, n - 2, n - 1, u32::MAX, DESK, Slip::None).expect("no limit but 14");
    model::listing::listing(&outcome, Slip::None).len()
}

/// Listings of exactly 65,536 bytes, one less and one more.
fn listings(found: &mut Vec<Case>) {
    let short: Vec<u32> = (0..128).map(|n| 100 + n).collect();
    let mut width = 64;
    while listing_length(&long_lines(width, 0, &short[..2 * width])) > 65_536 {
        width -= 1;
    }
    let values = &short[..2 * width];
    let mut tail = 0;
    while tail < 60 && listing_length(&long_lines(width, tail + 1, values)) <= 65_530 {
        tail += 1;
    }
    for goal in [65_535usize, 65_536, 65_537] {
        let mut values = values.to_vec();
        let mut missing = goal - listing_length(&long_lines(width, tail, &values));
        // A value of 3 digits takes up to 7 more.
        for value in &mut values {
            let more = missing.min(7);
            *value *= 10u32.pow(more as u32);
            missing -= more;
        }
        let img = long_lines(width, tail, &values);
        assert_eq!(listing_length(&img), goal);
        let n = img.classes.len();
        let frame = img.frame(&ask(n - 2, n - 1, u32::MAX));
        found.push((format!("a listing of {goal} bytes"), frame));
    }
}

pub fn cases() -> Vec<Case> {
    let mut found = Vec::new();
    tables(&mut found);
    full(&mut found);
    sizes(&mut found);
    inputs(&mut found);
    graphs(&mut found);
    transports(&mut found);
    terms(&mut found);
    listings(&mut found);
    found
}
