// SPDX-License-Identifier: Apache-2.0
//! Seeded queries. Each family draws an image; queries and budgets are drawn to
//! meet every phase.

use std::collections::HashSet;

use model::slip::Slip;

use crate::doubled;
use crate::img::{Class, Img, Member, Operation, Query};
use crate::limits;
use crate::rng::Rng;
use crate::skipped;

pub const FAMILIES: [(&str, usize); 22] = [
    ("mixed", 30),
    ("twins", 24),
    ("ties", 10),
    ("cycle", 8),
    ("crossed", 5),
    ("lists", 5),
    ("cells", 2),
    ("identity", 8),
    ("counts", 4),
    ("chain", 3),
    ("wide", 1),
    ("grid", 1),
    ("huge", 1),
    ("damaged", 5),
    // Slow, and mostly refused: drawn by name only.
    ("crowded", 0),
    ("terms", 0),
    ("long", 0),
    // The sample's second part.
    ("literals", 4),
    ("reverse", 4),
    // Mostly refused by 10: drawn by name only.
    ("doubled", 0),
    // The sample's third part.
    ("skipped", 6),
    // About 256 pairs: drawn by name only.
    ("page", 0),
];

/// The families of the sample's first part.
pub const FIRST: usize = 17;

/// The families of the sample's first and second part.
pub const SECOND: usize = 20;

const PLAIN: [u8; 5] = [0, 1, 2, 3, 4];

fn op(kind: u8, identity: Option<usize>) -> Operation {
    Operation { kind, identity }
}

pub fn over(op: usize, children: &[usize]) -> Member {
    Member {
        op,
        literal: 0,
        children: children.iter().map(|&class| (class, 1)).collect(),
    }
}

pub fn lit(op: usize, literal: u32) -> Member {
    Member {
        op,
        literal,
        children: vec![],
    }
}

pub fn class(members: Vec<Member>) -> Class {
    Class {
        members,
        ..Class::default()
    }
}

/// What a random image looks like.
struct Style {
    kinds: Vec<u8>,
    ops: usize,
    classes: usize,
    members: usize,
    /// One child in so many may be any class; the others are lower classes.
    back: usize,
    width: usize,
    count: usize,
    identities: bool,
    /// Literals from few values or from all 32 bits.
    few: bool,
}

struct Drawing<'a> {
    rng: &'a mut Rng,
    used: HashSet<(usize, u32)>,
    style: &'a Style,
}

impl Drawing<'_> {
    fn value(&mut self) -> u32 {
        match self.rng.below(8) {
            0 => u32::MAX - self.rng.below(3) as u32,
            1 => 0x8000_0000 - 1 + self.rng.below(3) as u32,
            2 if !self.style.few => self.rng.next() as u32,
            _ => self.rng.below(12) as u32,
        }
    }

    fn literal(&mut self, op: usize) -> Member {
        loop {
            let value = self.value();
            if self.used.insert((op, value)) {
                return lit(op, value);
            }
            let value = self.rng.next() as u32 % 1_000;
            if self.used.insert((op, value)) {
                return lit(op, value);
            }
        }
    }

    fn child(&mut self, class: usize, classes: usize) -> usize {
        if class == 0 || self.rng.once_in(self.style.back) {
            self.rng.below(classes)
        } else {
            self.rng.below(class)
        }
    }

    fn member(&mut self, ops: &[Operation], number: usize, class: usize, classes: usize) -> Member {
        let kind = ops[number].kind;
        let arity = match kind {
            9 => return self.literal(number),
            0..=3 => usize::from(kind),
            5 => 2,
            _ => match self.rng.below(12) {
                0 => 0,
                1 => 1,
                _ => self.rng.range(1, self.style.width),
            },
        };
        let children = (0..arity)
            .map(|_| {
                let child = self.child(class, classes);
                let many = kind == 7 && !self.rng.once_in(3);
                let count = if many {
                    self.rng.range(1, self.style.count)
                } else {
                    1
                };
                (child, count as u32)
            })
            .collect();
        Member {
            op: number,
            literal: 0,
            children,
        }
    }
}

fn draw_ops(rng: &mut Rng, style: &Style) -> Vec<Operation> {
    let mut ops = Vec::new();
    for _ in 0..style.ops {
        let kind = *rng.pick(&style.kinds);
        let identity = (kind == 7 || kind == 8) && style.identities && !rng.once_in(3);
        ops.push(op(kind, identity.then(|| rng.below(style.classes))));
    }
    let at = rng.below(ops.len());
    if !ops.iter().any(|o| o.kind == 9) {
        ops[at] = op(9, None);
    }
    ops
}

fn draw(rng: &mut Rng, style: &Style) -> Img {
    let ops = draw_ops(rng, style);
    let lit_op = ops.iter().position(|o| o.kind == 9).unwrap_or(0);
    let mut drawing = Drawing {
        rng,
        used: HashSet::new(),
        style,
    };
    let mut classes = Vec::new();
    for number in 0..style.classes {
        let count = if drawing.rng.once_in(2) {
            1
        } else {
            drawing.rng.range(1, style.members)
        };
        let members = (0..count)
            .map(|_| {
                let chosen = if number < 2 || drawing.rng.once_in(6) {
                    lit_op
                } else {
                    drawing.rng.below(ops.len())
                };
                drawing.member(&ops, chosen, number, style.classes)
            })
            .collect();
        classes.push(class(members));
    }
    let mut img = Img { ops, classes };
    img.order();
    while !img.settle() {
        let lost: Vec<usize> = (0..img.classes.len())
            .filter(|&n| img.classes[n].size == 0)
            .collect();
        let at = *drawing.rng.pick(&lost);
        let leaf = drawing.literal(lit_op);
        img.classes[at].members.push(leaf);
        img.order();
    }
    choose_best(drawing.rng, &mut img);
    img
}

/// Now and then another best member than the smallest.
fn choose_best(rng: &mut Rng, img: &mut Img) {
    if !rng.once_in(5) {
        return;
    }
    let mut other = img.clone();
    for class in &mut other.classes {
        if rng.once_in(3) {
            class.best = rng.below(class.members.len());
        }
    }
    if other.size_by_choice() {
        *img = other;
    }
}

fn mixed(rng: &mut Rng) -> Img {
    let all: Vec<u8> = (0..10).collect();
    let kinds = match rng.below(5) {
        0 => vec![7, 9, 8, 7],
        1 => vec![1, 2, 5, 6, 9],
        _ => all,
    };
    let style = Style {
        kinds,
        ops: rng.range(2, 6),
        classes: rng.range(2, 12),
        members: rng.range(1, 4),
        back: *rng.pick(&[2, 5, 20, 1_000]),
        width: rng.range(2, 5),
        count: *rng.pick(&[1, 2, 3, 6]),
        identities: !rng.once_in(3),
        few: rng.once_in(2),
    };
    draw(rng, &style)
}

fn ties(rng: &mut Rng) -> Img {
    let style = Style {
        kinds: vec![5, 7, 8, 6, 2, 7, 8],
        ops: rng.range(2, 4),
        classes: rng.range(5, 14),
        members: 4,
        back: 40,
        width: rng.range(2, 6),
        count: 2,
        identities: rng.once_in(2),
        few: true,
    };
    draw(rng, &style)
}

fn cycle(rng: &mut Rng) -> Img {
    let style = Style {
        kinds: vec![1, 2, 7, 8, 5, 4, 9, 1],
        ops: rng.range(2, 5),
        classes: rng.range(3, 9),
        members: 4,
        back: 1,
        width: 3,
        count: 3,
        identities: rng.once_in(2),
        few: true,
    };
    draw(rng, &style)
}

fn identity(rng: &mut Rng) -> Img {
    let style = Style {
        kinds: vec![7, 8],
        ops: rng.range(2, 4),
        classes: rng.range(3, 9),
        members: 3,
        back: *rng.pick(&[3, 100]),
        width: 4,
        count: 4,
        identities: true,
        few: true,
    };
    draw(rng, &style)
}

/// Every class has a twin with the same operations over twins, here and there with
/// another child: much to be shared.
fn twins(rng: &mut Rng) -> Img {
    let kinds: Vec<u8> = match rng.below(3) {
        0 => vec![1, 2, 3, 4, 5, 6, 7, 8],
        1 => vec![5, 7, 8],
        _ => PLAIN.iter().copied().chain([7, 6]).collect(),
    };
    let style = Style {
        kinds,
        ops: rng.range(2, 6),
        classes: rng.range(3, 9),
        members: rng.range(1, 3),
        back: *rng.pick(&[6, 1_000]),
        width: rng.range(2, 6),
        count: *rng.pick(&[1, 3, 5]),
        identities: rng.once_in(2),
        few: rng.once_in(2),
    };
    let mut img = draw(rng, &style);
    let n = img.classes.len();
    let lit_op = img.ops.iter().position(|o| o.kind == 9).unwrap_or(0);
    let apart = rng.range(2, 6);
    for number in 0..n {
        let mut twin = img.classes[number].clone();
        twin.members.retain(|m| img.ops[m.op].kind != 9);
        for member in &mut twin.members {
            for child in &mut member.children {
                if !rng.once_in(apart) {
                    child.0 += n;
                } else if rng.once_in(4) {
                    child.0 = rng.below(2 * n);
                }
                if child.1 > 1 && rng.once_in(4) {
                    child.1 = rng.range(1, 5) as u32;
                }
            }
            if img.ops[member.op].kind == 7 && rng.once_in(5) {
                member.children.push((rng.below(2 * n), 1));
            }
            if [7, 8].contains(&img.ops[member.op].kind) && rng.once_in(2) {
                member.children.reverse();
            }
        }
        if twin.members.is_empty() || rng.once_in(8) {
            twin.members.push(lit(lit_op, 1_000_000 + number as u32));
        }
        img.classes.push(twin);
    }
    img.order();
    for number in n..2 * n {
        if img.settle() {
            break;
        }
        if img.classes[number].size == 0 {
            img.classes[number]
                .members
                .push(lit(lit_op, 2_000_000 + number as u32));
            img.order();
        }
    }
    if !img.settle() {
        return mixed(rng);
    }
    choose_best(rng, &mut img);
    img
}

/// SPairs over SPairs.
fn crossed(rng: &mut Rng) -> Img {
    let leaves = rng.range(2, 5);
    let mut img = Img {
        ops: vec![op(9, None), op(5, None), op(1, None), op(5, None)],
        classes: (0..leaves)
            .map(|n| class(vec![lit(0, n as u32 * 7)]))
            .collect(),
    };
    for _ in 0..rng.range(3, 9) {
        let n = img.classes.len();
        let members = (0..rng.range(1, 3))
            .map(|_| match rng.below(6) {
                0 => over(2, &[rng.below(n)]),
                k => over(if k == 1 { 3 } else { 1 }, &[rng.below(n), rng.below(n)]),
            })
            .collect();
        img.classes.push(class(members));
    }
    img.order();
    img.settle();
    img
}

/// Lists of one length that begin alike, under commutative operations: the order
/// of terms decides.
fn lists(rng: &mut Rng) -> Img {
    let leaves = rng.range(2, 4);
    let mut img = Img {
        ops: vec![
            op(9, None),
            op(6, None),
            op(7, None),
            op(8, None),
            op(5, None),
            op(1, None),
        ],
        classes: (0..leaves)
            .map(|n| class(vec![lit(0, [9, 4_000_000_000, 0, 7][n])]))
            .collect(),
    };
    for _ in 0..rng.range(0, 2) {
        let n = img.classes.len();
        img.classes.push(class(vec![over(5, &[rng.below(n)])]));
    }
    let leaves = img.classes.len();
    let lists = rng.range(3, 6);
    let (kind, length) = (rng.range(1, 2), rng.range(2, 5));
    for _ in 0..lists {
        let mut children: Vec<usize> = (0..length).map(|_| rng.below(leaves)).collect();
        if rng.once_in(2) {
            children.sort_unstable();
        }
        img.classes.push(class(vec![over(kind, &children)]));
    }
    let top = rng.range(2, 4);
    for _ in 0..2 {
        let count = if top == 4 { 2 } else { rng.range(2, lists) };
        let children: Vec<usize> = (0..count).map(|_| leaves + rng.below(lists)).collect();
        img.classes.push(class(vec![over(top, &children)]));
    }
    img.order();
    img.settle();
    img
}

/// A transport of n x n cells, each with an operation of its own, so that sizes and
/// masses of the cells are drawn freely.
fn cells(rng: &mut Rng) -> Img {
    let n = rng.range(2, 5);
    let cells: Vec<(u64, u64)> = (0..n * n)
        .map(|_| {
            let mass = if rng.once_in(2) { 0 } else { 2 };
            (rng.range(3, 6) as u64, mass)
        })
        .collect();
    // Cell (i, j) is what operation 3 + i n + j gives: a difference where the mass
    // is 2, and a shared rest.
    let mut img = Img {
        ops: vec![op(9, None), op(1, None), op(7, None)],
        classes: vec![
            class(vec![lit(0, 1)]),
            class(vec![lit(0, 2)]),
            class(vec![lit(0, 3)]),
        ],
    };
    let mut rest = vec![2];
    for _ in 0..6 {
        img.classes
            .push(class(vec![over(1, &[rest[rest.len() - 1]])]));
        rest.push(img.classes.len() - 1);
    }
    img.ops.extend((0..n * n).map(|_| op(4, None)));
    let member = |i: usize, j: usize, leaf: usize| {
        let (size, mass) = cells[i * n + j];
        let shared = (size - mass - 1) as usize;
        let mut children = Vec::new();
        if mass > 0 {
            children.push(leaf);
        }
        if shared > 0 {
            children.push(rest[shared - 1]);
        }
        over(3 + i * n + j, &children)
    };
    let first = img.classes.len();
    for i in 0..n {
        img.classes
            .push(class((0..n).map(|j| member(i, j, 0)).collect()));
    }
    for j in 0..n {
        img.classes
            .push(class((0..n).map(|i| member(i, j, 1)).collect()));
    }
    let left: Vec<usize> = (first..first + n).collect();
    let right: Vec<usize> = (first + n..first + 2 * n).collect();
    img.classes.push(class(vec![over(2, &left)]));
    img.classes.push(class(vec![over(2, &right)]));
    img.order();
    img.settle();
    img
}

/// Counts at the edge of 32 bits, in members that are not best ones.
fn counts(rng: &mut Rng) -> Img {
    let identity = (!rng.once_in(3)).then_some(0);
    let leaves = rng.range(3, 6);
    let kind = if rng.once_in(5) { 8 } else { 7 };
    let mut img = Img {
        ops: vec![op(9, None), op(7, identity), op(kind, Some(1)), op(1, None)],
        classes: (0..leaves).map(|n| class(vec![lit(0, n as u32)])).collect(),
    };
    for number in 0..rng.range(2, 5) {
        let n = img.classes.len();
        let mut members = vec![lit(0, 100 + number as u32)];
        for _ in 0..rng.range(1, 3) {
            let children = (0..rng.range(1, 3))
                .map(|_| {
                    let count = match rng.below(6) {
                        0 => u32::MAX,
                        1 => u32::MAX - 1,
                        2 => 0x8000_0000,
                        3 => 0x7fff_ffff,
                        _ => rng.range(1, 3) as u32,
                    };
                    (rng.below(n), count)
                })
                .collect();
            members.push(Member {
                op: 1,
                literal: 0,
                children,
            });
        }
        if rng.once_in(2) {
            let children: Vec<usize> = (0..rng.below(4)).map(|_| rng.below(n)).collect();
            members.push(over(2, &children));
        }
        if rng.once_in(3) {
            members.push(over(3, &[rng.below(n)]));
        }
        img.classes.push(class(members));
    }
    img.order();
    img.settle();
    img
}

/// Two deep chains with a difference here and there.
fn chain(rng: &mut Rng) -> Img {
    let depth = *rng.pick(&[8, 12, 20, 40, 90]);
    let mut img = Img {
        ops: vec![
            op(9, None),
            op(1, None),
            op(2, None),
            op(5, None),
            op(6, None),
            op(7, None),
        ],
        classes: vec![
            class(vec![lit(0, 1)]),
            class(vec![lit(0, 2)]),
            class(vec![lit(0, 3)]),
        ],
    };
    let (mut left, mut right) = (0, 1);
    for _ in 0..depth {
        let kind = rng.range(1, 5);
        for side in [&mut left, &mut right] {
            let extra = rng.below(3);
            let children: Vec<usize> = match kind {
                1 => vec![*side],
                _ if rng.once_in(8) => vec![extra, *side],
                _ => vec![*side, 2],
            };
            let mut members = vec![over(kind, &children)];
            if rng.once_in(6) {
                members.push(over(1, &[*side]));
            }
            *side = img.classes.len();
            img.classes.push(class(members));
        }
    }
    img.order();
    img.settle();
    img
}

/// A transport of up to 65 rows or columns.
fn wide(rng: &mut Rng) -> Img {
    let leaves = rng.range(20, 64);
    let identity = (!rng.once_in(3)).then_some(0);
    let mut img = Img {
        ops: vec![op(9, None), op(1, None), op(7, identity), op(8, identity)],
        classes: vec![class(vec![lit(0, 0)])],
    };
    for number in 1..=2 * leaves {
        let under = rng.below(img.classes.len());
        let member = if rng.once_in(3) && number > 4 {
            over(1, &[under])
        } else {
            lit(0, number as u32)
        };
        img.classes.push(class(vec![member]));
    }
    let kind = rng.range(2, 3);
    for side in 0..2 {
        let width = if rng.once_in(2) {
            leaves
        } else {
            rng.range(10, leaves)
        };
        let children = (0..width)
            .map(|k| {
                let number = match rng.below(6) {
                    0 => 1 + rng.below(2 * leaves),
                    _ => 1 + k + side * leaves,
                };
                let count = if kind == 2 && rng.once_in(4) {
                    rng.range(1, 4)
                } else {
                    1
                };
                (number, count as u32)
            })
            .collect();
        img.classes.push(class(vec![Member {
            op: kind,
            literal: 0,
            children,
        }]));
    }
    img.order();
    img.settle();
    img
}

/// About 256 pairs, the quote page's limit: rows and columns of literals or of chains, some with
/// pairs by position; in some images more than the 64 classes that the lent buffers have room for.
fn page(rng: &mut Rng) -> Img {
    match rng.below(4) {
        0 => limits::pairs_over(16, 15, rng.range(250, 257)),
        1 => limits::pairs_over(64, 3, rng.range(250, 257)),
        2 => {
            let (rows, columns) = *rng.pick(&[(17, 15), (16, 16), (51, 5), (64, 4), (23, 11)]);
            limits::crowded(rows, columns)
        }
        _ => {
            let sides = *rng.pick(&[[17, 15], [15, 17], [16, 16], [51, 5], [8, 32], [18, 14]]);
            chains(rng, sides)
        }
    }
}

/// A chain on either side, of so many classes, each of one with each of the other.
fn chains(rng: &mut Rng, sides: [usize; 2]) -> Img {
    let mut img = Img {
        ops: vec![op(9, None), op(1, None), op(2, None), op(7, None)],
        classes: vec![class(vec![lit(0, 1)]), class(vec![lit(0, 2)])],
    };
    let most = sides[0].max(sides[1]);
    let mut sums = Vec::new();
    for (first, length) in sides.into_iter().enumerate() {
        let mut row = vec![first];
        while row.len() < length {
            let under = row[row.len() - 1];
            let member = match rng.below(3) {
                0 => over(2, &[under, *rng.pick(&row)]),
                _ => over(1, &[under]),
            };
            row.push(img.classes.len());
            img.classes.push(class(vec![member]));
        }
        let mut sum = over(3, &row);
        sum.children[0].1 += (most - length) as u32;
        sums.push(class(vec![sum]));
    }
    img.classes.extend(sums);
    img.order();
    if !img.settle() {
        return mixed(rng);
    }
    img
}

/// Many pairs: a row of chains on either side, each with each.
fn grid(rng: &mut Rng) -> Img {
    let n = rng.range(12, 50);
    let mut img = Img {
        ops: vec![op(9, None), op(1, None), op(8, None), op(5, None)],
        classes: vec![class(vec![lit(0, 1)]), class(vec![lit(0, 2)])],
    };
    let mut rows: [Vec<usize>; 2] = [vec![0], vec![1]];
    for row in &mut rows {
        while row.len() < n {
            let under = *rng.pick(row);
            let member = match rng.below(3) {
                0 => over(3, &[under, *rng.pick(row)]),
                _ => over(1, &[*row.last().unwrap_or(&under)]),
            };
            row.push(img.classes.len());
            img.classes.push(class(vec![member]));
        }
    }
    for row in rows {
        img.classes.push(class(vec![over(2, &row)]));
    }
    img.order();
    if !img.settle() {
        return mixed(rng);
    }
    img
}

/// Sizes near 2,147,483,646 and lists that only runs can hold.
fn huge(rng: &mut Rng) -> Img {
    let big = *rng.pick(&[400_000, 999_999, 2_000_000, 1_000_000_000, 2_147_483_640]);
    let mut img = Img {
        ops: vec![op(9, None), op(7, Some(0)), op(5, None)],
        classes: vec![
            class(vec![lit(0, 0)]),
            class(vec![lit(0, 1)]),
            class(vec![lit(0, 2)]),
        ],
    };
    for _ in 0..rng.range(2, 3) {
        let n = img.classes.len().min(3);
        let children = vec![
            (rng.below(n), big - rng.below(4) as u32),
            (rng.below(n), rng.range(1, 3) as u32),
        ];
        img.classes.push(class(vec![Member {
            op: 1,
            literal: 0,
            children,
        }]));
    }
    if !img.settle() {
        return mixed(rng);
    }
    img
}

/// Literals of two operations under commutative ones, so that the order of terms
/// meets heads, operations and values.
fn literals(rng: &mut Rng) -> Img {
    let top = *rng.pick(&[5, 7, 8]);
    let mut img = Img {
        ops: vec![op(9, None), op(9, None), op(top, None), op(1, None)],
        classes: vec![],
    };
    img.ops.rotate_right(rng.below(4));
    let find = |kind: u8| img.ops.iter().position(|o| o.kind == kind).unwrap_or(0);
    let (first, plain) = (find(9), find(1));
    let top = find(top);
    let last = img.ops.iter().rposition(|o| o.kind == 9).unwrap_or(0);
    let mut used = HashSet::new();
    while img.classes.len() < 4 {
        let leaf = (*rng.pick(&[first, last]), *rng.pick(&[0, 1, 7, u32::MAX]));
        if used.insert(leaf) {
            img.classes.push(class(vec![lit(leaf.0, leaf.1)]));
        }
    }
    for _ in 0..rng.below(3) {
        let n = img.classes.len();
        img.classes.push(class(vec![over(plain, &[rng.below(n)])]));
    }
    let n = img.classes.len();
    let width = if img.ops[top].kind == 5 {
        2
    } else {
        rng.range(2, 3)
    };
    for _ in 0..2 {
        let children: Vec<usize> = (0..width).map(|_| rng.below(n)).collect();
        img.classes.push(class(vec![over(top, &children)]));
    }
    img.order();
    img.settle();
    img
}

/// Small transports with an identity, in which a unit is placed and goes back.
fn reverse(rng: &mut Rng) -> Img {
    let style = Style {
        kinds: vec![7, 7, 7, 8],
        ops: 2,
        classes: rng.range(4, 8),
        members: rng.range(1, 3),
        back: *rng.pick(&[4, 40]),
        width: 3,
        count: *rng.pick(&[1, 2, 3]),
        identities: true,
        few: true,
    };
    draw(rng, &style)
}

fn image(rng: &mut Rng, family: &str) -> Img {
    match family {
        "crowded" if rng.once_in(2) => limits::crowded(64, rng.range(62, 64)),
        "crowded" => limits::pairs(rng.range(4_090, 4_097)),
        "terms" => limits::many_terms(rng.range(40, 62)),
        "long" => {
            let values: Vec<u32> = (0..128).map(|n| 1_000 + n * 7).collect();
            let width = rng.range(50, 64);
            limits::long_lines(width, rng.below(40), &values[..2 * width])
        }
        "twins" => twins(rng),
        "ties" => ties(rng),
        "cycle" => cycle(rng),
        "crossed" => crossed(rng),
        "identity" => identity(rng),
        "lists" => lists(rng),
        "cells" => cells(rng),
        "counts" => counts(rng),
        "chain" => chain(rng),
        "wide" => wide(rng),
        "grid" => grid(rng),
        "page" => page(rng),
        "huge" => huge(rng),
        "literals" => literals(rng),
        "reverse" => reverse(rng),
        _ => mixed(rng),
    }
}

/// Budgets that end a run of n pairs and a number of rounds in every phase.
fn budget(rng: &mut Rng, pairs: u64, rounds: u64) -> u32 {
    let whole = 2 * pairs + (pairs + 1) * (rounds + 1);
    let round = |rng: &mut Rng| 2 * pairs + (pairs + 1) * rng.below(rounds as usize + 1) as u64;
    let checks = match rng.below(12) {
        0 => 0,
        1 => rng.below(pairs as usize + 1) as u64,
        2 => pairs + rng.below(pairs as usize + 1) as u64,
        3 => (round(rng) + rng.below(3) as u64).saturating_sub(1),
        4 => round(rng) + rng.below(pairs as usize + 1) as u64,
        5 => whole - 1,
        6 => whole,
        7 => rng.below(whole as usize + 2) as u64,
        8 => u64::from(u32::MAX),
        _ => whole + rng.below(20) as u64,
    };
    checks.min(u64::from(u32::MAX)) as u32
}

/// The number of pairs and of changing rounds of a full run, if it is accepted.
fn measure(img: &Img, left: usize, right: usize) -> Option<(u64, u64)> {
    let query = Query {
        left,
        right,
        budget: u32::MAX,
    };
    let (_, outcome) = model::outcome(&img.frame(&query), Slip::None).ok()?;
    Some((outcome.pairs as u64, outcome.rounds as u64))
}

/// Some queries to one image of a family.
pub fn frames(rng: &mut Rng, family: &str) -> Vec<Vec<u8>> {
    if family == "doubled" {
        return vec![doubled::frame(rng)];
    }
    if family == "skipped" {
        return skipped::frames(rng);
    }
    let img = image(rng, if family == "damaged" { "mixed" } else { family });
    let n = img.classes.len();
    let last = [
        "chain", "wide", "grid", "lists", "cells", "crowded", "terms", "long", "literals", "page",
    ]
    .contains(&family);
    let drawn = |rng: &mut Rng| {
        let (left, right) = if last && !rng.once_in(6) {
            (n - 2, n - 1)
        } else if family == "twins" && !rng.once_in(4) {
            let left = rng.below(n / 2);
            (left, left + n / 2)
        } else {
            (rng.below(n), rng.below(n))
        };
        let (left, right) = if rng.once_in(4) {
            (right, left)
        } else {
            (left, right)
        };
        let (pairs, rounds) = measure(&img, left, right).unwrap_or((4_096, 4));
        (left, right, pairs, rounds)
    };
    // Mostly a pair that some round improves, where a few tries find one.
    let tries = if last || rng.once_in(6) { 1 } else { 12 };
    let mut found = drawn(rng);
    for _ in 1..tries {
        if found.3 > 0 {
            break;
        }
        found = drawn(rng);
    }
    let (left, right, pairs, rounds) = found;
    let count = match family {
        "wide" | "grid" | "huge" | "crowded" | "terms" | "long" => 1,
        _ => rng.range(1, 3),
    };
    (0..count)
        .map(|_| {
            let budget = budget(rng, pairs, rounds);
            let mut frame = img.frame(&Query {
                left,
                right,
                budget,
            });
            if family == "damaged" {
                damage(rng, &mut frame);
            }
            frame
        })
        .collect()
}

/// A byte, a number or the length changed.
fn damage(rng: &mut Rng, frame: &mut Vec<u8>) {
    for _ in 0..rng.range(1, 2) {
        let at = match rng.below(4) {
            0 => rng.below(21.min(frame.len())),
            _ => rng.below(frame.len()),
        };
        match rng.below(6) {
            0 => frame[at] = frame[at].wrapping_add(1),
            1 => frame[at] = frame[at].wrapping_sub(1),
            2 => frame[at] = rng.next() as u8,
            3 => frame[at] = 255,
            4 => frame[at] = 0,
            _ if rng.once_in(4) => frame.truncate(at.max(1)),
            _ => frame[at] ^= 1 << rng.below(8),
        }
    }
}

/// A family by its weight, among the first ones or among all.
pub fn family(rng: &mut Rng, among: usize) -> &'static str {
    let among = &FAMILIES[..among];
    let all: usize = among.iter().map(|f| f.1).sum();
    let mut at = rng.below(all);
    for &(name, weight) in among {
        if at < weight {
            return name;
        }
        at -= weight;
    }
    "mixed"
}
