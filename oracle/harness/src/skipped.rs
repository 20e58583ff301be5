// SPDX-License-Identifier: Apache-2.0
//! Queries whose monomial pairs are passed over (02, Paper 7): drawn ones, those that cost the
//! most, and how many there are by force.

use std::collections::HashSet;

use model::action::{Pair, structural};
use model::image::{Image, MSET, SET};
use model::slip::Slip;

use crate::r#gen::{class, lit, over};
use crate::img::{Class, Img, Member, Operation, Query};
use crate::judge::as_the_rust;
use crate::rng::Rng;

/// "A pair with a count above 4,294,967,295 on either side is skipped."
const COUNT: u32 = u32::MAX;

fn op(kind: u8, identity: Option<usize>) -> Operation {
    Operation { kind, identity }
}

fn sum(op: usize, children: Vec<(usize, u32)>) -> Member {
    Member {
        op,
        literal: 0,
        children,
    }
}

// ---- drawn queries

/// A count: at the limit, a half of it, or a few.
fn count(rng: &mut Rng) -> u32 {
    match rng.below(8) {
        0 | 1 => COUNT,
        2 => COUNT - rng.below(4) as u32,
        3 => 0x8000_0000 - rng.below(2) as u32,
        _ => rng.range(1, 3) as u32,
    }
}

/// A member that is new, or one that is there with other words: the same one, in another order,
/// a count in two parts, some identities more or less.
fn member(
    rng: &mut Rng,
    op: usize,
    identity: Option<usize>,
    from: &[usize],
    of: &[Member],
) -> Member {
    let mine: Vec<&Member> = of.iter().filter(|one| one.op == op).collect();
    if mine.is_empty() || rng.once_in(3) {
        let mut children = Vec::new();
        for _ in 0..rng.range(0, 3) {
            let child = *rng.pick(from);
            children.push((child, count(rng)));
            if rng.once_in(2) {
                children.push((child, count(rng)));
            }
        }
        if let Some(identity) = identity
            && rng.once_in(3)
        {
            children.push((identity, count(rng)));
        }
        return sum(op, children);
    }
    let mut next = (*rng.pick(&mine)).clone();
    match (rng.below(6), identity) {
        (0, _) => next.children.reverse(),
        (1, _) => {
            let large: Vec<usize> = (0..next.children.len())
                .filter(|&at| next.children[at].1 > 1)
                .collect();
            if let Some(&at) = large.first() {
                let (child, all) = next.children[at];
                let part = rng.range(1, all as usize - 1) as u32;
                next.children[at].1 = part;
                next.children.push((child, all - part));
            }
        }
        (2..=4, Some(identity)) => match next.children.iter().position(|c| c.0 == identity) {
            Some(at) if rng.once_in(2) => {
                next.children.remove(at);
            }
            _ => next.children.push((identity, count(rng))),
        },
        (2, _) => {
            // One unit from one child to another: the total stays.
            if let [.., from, to] = &mut next.children[..]
                && from.1 > 1
                && to.1 < COUNT
            {
                from.1 -= 1;
                to.1 += 1;
            }
        }
        _ => {}
    }
    next.children.truncate(64);
    next
}

/// Classes of a literal and of sums with counts near 4,294,967,295, under one or two operations
/// with or without an identity; above them classes that join several pairs of them.
pub fn image(rng: &mut Rng) -> Img {
    let leaves = rng.range(1, 3);
    let sums = rng.range(2, 4);
    let identity = |rng: &mut Rng| match rng.below(5) {
        0 | 1 => None,
        2 => Some(rng.below(leaves + sums)),
        _ => Some(0),
    };
    let identities = [identity(rng), identity(rng)];
    let same = rng.once_in(3);
    let identities = [identities[0], identities[usize::from(!same)]];
    let set = if rng.once_in(4) { identities[1] } else { None };
    let mut img = Img {
        ops: vec![
            op(9, None),
            op(7, identities[0]),
            op(7, identities[1]),
            op(8, set),
            op(2, None),
            op(1, None),
        ],
        classes: (0..leaves).map(|n| class(vec![lit(0, n as u32)])).collect(),
    };
    let from: Vec<usize> = match rng.below(3) {
        0 => (0..leaves).collect(),
        1 => vec![0, leaves, leaves + 1],
        _ => (0..leaves + sums).collect(),
    };
    let most = *rng.pick(&[2, 3, 4, 4, 6, 9]);
    let two = rng.once_in(2);
    // Both operations have the same sums.
    let alike = rng.once_in(4);
    for number in 0..sums {
        let mut members = vec![lit(0, 100 + number as u32)];
        for _ in 0..rng.range(usize::from(number < 2), most) {
            let chosen = if two { rng.range(1, 2) } else { 1 };
            // Now and then a member of another class or of the other operation, with other words.
            let others: Vec<Member> = img.classes[leaves..]
                .iter()
                .flat_map(|class| &class.members)
                .filter(|one| [1, 2].contains(&one.op))
                .map(|one| sum(chosen, one.children.clone()))
                .collect();
            let of: &[Member] = if rng.once_in(4) { &others } else { &members };
            let next = member(rng, chosen, identities[chosen - 1], &from, of);
            members.push(next);
        }
        if alike {
            let others: Vec<Member> = members[1..]
                .iter()
                .map(|one| sum(3 - one.op, one.children.clone()))
                .collect();
            members.extend(others);
        }
        if rng.once_in(4) {
            let children: Vec<usize> = (0..rng.below(3)).map(|_| *rng.pick(&from)).collect();
            members.push(over(3, &children));
        }
        if rng.once_in(3) {
            members.push(over(5, &[rng.below(leaves + sums)]));
        }
        img.classes.push(class(members));
    }
    for _ in 0..2 {
        let two = [0, 1].map(|_| leaves + rng.below(sums));
        let mut members = vec![over(4, &two)];
        if rng.once_in(2) {
            members.push(over(1, &[two[0], two[1], *rng.pick(&from)]));
        }
        img.classes.push(class(members));
    }
    img.order();
    assert!(img.settle(), "every class has a small member");
    img
}

/// Queries of one image: many of them cut short in building.
pub fn frames(rng: &mut Rng) -> Vec<Vec<u8>> {
    let img = image(rng);
    let n = img.classes.len();
    let (left, right) = match rng.below(4) {
        0 => (rng.below(n), rng.below(n)),
        1 => (n - 3, n - 4),
        _ => (n - 2, n - 1),
    };
    (0..rng.range(1, 3))
        .map(|_| {
            let budget = match rng.below(4) {
                0 => rng.below(8) as u32,
                1 => rng.below(40) as u32,
                2 => rng.below(400) as u32,
                _ => COUNT,
            };
            img.frame(&Query {
                left,
                right,
                budget,
            })
        })
        .collect()
}

// ---- what costs the most

/// The names of the costly queries.
pub const COSTLY: [&str; 6] = [
    "different",
    "identity",
    "padded",
    "falling",
    "turned",
    "equal",
];

/// A query with as many skipped monomial pairs as 1,024 members give; none for another name.
///
/// * different: 511 sums a side, equal totals, no identity: 511 × 511 pairs, all different;
/// * identity: 511 sums, the empty sum and the class itself a side, padded: nearly all different;
/// * padded, falling: 510 sums a side that differ by their identities alone, rising or falling:
///   most are the same after padding;
/// * turned: two pairs of classes, (left, right) and (right, left), of 510 different sums each;
/// * equal: 511 equal sums a side: one pair, 511 × 511 times.
pub fn costly(name: &str) -> Option<Vec<u8>> {
    // Class 0 and class 1 are the two sides; their sums are over themselves and each other.
    let sides = |members: &dyn Fn(usize) -> Vec<Member>, best: Member| -> Vec<Class> {
        (0..2)
            .map(|side| {
                let mut own = vec![best.clone()];
                if best.op == 0 {
                    own[0].literal = side as u32;
                }
                own.extend(members(side));
                class(own)
            })
            .collect()
    };
    // 4,294,967,297 + n of one class and 600 - n of the other: totals are equal.
    let even = |n: usize| {
        let n = n as u32;
        sum(1, vec![(0, COUNT), (0, 1), (0, 1 + n), (1, 600 - n)])
    };
    let plain = [op(9, None), op(7, None), op(2, None)];
    let (identity, literal) = (op(7, Some(1)), lit(0, 0));
    let (ops, classes, left, right) = match name {
        "different" => {
            let classes = sides(&|_| (0..511).map(even).collect(), literal);
            (plain.to_vec(), classes, 0, 1)
        }
        "equal" => {
            let classes = sides(&|_| (0..511).map(|_| even(0)).collect(), literal);
            (plain.to_vec(), classes, 0, 1)
        }
        "identity" => {
            let classes = sides(&|_| (0..511).map(even).collect(), sum(1, vec![]));
            (vec![op(9, None), identity], classes, 0, 1)
        }
        "padded" | "falling" => {
            let more = |n: usize| {
                let n = if name == "padded" { n } else { 509 - n };
                sum(1, vec![(2, COUNT), (2, 1), (0, 1), (1, 1 + n as u32)])
            };
            let mut classes = sides(&|_| (0..510).map(more).collect(), literal);
            classes.push(class(vec![lit(0, 2)]));
            (vec![op(9, None), identity], classes, 0, 1)
        }
        "turned" => {
            let mut classes = sides(&|_| (0..510).map(even).collect(), literal);
            classes.push(class(vec![over(2, &[0, 1])]));
            classes.push(class(vec![over(2, &[1, 0])]));
            (plain.to_vec(), classes, 2, 3)
        }
        _ => return None,
    };
    let mut img = Img { ops, classes };
    img.order();
    assert!(img.settle(), "every class has a small member");
    Some(img.frame(&Query {
        left,
        right,
        budget: COUNT,
    }))
}

// ---- by force

type List = Vec<(usize, u64)>;

/// The monomials of a class under an operation: sorted, then equal neighbours added.
fn lists(image: &Image, class: usize, operation: usize) -> Vec<List> {
    let mut found: Vec<List> = Vec::new();
    for member in image.members_of(class) {
        if member.operation == operation {
            let children = image.children_of(member).iter();
            let mut list: List = children.map(|c| (c.class, u64::from(c.count))).collect();
            list.sort_unstable();
            found.push(added(list));
        }
    }
    if image.identity(operation).is_some() {
        found.push(vec![(class, 1)]);
    }
    found
}

fn added(list: List) -> List {
    let mut sums: List = Vec::new();
    for (class, count) in list {
        match sums.last_mut() {
            Some(last) if last.0 == class => last.1 += count,
            _ => sums.push((class, count)),
        }
    }
    sums
}

fn padded(list: &List, identity: usize, units: u64) -> List {
    if units == 0 {
        return list.clone();
    }
    let mut more = list.clone();
    more.push((identity, units));
    more.sort_unstable();
    added(more)
}

/// The padded pairs of two classes under an operation.
fn padded_pairs(image: &Image, (left, right): Pair, operation: usize) -> Vec<(List, List)> {
    let mut found = Vec::new();
    for l in lists(image, left, operation) {
        for r in lists(image, right, operation) {
            let total = |list: &List| list.iter().map(|term| term.1).sum::<u64>();
            let (a, b) = (total(&l), total(&r));
            if l == [(left, 1)] && r == [(right, 1)] {
                continue;
            }
            match image.identity(operation) {
                None if a != b => {}
                None => found.push((l.clone(), r)),
                Some(e) => found.push((
                    padded(&l, e, b.saturating_sub(a)),
                    padded(&r, e, a.saturating_sub(b)),
                )),
            }
        }
    }
    found
}

fn wide((left, right): &(List, List)) -> bool {
    let all = left.iter().chain(right);
    all.map(|term| term.1).max() > Some(u64::from(COUNT))
}

/// The model's answer with the number by force.
pub fn forced(frame: &[u8]) -> Vec<u8> {
    let answer = model::answer(frame, Slip::None).into_bytes();
    let Some(number) = by_force(frame) else {
        return answer;
    };
    let without = as_the_rust(&answer).expect("the model writes both fields");
    let end = without.listing.iter().position(|&byte| byte == b'\n');
    let (first, rest) = without.listing.split_at(end.expect("a first line"));
    let checks = without.checks.expect("a listing has checks");
    let fields = format!(" skipped {number} checks {checks}");
    [first, fields.as_bytes(), rest].concat()
}

/// The number of a frame's listing by force: every pair is compared with all before it, and the
/// pairs of classes are those that a walk of its own enters. None where there is no listing.
pub fn by_force(frame: &[u8]) -> Option<usize> {
    let (image, left, right, budget) = model::query(frame, Slip::None).ok()?;
    model::outcome(frame, Slip::None).ok()?;
    let mut walk = vec![(left, right)];
    let mut entered: HashSet<Pair> = HashSet::from([(left, right)]);
    let (mut at, mut skipped) = (0, 0);
    while at < walk.len() && at < budget as usize {
        let pair = walk[at];
        at += 1;
        if pair.0 == pair.1 {
            continue;
        }
        let mut joined: Vec<Pair> = structural(&image, pair, Slip::None)
            .into_iter()
            .flat_map(|(_, _, joined)| joined)
            .collect();
        for operation in 0..image.operations.len() {
            let acts = [MSET, SET].contains(&image.operations[operation].kind)
                && [pair.0, pair.1].iter().any(|&class| {
                    let mut members = image.members_of(class).iter();
                    members.any(|member| member.operation == operation)
                });
            if !acts {
                continue;
            }
            let (over, kept): (Vec<_>, Vec<_>) = padded_pairs(&image, pair, operation)
                .into_iter()
                .partition(wide);
            let first = |&n: &usize| !over[..n].contains(&over[n]);
            skipped += (0..over.len()).filter(first).count();
            for (rows, columns) in kept {
                for row in &rows {
                    joined.extend(columns.iter().map(|column| (row.0, column.0)));
                }
            }
        }
        for next in joined {
            if entered.insert(next) {
                walk.push(next);
            }
        }
    }
    Some(skipped)
}
