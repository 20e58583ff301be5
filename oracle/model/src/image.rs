// SPDX-License-Identifier: Apache-2.0
//! "The image" and refusals 2 to 11 of "Table of refusals". The first broken rule
//! in the order of the table decides, over the whole image.

use std::collections::{BTreeMap, BTreeSet};

use crate::slip::Slip;

/// A number of the table of refusals.
#[derive(Clone, Copy, Debug, PartialEq, Eq, PartialOrd, Ord)]
pub struct Refusal(pub u8);

pub const PLAIN0: u8 = 0;
pub const SPAIR: u8 = 5;
pub const MSET: u8 = 7;
pub const SET: u8 = 8;
pub const LIT: u8 = 9;

/// "Plain0 and Lit have 0 children, Plain1 has 1, Plain2 and SPair have 2, Plain3
/// has 3 .. with the other kinds free."
const ARITY: [Option<usize>; 10] = [
    Some(0),
    Some(1),
    Some(2),
    Some(3),
    None,
    Some(2),
    None,
    None,
    None,
    Some(0),
];

const NONE: usize = 65_535;

#[derive(Clone, Debug)]
pub struct Operation {
    pub kind: u8,
    pub flag: u8,
    pub identity: usize,
}

#[derive(Clone, Debug)]
pub struct Class {
    pub first: usize,
    pub count: usize,
    pub best: usize,
    pub size: u32,
}

#[derive(Clone, Debug)]
pub struct Member {
    pub operation: usize,
    pub literal: u32,
    pub first: usize,
    pub count: usize,
}

#[derive(Clone, Debug)]
pub struct Child {
    pub class: usize,
    pub count: u32,
}

#[derive(Clone, Debug)]
pub struct Image {
    pub operations: Vec<Operation>,
    pub classes: Vec<Class>,
    pub members: Vec<Member>,
    pub children: Vec<Child>,
}

impl Image {
    pub fn members_of(&self, class: usize) -> &[Member] {
        let Class { first, count, .. } = self.classes[class];
        &self.members[first..first + count]
    }

    pub fn children_of(&self, member: &Member) -> &[Child] {
        &self.children[member.first..member.first + member.count]
    }

    pub fn kind_of(&self, member: &Member) -> u8 {
        self.operations[member.operation].kind
    }

    pub fn commutative(&self, operation: usize) -> bool {
        self.operations[operation].flag == 1
    }

    /// The identity class of an operation, if it has one.
    pub fn identity(&self, operation: usize) -> Option<usize> {
        Some(self.operations[operation].identity).filter(|&class| class != NONE)
    }
}

fn number(bytes: &[u8]) -> u32 {
    bytes.iter().fold(0, |n, &byte| n * 256 + u32::from(byte))
}

fn short(bytes: &[u8], at: usize) -> usize {
    number(&bytes[at..at + 2]) as usize
}

fn long(bytes: &[u8], at: usize) -> u32 {
    number(&bytes[at..at + 4])
}

/// The tables, or the first refusal among 2 to 9.
pub fn tables(bytes: &[u8], slip: Slip) -> Result<Image, Refusal> {
    if bytes.len() < 13 || long(bytes, 0) as usize != bytes.len() - 4 {
        return Err(Refusal(2));
    }
    if bytes[4] != 1 {
        return Err(Refusal(3));
    }
    let counts = [5, 7, 9, 11].map(|at| short(bytes, at));
    let [operations, classes, members, children] = counts;
    let ranges = [1..=64, 1..=256, 1..=1_024, 0..=4_096];
    if ranges
        .iter()
        .zip(counts)
        .any(|(range, n)| !range.contains(&n))
    {
        return Err(Refusal(4));
    }
    let classes_at = 13 + 4 * operations;
    let members_at = classes_at + 10 * classes;
    let children_at = members_at + 10 * members;
    if bytes.len() != children_at + 6 * children {
        return Err(Refusal(5));
    }
    let image = Image {
        operations: (0..operations)
            .map(|k| 13 + 4 * k)
            .map(|at| Operation {
                kind: bytes[at],
                flag: bytes[at + 1],
                identity: short(bytes, at + 2),
            })
            .collect(),
        classes: (0..classes)
            .map(|k| classes_at + 10 * k)
            .map(|at| Class {
                first: short(bytes, at),
                count: short(bytes, at + 2),
                best: short(bytes, at + 4),
                size: long(bytes, at + 6),
            })
            .collect(),
        members: (0..members)
            .map(|k| members_at + 10 * k)
            .map(|at| Member {
                operation: short(bytes, at),
                literal: long(bytes, at + 2),
                first: short(bytes, at + 6),
                count: short(bytes, at + 8),
            })
            .collect(),
        children: (0..children)
            .map(|k| children_at + 6 * k)
            .map(|at| Child {
                class: short(bytes, at),
                count: long(bytes, at + 2),
            })
            .collect(),
    };
    let rules: [(u8, fn(&Image, Slip) -> bool); 4] = [
        (6, operations_hold),
        (7, spans_hold),
        (8, children_hold),
        (9, best_members_hold),
    ];
    for (refusal, holds) in rules {
        if !holds(&image, slip) {
            return Err(Refusal(refusal));
        }
    }
    Ok(image)
}

/// The image, or the first refusal among 2 to 10.
pub fn accept(bytes: &[u8], slip: Slip) -> Result<Image, Refusal> {
    let image = tables(bytes, slip)?;
    if literals_hold(&image, slip) {
        Ok(image)
    } else {
        Err(Refusal(10))
    }
}

fn operations_hold(image: &Image, slip: Slip) -> bool {
    image.operations.iter().all(|operation| {
        let &Operation {
            kind,
            flag,
            identity,
        } = operation;
        let commutative = [SPAIR, MSET, SET].contains(&kind);
        let may_have =
            kind == MSET || kind == SET || (slip == Slip::IdentityOfSPair && kind == SPAIR);
        kind <= 9
            && flag == u8::from(commutative)
            && (identity == NONE || (may_have && identity < image.classes.len()))
    })
}

/// Spans "follow one another without gaps and use up the tables".
fn follow(spans: impl Iterator<Item = (usize, usize)>, total: usize) -> bool {
    let mut next = 0;
    for (first, count) in spans {
        if first != next {
            return false;
        }
        next += count;
    }
    next == total
}

fn spans_hold(image: &Image, slip: Slip) -> bool {
    let Image {
        operations,
        classes,
        members,
        children,
    } = image;
    let most = if slip == Slip::Children65 { 65 } else { 64 };
    follow(classes.iter().map(|c| (c.first, c.count)), members.len())
        && follow(members.iter().map(|m| (m.first, m.count)), children.len())
        && classes.iter().all(|class| class.count >= 1)
        && members.iter().all(|member| {
            member.count <= most
                && member.operation < operations.len()
                && (member.literal == 0 || image.kind_of(member) == LIT)
        })
        && (0..classes.len()).all(|class| {
            slip == Slip::AnyMemberOrder
                || image
                    .members_of(class)
                    .is_sorted_by_key(|member| member.operation)
        })
}

fn children_hold(image: &Image, slip: Slip) -> bool {
    image.members.iter().all(|member| {
        let kind = image.kind_of(member);
        let any = slip == Slip::Plain1AnyArity && kind == 1;
        ARITY[usize::from(kind)].is_none_or(|arity| arity == member.count || any)
            && image.children_of(member).iter().all(|child| {
                child.class < image.classes.len()
                    && child.count >= 1
                    && (child.count == 1
                        || kind == MSET
                        || (slip == Slip::SetCounts && kind == SET))
            })
    })
}

fn best_members_hold(image: &Image, slip: Slip) -> bool {
    image.classes.iter().all(|class| {
        (class.first..class.first + class.count).contains(&class.best) && {
            let below: u128 = image
                .children_of(&image.members[class.best])
                .iter()
                .map(|child| u128::from(child.count) * u128::from(image.classes[child.class].size))
                .sum();
            let size = u128::from(class.size);
            let equal = if slip == Slip::WrappedBestSize {
                (1 + below) % (1 << 32) == size
            } else {
                1 + below == size
            };
            equal && (1..=2_147_483_646).contains(&size)
        }
    })
}

/// "No literal (operation and value) stands in two classes."
fn literals_hold(image: &Image, slip: Slip) -> bool {
    let mut found: Vec<(usize, u32, usize)> = Vec::new();
    for class in 0..image.classes.len() {
        for member in image.members_of(class) {
            if image.kind_of(member) == LIT {
                let by_value = slip == Slip::LiteralByValue;
                let operation = if by_value { 0 } else { member.operation };
                found.push((operation, member.literal, class));
            }
        }
    }
    found.sort_unstable();
    found.windows(2).all(|two| {
        let same = (two[0].0, two[0].1) == (two[1].0, two[1].1);
        !same || (two[0].2 == two[1].2 && slip != Slip::LiteralTwiceInClass)
    })
}

/// With refusal 10: "the lowest-numbered class holding a literal that also stands in
/// another class".
pub fn lowest_doubled(image: &Image) -> Option<usize> {
    let mut holders: BTreeMap<(usize, u32), BTreeSet<usize>> = BTreeMap::new();
    for class in 0..image.classes.len() {
        for member in image.members_of(class) {
            if image.kind_of(member) == LIT {
                let literal = (member.operation, member.literal);
                holders.entry(literal).or_default().insert(class);
            }
        }
    }
    let doubled = holders.into_values().filter(|classes| classes.len() > 1);
    doubled.flatten().min()
}

/// The line that program `verdict` prints to an image: `accepted`, `refused` and its
/// number, or `refused 10 class` and the class. A slip that refuses where no literal
/// stands in two classes has no class to give.
pub fn verdict(bytes: &[u8], slip: Slip) -> String {
    let image = match tables(bytes, slip) {
        Ok(image) => image,
        Err(Refusal(number)) => return format!("refused {number}"),
    };
    if literals_hold(&image, slip) {
        return "accepted".to_string();
    }
    match lowest_doubled(&image) {
        Some(class) => format!("refused 10 class {class}"),
        None => "refused 10".to_string(),
    }
}
