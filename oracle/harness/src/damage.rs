// SPDX-License-Identifier: Apache-2.0
//! Damaged images: one for each way to break a rule, and some that break two; images
//! about the class of refusal 10.

use crate::r#gen;
use crate::img::{Class, Img, Member, Operation, Query};

fn put(bytes: &mut [u8], at: usize, number: u64, width: usize) {
    bytes[at..at + width].copy_from_slice(&number.to_be_bytes()[8 - width..]);
}

/// Where the tables of an image stand.
pub struct At {
    pub ops: usize,
    pub classes: usize,
    pub members: usize,
    pub children: usize,
    pub query: usize,
}

impl At {
    pub fn of(img: &Img) -> At {
        let members: usize = img.classes.iter().map(|c| c.members.len()).sum();
        let children: usize = img
            .classes
            .iter()
            .flat_map(|c| &c.members)
            .map(|m| m.children.len())
            .sum();
        let classes_at = 13 + 4 * img.ops.len();
        let members_at = classes_at + 10 * img.classes.len();
        let children_at = members_at + 10 * members;
        At {
            ops: 13,
            classes: classes_at,
            members: members_at,
            children: children_at,
            query: children_at + 6 * children,
        }
    }
    pub fn op(&self, n: usize) -> usize {
        self.ops + 4 * n
    }
    pub fn class(&self, n: usize) -> usize {
        self.classes + 10 * n
    }
    pub fn member(&self, n: usize) -> usize {
        self.members + 10 * n
    }
    pub fn child(&self, n: usize) -> usize {
        self.children + 6 * n
    }
}

/// Operations 0 Lit, 1 Plain2, 2 MSet with identity 0, 3 SPair; five classes, the
/// members 0 to 6, the children 0 to 8.
fn base() -> Img {
    let op = |kind, identity| Operation { kind, identity };
    let lit = |literal| Member {
        op: 0,
        literal,
        children: vec![],
    };
    let over = |op, children: &[(usize, u32)]| Member {
        op,
        literal: 0,
        children: children.to_vec(),
    };
    let class = |members| Class {
        members,
        ..Class::default()
    };
    let mut img = Img {
        ops: vec![op(9, None), op(2, None), op(7, Some(0)), op(5, None)],
        classes: vec![
            class(vec![lit(0)]),
            class(vec![lit(7), lit(8)]),
            class(vec![over(1, &[(0, 1), (1, 1)])]),
            class(vec![
                over(1, &[(0, 1), (0, 1)]),
                over(2, &[(1, 3), (0, 1), (2, 1)]),
            ]),
            class(vec![over(3, &[(0, 1), (1, 1)])]),
        ],
    };
    assert!(img.settle());
    img
}

type Patch = (usize, u64, usize);

/// Every small damaged frame with what is wrong with it.
pub fn small() -> Vec<(String, Vec<u8>)> {
    let img = base();
    let at = At::of(&img);
    let query = Query {
        left: 2,
        right: 3,
        budget: 50,
    };
    let good = img.frame(&query);
    let length = (at.query - 4) as u64;
    let mut found: Vec<(String, Vec<u8>)> = Vec::new();
    let mut add = |what: &str, patches: &[Patch]| {
        let mut frame = good.clone();
        for &(at, number, width) in patches {
            put(&mut frame, at, number, width);
        }
        found.push((what.to_string(), frame));
    };
    let (version, counts) = (4, [5, 7, 9, 11]);
    add("sound: the image that the next ones damage", &[]);
    // 2
    add("2: length field one too large", &[(0, length + 1, 4)]);
    add("2: length field one too small", &[(0, length - 1, 4)]);
    add("2: length field 4,294,967,295", &[(0, 0xffff_ffff, 4)]);
    // 3
    add("3: version 0", &[(version, 0, 1)]);
    add("3: version 2", &[(version, 2, 1)]);
    add("3: version 255", &[(version, 255, 1)]);
    // 4
    for (n, (count, past)) in counts.iter().zip([65, 257, 1_025, 4_097]).enumerate() {
        let table = ["operations", "classes", "members", "children"][n];
        if n < 3 {
            add(&format!("4: no {table}"), &[(*count, 0, 2)]);
        }
        add(&format!("4: {past} {table}"), &[(*count, past, 2)]);
        add(&format!("4: 65,535 {table}"), &[(*count, 65_535, 2)]);
    }
    // 5
    add("5: one operation more", &[(5, 5, 2)]);
    add("5: one class less", &[(7, 4, 2)]);
    add("5: one member more", &[(9, 8, 2)]);
    add("5: no children", &[(11, 0, 2)]);
    // 6
    add("6: kind 10", &[(at.op(0), 10, 1)]);
    add("6: kind 255", &[(at.op(3), 255, 1)]);
    add("6: Lit with flag 1", &[(at.op(0) + 1, 1, 1)]);
    add("6: MSet with flag 0", &[(at.op(2) + 1, 0, 1)]);
    add("6: SPair with flag 2", &[(at.op(3) + 1, 2, 1)]);
    add("6: identity for Plain2", &[(at.op(1) + 2, 0, 2)]);
    add("6: identity for SPair", &[(at.op(3) + 2, 1, 2)]);
    add("6: identity is class 5 of 5", &[(at.op(2) + 2, 5, 2)]);
    add("6: identity 65,534", &[(at.op(2) + 2, 65_534, 2)]);
    // 7
    add("7: first member of class 0 is 1", &[(at.class(0), 1, 2)]);
    add("7: gap before class 2", &[(at.class(2), 4, 2)]);
    add("7: overlap of classes", &[(at.class(2), 2, 2)]);
    add("7: class 0 with no member", &[(at.class(0) + 2, 0, 2)]);
    add(
        "7: class 0 with no member, spans in step",
        &[
            (at.class(0) + 2, 0, 2),
            (at.class(1), 0, 2),
            (at.class(1) + 2, 3, 2),
        ],
    );
    add(
        "7: last class does not use up the members",
        &[(at.class(4) + 2, 2, 2)],
    );
    add("7: member count 65,535", &[(at.class(1) + 2, 65_535, 2)]);
    add("7: operation number 4 of 4", &[(at.member(0), 4, 2)]);
    add("7: operation number 65,535", &[(at.member(6), 65_535, 2)]);
    add(
        "7: members 4 and 5 of class 3 in falling operation order",
        &[(at.member(4), 2, 2), (at.member(5), 1, 2)],
    );
    add(
        "7: literal value of a Plain2 member",
        &[(at.member(3) + 2, 1, 4)],
    );
    add(
        "7: gap before the children of member 4",
        &[(at.member(4) + 6, 3, 2)],
    );
    add(
        "7: first child of a literal is not in step",
        &[(at.member(0) + 6, 1, 2)],
    );
    add(
        "7: last member does not use up the children",
        &[(at.member(6) + 8, 1, 2)],
    );
    add("7: child count 65", &[(at.member(5) + 8, 65, 2)]);
    // 8
    add("8: child class 5 of 5", &[(at.child(0), 5, 2)]);
    add("8: child class 65,535", &[(at.child(8), 65_535, 2)]);
    add("8: child count 0", &[(at.child(4) + 2, 0, 4)]);
    add("8: count 2 for Plain2", &[(at.child(0) + 2, 2, 4)]);
    add("8: count 2 for SPair", &[(at.child(8) + 2, 2, 4)]);
    add(
        "8: count 4,294,967,295 for SPair",
        &[(at.child(8) + 2, 0xffff_ffff, 4)],
    );
    add(
        "8: Plain2 with 1 child",
        &[
            (at.member(3) + 8, 1, 2),
            (at.member(4) + 6, 1, 2),
            (at.member(4) + 8, 3, 2),
        ],
    );
    add(
        "8: Lit with 1 child",
        &[
            (at.member(0) + 8, 1, 2),
            (at.member(1) + 6, 1, 2),
            (at.member(2) + 6, 1, 2),
            (at.member(3) + 6, 1, 2),
            (at.member(3) + 8, 1, 2),
        ],
    );
    add(
        "8: SPair made Plain3: 2 children",
        &[(at.op(3), 3, 1), (at.op(3) + 1, 0, 1)],
    );
    // 9
    add(
        "9: best member of class 0 is member 1",
        &[(at.class(0) + 4, 1, 2)],
    );
    add("9: best member 65,535", &[(at.class(4) + 4, 65_535, 2)]);
    add("9: best size one too large", &[(at.class(2) + 6, 4, 4)]);
    add("9: best size 0", &[(at.class(0) + 6, 0, 4)]);
    add(
        "9: best size 2,147,483,647",
        &[(at.class(0) + 6, 0x7fff_ffff, 4)],
    );
    add(
        "9: the size of the other member",
        &[(at.class(3) + 6, 8, 4)],
    );
    add(
        "sound: the other member of class 3, size 8",
        &[(at.class(3) + 4, 5, 2), (at.class(3) + 6, 8, 4)],
    );
    // 10
    add("10: literal 7 also in class 0", &[(at.member(0) + 2, 7, 4)]);
    add(
        "sound: literal 7 twice in class 1",
        &[(at.member(2) + 2, 7, 4)],
    );
    // 11
    add("11: left class 5 of 5", &[(at.query, 5, 2)]);
    add("11: right class 65,535", &[(at.query + 2, 65_535, 2)]);
    // Two rules each
    add("2 before 3", &[(0, length + 1, 4), (version, 2, 1)]);
    add("3 before 4", &[(version, 0, 1), (5, 0, 2)]);
    add(
        "4 before 5: 257 classes and nothing else changed",
        &[(7, 257, 2), (9, 9, 2)],
    );
    add("5 before 6", &[(11, 8, 2), (at.op(0), 10, 1)]);
    add(
        "6 before 7: a late operation, an early span",
        &[(at.op(3) + 1, 0, 1), (at.class(0), 1, 2)],
    );
    add(
        "7 before 8: a late literal field, an early child",
        &[(at.member(6) + 2, 1, 4), (at.child(0), 9, 2)],
    );
    add(
        "7 before 9: a span and a best size",
        &[(at.class(4) + 2, 2, 2), (at.class(0) + 6, 9, 4)],
    );
    add(
        "8 before 9: a late child, an early best size",
        &[(at.child(8), 9, 2), (at.class(0) + 6, 2, 4)],
    );
    add(
        "8 before 10",
        &[(at.child(0) + 2, 0, 4), (at.member(0) + 2, 7, 4)],
    );
    add(
        "9 before 10: a late best member, an early literal",
        &[(at.class(4) + 4, 0, 2), (at.member(0) + 2, 7, 4)],
    );
    add(
        "10 before 11",
        &[(at.member(0) + 2, 7, 4), (at.query, 5, 2)],
    );
    add(
        "9 before 11",
        &[(at.class(0) + 6, 2, 4), (at.query + 2, 9, 2)],
    );
    // Lengths of the whole input
    for keep in [
        1,
        3,
        4,
        7,
        8,
        12,
        13,
        20,
        21,
        good.len() - 8,
        good.len() - 1,
    ] {
        found.push((format!("2: the first {keep} bytes"), good[..keep].to_vec()));
    }
    let mut longer = good.clone();
    longer.push(0);
    found.push(("2: one byte too many".to_string(), longer));
    let mut tiny = vec![0, 0, 0, 8, 1, 0, 1, 0, 1, 0, 1, 0];
    tiny.extend([0; 8]);
    found.push((
        "2: an image of 12 bytes, its length right".to_string(),
        tiny,
    ));
    let mut tiny = vec![0, 0, 0, 9, 1, 0, 1, 0, 1, 0, 1, 0, 0];
    tiny.extend([0; 8]);
    found.push(("5: an image of 13 bytes".to_string(), tiny));
    found
}

/// Each kind with an arity, over as many children, one less and one more.
pub fn more() -> Vec<Vec<u8>> {
    let op = |kind| Operation {
        kind,
        identity: None,
    };
    let mut found = Vec::new();
    for (kind, arity) in [(0, 0), (1, 1), (2, 2), (3, 3), (5, 2)] {
        for count in usize::max(arity, 1) - 1..=arity + 1 {
            let children = vec![0; count];
            let mut img = Img {
                ops: vec![op(9), op(kind)],
                classes: vec![
                    r#gen::class(vec![r#gen::lit(0, 5)]),
                    r#gen::class(vec![r#gen::over(1, &children)]),
                ],
            };
            img.settle();
            found.push(img.frame(&Query {
                left: 1,
                right: 0,
                budget: 4,
            }));
        }
    }
    found
}

/// A class of literals, each an operation and a value.
type Literals<'a> = &'a [(usize, u32)];

/// Operations 0 Lit, 1 Lit, 2 Plain0, 3 Plain1; the classes hold these literals.
fn of_literals(classes: &[Literals]) -> Img {
    let op = |kind| Operation {
        kind,
        identity: None,
    };
    let class = |literals: &Literals| {
        let members = literals.iter().map(|&(op, value)| r#gen::lit(op, value));
        r#gen::class(members.collect())
    };
    let mut img = Img {
        ops: [9, 9, 0, 1].map(op).to_vec(),
        classes: classes.iter().map(class).collect(),
    };
    img.order();
    assert!(img.settle());
    img
}

/// `classes` classes with `each` literals of their own: class c has 1,000 c and what follows.
fn many(classes: usize, each: usize) -> Img {
    let class = |c: usize| (0..each).map(|k| (0, (1_000 * c + k) as u32)).collect();
    let classes: Vec<Vec<(usize, u32)>> = (0..classes).map(class).collect();
    of_literals(&classes.iter().map(Vec::as_slice).collect::<Vec<_>>())
}

/// Frames about rule 10: the number and the class that each is refused with, or `sound`,
/// and why.
pub fn doubled() -> Vec<(String, Vec<u8>)> {
    let query = Query {
        left: 0,
        right: 1,
        budget: 20,
    };
    let mut found: Vec<(String, Vec<u8>)> = Vec::new();
    let mut add = |what: &str, classes: &[Literals]| {
        let query = Query {
            right: usize::from(classes.len() > 1),
            ..query
        };
        found.push((what.to_string(), of_literals(classes).frame(&query)));
    };
    // Operation 0 alone: a, b .. stand once.
    let [a, b, c, d, e, f] = [1, 2, 3, 4, 5, 6].map(|value| (0, value));
    let [x, y, z] = [20, 10, 30].map(|value| (0, value));
    add(
        "10 class 1: 20 in 2 and 3, 10 in 1 and 5",
        &[&[a], &[y], &[x], &[x], &[b], &[y]],
    );
    add(
        "10 class 1: 10 in 2 and 3, 20 in 1 and 5",
        &[&[a], &[x], &[y], &[y], &[b], &[x]],
    );
    add(
        "10 class 0: 20 in 0 and 2, 10 in 3 and 4",
        &[&[x], &[a], &[x], &[y], &[y]],
    );
    add(
        "10 class 1: three in one another, the lowest met last",
        &[&[a], &[x], &[y], &[z], &[z], &[y], &[x]],
    );
    add(
        "10 class 2: three crossed, the lowest met second",
        &[&[a], &[b], &[y], &[x], &[x], &[z], &[y], &[z]],
    );
    add(
        "10 class 0: two in the same two classes, among others",
        &[&[a, x, b, y], &[c], &[y, d, x]],
    );
    add(
        "10 class 1: the lower class with its second literal",
        &[&[a], &[b, y], &[x, c], &[d, x], &[y]],
    );
    // Three holders and more
    add(
        "10 class 2: 20 in 2, 4 and 5",
        &[&[a], &[b], &[x], &[c], &[x], &[x]],
    );
    add(
        "10 class 1: 20 in 1, 4 and 6, 10 in 2 and 3",
        &[&[a], &[x], &[y], &[y], &[x], &[b], &[x]],
    );
    add("10 class 0: 20 in every class", &[&[x], &[x], &[x], &[x]]);
    // Several times in one class
    add(
        "sound: 20 twice in class 1, three times 10 in class 2",
        &[&[a], &[x, x], &[y, b, y, y], &[c]],
    );
    add(
        "10 class 2: 20 twice in 2 and once in 4",
        &[&[a], &[b], &[x, x], &[c], &[x]],
    );
    add(
        "10 class 1: 20 twice in 3 and once in 1",
        &[&[a], &[x], &[b], &[x, x]],
    );
    add(
        "10 class 2: 10 twice in 0 alone, 20 in 2 and 3",
        &[&[y, y], &[a], &[x], &[x]],
    );
    add(
        "10 class 1: 20 in 1 and 2, 10 twice in 4 alone",
        &[&[a], &[x], &[x], &[b], &[y, y]],
    );
    // Operation and value
    let other = |(_, value)| (1, value);
    add(
        "sound: 20 of both operations, in two classes and in one",
        &[&[x], &[other(x)], &[a], &[y, other(y)]],
    );
    add(
        "10 class 1: 20 of operation 0 in 0, of operation 1 in 1 and 3",
        &[&[x], &[other(x)], &[a], &[other(x)]],
    );
    add(
        "10 class 1: 20 of operation 0 in 2 and 3, 10 of operation 1 in 1 and 4",
        &[&[a], &[other(y)], &[x], &[x], &[other(y)]],
    );
    add(
        "10 class 0: value 0 in 0 and 2",
        &[&[(0, 0)], &[(1, 0)], &[(0, 0), a]],
    );
    add(
        "10 class 1: value 4,294,967,295 in 1 and 2",
        &[&[(0, u32::MAX - 1)], &[(1, u32::MAX)], &[(1, u32::MAX)]],
    );
    // Equal modulo 4,093, alone and with the operation's number added
    add(
        "sound: 5, 4,098, 8,191 and 4,294,964,997",
        &[
            &[(0, 5)],
            &[(0, 4_098)],
            &[(0, 8_191)],
            &[(0, 4_294_964_997)],
        ],
    );
    add(
        "sound: 5 of operation 0, 4 and 4,097 of operation 1",
        &[&[(0, 5)], &[(1, 4)], &[(1, 4_097)]],
    );
    add(
        "10 class 2: 4,098 in 2 and 4 among values equal modulo 4,093",
        &[
            &[(0, 5)],
            &[(1, 4)],
            &[(0, 4_098)],
            &[(0, 8_191)],
            &[(0, 4_098)],
        ],
    );
    // First and last
    add(
        "10 class 0: 20 in the first and the last of 8",
        &[&[x], &[a], &[b], &[c], &[d], &[e], &[f], &[x]],
    );
    add(
        "10 class 6: 20 in the last two of 8",
        &[&[a], &[b], &[c], &[d], &[e], &[f], &[x], &[x]],
    );
    add("10 class 0: 20 in both of 2 classes", &[&[x], &[x]]);
    add("sound: one class, 20 twice", &[&[x, x]]);
    // Other members
    let mut img = of_literals(&[&[a], &[(0, 0)], &[b], &[c]]);
    for class in [0, 2, 3] {
        img.classes[class].members.push(r#gen::over(2, &[]));
    }
    found.push((
        "sound: Plain0, whose literal field is 0, in three classes".to_string(),
        img.frame(&query),
    ));
    img.classes[1].members.push(r#gen::over(3, &[3]));
    img.classes[3].members.insert(0, r#gen::lit(0, 0));
    img.classes[3].best = 2;
    found.push((
        "10 class 1: value 0 in 1 and 3, Plain0 in 0, 2 and 3".to_string(),
        img.frame(&query),
    ));
    // Large tables
    let mut put = |what: &str, mut img: Img, literals: &[(usize, usize, u32)]| {
        for &(class, at, value) in literals {
            img.classes[class].members[at].literal = value;
        }
        found.push((what.to_string(), img.frame(&query)));
    };
    put(
        "10 class 0: the first and the last of 256",
        many(256, 1),
        &[(0, 0, 7), (255, 0, 7)],
    );
    put(
        "10 class 254: the last two of 256",
        many(256, 1),
        &[(254, 0, 7), (255, 0, 7)],
    );
    put(
        "10 class 100: 1,024 members, 10 in 100 and 255 around 20 in 120 and 121",
        many(256, 4),
        &[(100, 3, 10), (255, 3, 10), (120, 3, 20), (121, 0, 20)],
    );
    // Two rules each
    let mut img = of_literals(&[&[y], &[x], &[x], &[y], &[a]]);
    let outside = Query { left: 5, ..query };
    found.push((
        "10 class 0: before 11, class 5 of 5".to_string(),
        img.frame(&outside),
    ));
    img.classes[4].size = 2;
    found.push((
        "9: before 10, a late best size".to_string(),
        img.frame(&outside),
    ));
    found
}
