// SPDX-License-Identifier: Apache-2.0
//! Family `doubled`: images that pass rules 2 to 9, full of literals, of which none, one
//! or several stand in two classes or more.

use std::collections::HashSet;

use crate::r#gen::{class, lit, over};
use crate::img::{Img, Member, Operation, Query};
use crate::rng::Rng;

const MEMBERS: usize = 1_024;
const CLASSES: usize = 256;

/// The library marks a literal by its value plus its operation, modulo this number.
const SLOTS: usize = 4_093;

/// How the values of an image are drawn.
enum Values {
    Few,
    Any,
    /// Equal modulo 4,093, of every operation.
    Alike(usize),
    /// The sum of value and operation is equal modulo 4,093.
    OneSlot(usize),
}

struct Drawing<'a> {
    rng: &'a mut Rng,
    values: Values,
    /// The operations of kind Lit.
    lits: Vec<usize>,
    used: HashSet<(usize, u32)>,
    last: u32,
}

impl Drawing<'_> {
    fn value(&mut self, op: usize) -> u32 {
        // Often the value that the last literal has, under another operation.
        if self.lits.len() > 1 && self.rng.once_in(4) {
            return self.last;
        }
        if self.rng.once_in(12) {
            return *self
                .rng
                .pick(&[0, 0, 1, 0x7fff_ffff, 0x8000_0000, u32::MAX]);
        }
        let far = if self.rng.once_in(2) {
            2 * MEMBERS
        } else {
            u32::MAX as usize / SLOTS - 1
        };
        match self.values {
            Values::Few => self.rng.below(2 * MEMBERS) as u32,
            Values::Any => self.rng.next() as u32,
            Values::Alike(at) => (at + SLOTS * self.rng.below(far)) as u32,
            Values::OneSlot(at) => (at + SLOTS - op + SLOTS * self.rng.below(far)) as u32,
        }
    }

    /// A literal that stands nowhere yet.
    fn fresh(&mut self) -> Member {
        loop {
            let op = *self.rng.pick(&self.lits);
            let value = self.value(op);
            if self.used.insert((op, value)) {
                self.last = value;
                return lit(op, value);
            }
        }
    }
}

/// Some classes, all different, in rising order.
fn some(rng: &mut Rng, from: usize, to: usize, count: usize) -> Vec<usize> {
    let mut found = HashSet::new();
    while found.len() < count.min(to - from) {
        found.insert(rng.range(from, to - 1));
    }
    let mut found: Vec<usize> = found.into_iter().collect();
    found.sort_unstable();
    found
}

/// The classes of one doubled literal or of two, among those from `from` on to `to`.
fn holders(rng: &mut Rng, from: usize, to: usize) -> Vec<Vec<usize>> {
    let most = to - from;
    match rng.below(9) {
        0 => {
            let a = rng.range(from, to - 2);
            vec![vec![a, a + 1]]
        }
        1 => vec![vec![from, to - 1]],
        2 => vec![vec![to - 2, to - 1]],
        3 => {
            let count = rng.range(3, 9);
            vec![some(rng, from, to, count)]
        }
        4 => vec![(from..to).take(40).collect()],
        // The lower class comes with the literal that is met later; one after the
        // other; crossed.
        way @ 5..=7 if most >= 4 => {
            let four = some(rng, from, to, 4);
            let (a, b, c, d) = (four[0], four[1], four[2], four[3]);
            match way {
                5 => vec![vec![b, c], vec![a, d]],
                6 => vec![vec![a, b], vec![c, d]],
                _ => vec![vec![a, c], vec![b, d]],
            }
        }
        _ => vec![some(rng, from, to, 2)],
    }
}

pub fn image(rng: &mut Rng) -> Img {
    let n = match rng.below(16) {
        0 => rng.range(1, 2),
        1..=5 => rng.range(2, 8),
        6..=9 => rng.range(4, 24),
        10..=12 => rng.range(20, 90),
        13 | 14 => rng.range(80, CLASSES),
        _ => CLASSES - rng.below(2),
    };
    let mut kinds = vec![9; rng.range(1, 3)];
    for _ in 0..rng.below(3) {
        let at = rng.range(0, kinds.len());
        kinds.insert(at, *rng.pick(&[0, 0, 1, 7]));
    }
    let others: Vec<usize> = (0..kinds.len()).filter(|&op| kinds[op] != 9).collect();
    let values = match rng.below(5) {
        0 | 1 => Values::Few,
        2 => Values::Any,
        3 => Values::Alike(rng.below(SLOTS)),
        _ => Values::OneSlot(rng.below(SLOTS - kinds.len())),
    };
    let mut drawing = Drawing {
        rng,
        values,
        lits: (0..kinds.len()).filter(|&op| kinds[op] == 9).collect(),
        used: HashSet::new(),
        last: 0,
    };
    let mut classes = vec![class(vec![]); n];
    // Doubled literals, while every class can still get a member of its own.
    let clashes = match drawing.rng.below(20) {
        _ if n == 1 => 0,
        0 => 0,
        1..=8 => 1,
        9..=12 => 2,
        13..=17 => drawing.rng.range(3, 8),
        _ => drawing.rng.range(9, 200),
    };
    let from = if drawing.rng.once_in(4) {
        0
    } else {
        drawing.rng.below(n - 1)
    };
    let mut room = MEMBERS - n;
    for _ in 0..clashes {
        for holders in holders(drawing.rng, from, n) {
            if holders.len() > room {
                break;
            }
            room -= holders.len();
            let literal = drawing.fresh();
            for at in holders {
                classes[at].members.push(literal.clone());
            }
        }
    }
    // The same literal several times in one class, a doubled one or one of its own.
    for _ in 0..[0, 0, 1, 3][drawing.rng.below(4)] {
        let at = drawing.rng.below(n);
        let literal = if classes[at].members.is_empty() || drawing.rng.once_in(2) {
            drawing.fresh()
        } else {
            drawing.rng.pick(&classes[at].members).clone()
        };
        for _ in 0..drawing.rng.range(2, 4).min(room) {
            classes[at].members.push(literal.clone());
            room -= 1;
        }
    }
    // Every class has a member without children.
    for class in &mut classes {
        if class.members.is_empty() {
            let plain = others.iter().find(|&&op| kinds[op] == 0);
            class.members.push(match plain {
                Some(&op) if drawing.rng.once_in(8) => over(op, &[]),
                _ => drawing.fresh(),
            });
        }
    }
    let placed: usize = classes.iter().map(|c| c.members.len()).sum();
    let members = match drawing.rng.below(8) {
        0..=3 => placed,
        4 | 5 => drawing.rng.range(placed, MEMBERS.min(3 * placed)),
        6 => drawing.rng.range(placed, MEMBERS),
        _ => MEMBERS,
    };
    for _ in placed..members {
        let at = drawing.rng.below(n);
        let member = if !others.is_empty() && drawing.rng.once_in(8) {
            let op = *drawing.rng.pick(&others);
            let width = match kinds[op] {
                7 => drawing.rng.below(4),
                kind => usize::from(kind),
            };
            let children: Vec<usize> = (0..width).map(|_| drawing.rng.below(n)).collect();
            over(op, &children)
        } else {
            drawing.fresh()
        };
        let into = drawing.rng.range(0, classes[at].members.len());
        classes[at].members.insert(into, member);
    }
    let ops = kinds.into_iter().map(|kind| Operation {
        kind,
        identity: None,
    });
    let mut img = Img {
        ops: ops.collect(),
        classes,
    };
    img.order();
    assert!(img.settle(), "each class has a member of size 1");
    // Any member of size 1 may be the best.
    for class in &mut img.classes {
        let leaf = |at: &usize| class.members[*at].children.is_empty();
        let leaves: Vec<usize> = (0..class.members.len()).filter(leaf).collect();
        class.best = *rng.pick(&leaves);
    }
    img
}

/// The image with a query, now and then one that rule 11 refuses.
pub fn frame(rng: &mut Rng) -> Vec<u8> {
    let img = image(rng);
    let n = img.classes.len() + usize::from(rng.once_in(8));
    img.frame(&Query {
        left: rng.below(n),
        right: rng.below(n),
        budget: rng.below(200) as u32,
    })
}
