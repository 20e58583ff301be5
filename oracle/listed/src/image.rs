// SPDX-License-Identifier: Apache-2.0
//! The tables of an accepted image. Nothing is refused here: the model is the
//! judge of images. `read` gives nothing where the tables cannot even be read.

pub struct Operation {
    pub kind: u8,
    pub identity: Option<usize>,
}

pub struct Class {
    pub first: usize,
    pub members: usize,
    pub best: usize,
    pub best_size: u32,
}

pub struct Member {
    pub op: usize,
    pub literal: u32,
    pub children: Vec<(usize, u32)>,
}

pub struct Image {
    pub operations: Vec<Operation>,
    pub classes: Vec<Class>,
    pub members: Vec<Member>,
}

pub struct Query {
    pub image: Image,
    pub left: usize,
    pub right: usize,
    pub budget: u32,
}

struct Reader<'a>(&'a [u8]);

impl Reader<'_> {
    fn number(&mut self, width: usize) -> Option<u32> {
        let (head, tail) = self.0.split_at_checked(width)?;
        self.0 = tail;
        Some(head.iter().fold(0, |n, &byte| n << 8 | u32::from(byte)))
    }
    fn short(&mut self) -> Option<usize> {
        self.number(2).map(|n| n as usize)
    }
}

pub fn read(frame: &[u8]) -> Option<Query> {
    let mut r = Reader(frame);
    let length = r.number(4)? as usize;
    if frame.len() != length.checked_add(12)? || r.number(1)? != 1 {
        return None;
    }
    let [operations, classes, members, children] = [r.short()?, r.short()?, r.short()?, r.short()?];
    let operations: Vec<Operation> = (0..operations)
        .map(|_| {
            let kind = r.number(1)? as u8;
            r.number(1)?;
            let identity = r.short()?;
            (kind < 10).then_some(Operation {
                kind,
                identity: (identity != 65_535).then_some(identity),
            })
        })
        .collect::<Option<_>>()?;
    let classes: Vec<Class> = (0..classes)
        .map(|_| {
            Some(Class {
                first: r.short()?,
                members: r.short()?,
                best: r.short()?,
                best_size: r.number(4)?,
            })
        })
        .collect::<Option<_>>()?;
    let members: Vec<(usize, u32, usize, usize)> = (0..members)
        .map(|_| Some((r.short()?, r.number(4)?, r.short()?, r.short()?)))
        .collect::<Option<_>>()?;
    let children: Vec<(usize, u32)> = (0..children)
        .map(|_| Some((r.short()?, r.number(4)?)))
        .collect::<Option<_>>()?;
    let members = members
        .into_iter()
        .map(|(op, literal, first, count)| {
            Some(Member {
                op,
                literal,
                children: children.get(first..first + count)?.to_vec(),
            })
        })
        .collect::<Option<_>>()?;
    Some(Query {
        image: Image {
            operations,
            classes,
            members,
        },
        left: r.short()?,
        right: r.short()?,
        budget: r.number(4)?,
    })
}
