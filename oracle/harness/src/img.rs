// SPDX-License-Identifier: Apache-2.0
//! An image as a person thinks of it, and its bytes.

pub const KINDS: [&str; 10] = [
    "Plain0", "Plain1", "Plain2", "Plain3", "PlainN", "SPair", "Seq", "MSet", "Set", "Lit",
];

#[derive(Clone, Debug, PartialEq, Eq)]
pub struct Operation {
    pub kind: u8,
    pub identity: Option<usize>,
}

#[derive(Clone, Debug, Default, PartialEq, Eq)]
pub struct Member {
    pub op: usize,
    pub literal: u32,
    pub children: Vec<(usize, u32)>,
}

#[derive(Clone, Debug, Default, PartialEq, Eq)]
pub struct Class {
    pub members: Vec<Member>,
    /// The best member, counted within the class.
    pub best: usize,
    pub size: u32,
}

#[derive(Clone, Debug, Default, PartialEq, Eq)]
pub struct Img {
    pub ops: Vec<Operation>,
    pub classes: Vec<Class>,
}

#[derive(Clone, Debug, PartialEq, Eq)]
pub struct Query {
    pub left: usize,
    pub right: usize,
    pub budget: u32,
}

fn put(bytes: &mut Vec<u8>, number: usize, width: usize) {
    bytes.extend_from_slice(&(number as u64).to_be_bytes()[8 - width..]);
}

impl Img {
    pub fn bytes(&self) -> Vec<u8> {
        let members: Vec<&Member> = self.classes.iter().flat_map(|c| &c.members).collect();
        let children: usize = members.iter().map(|m| m.children.len()).sum();
        let mut bytes = vec![1];
        for count in [self.ops.len(), self.classes.len(), members.len(), children] {
            put(&mut bytes, count, 2);
        }
        for op in &self.ops {
            bytes.push(op.kind);
            bytes.push(u8::from([5, 7, 8].contains(&op.kind)));
            put(&mut bytes, op.identity.unwrap_or(65_535), 2);
        }
        let mut first = 0;
        for class in &self.classes {
            put(&mut bytes, first, 2);
            put(&mut bytes, class.members.len(), 2);
            put(&mut bytes, first + class.best, 2);
            put(&mut bytes, class.size as usize, 4);
            first += class.members.len();
        }
        let mut first = 0;
        for member in &members {
            put(&mut bytes, member.op, 2);
            put(&mut bytes, member.literal as usize, 4);
            put(&mut bytes, first, 2);
            put(&mut bytes, member.children.len(), 2);
            first += member.children.len();
        }
        for (class, count) in members.iter().flat_map(|m| &m.children) {
            put(&mut bytes, *class, 2);
            put(&mut bytes, *count as usize, 4);
        }
        let mut image = Vec::new();
        put(&mut image, bytes.len(), 4);
        image.extend(bytes);
        image
    }

    pub fn frame(&self, query: &Query) -> Vec<u8> {
        let mut frame = self.bytes();
        put(&mut frame, query.left, 2);
        put(&mut frame, query.right, 2);
        put(&mut frame, query.budget as usize, 4);
        frame
    }

    /// An accepted image, read back.
    pub fn of(image: &model::image::Image) -> Img {
        let ops = image
            .operations
            .iter()
            .enumerate()
            .map(|(number, op)| Operation {
                kind: op.kind,
                identity: image.identity(number),
            })
            .collect();
        let classes = image
            .classes
            .iter()
            .enumerate()
            .map(|(number, class)| Class {
                members: image
                    .members_of(number)
                    .iter()
                    .map(|member| Member {
                        op: member.operation,
                        literal: member.literal,
                        children: image
                            .children_of(member)
                            .iter()
                            .map(|child| (child.class, child.count))
                            .collect(),
                    })
                    .collect(),
                best: class.best - class.first,
                size: class.size,
            })
            .collect();
        Img { ops, classes }
    }

    /// Members in operation order (stable).
    pub fn order(&mut self) {
        for class in &mut self.classes {
            class.members.sort_by_key(|member| member.op);
        }
    }

    fn size_by(&self, member: &Member) -> Option<u64> {
        let mut size = 1u64;
        for &(class, count) in &member.children {
            let below = self.classes[class].size;
            if below == 0 {
                return None;
            }
            size += u64::from(count) * u64::from(below);
        }
        Some(size).filter(|&size| size <= 2_147_483_646)
    }

    /// Gives each class its least size and the first member that has it. False if
    /// some class has no finite term within the range.
    pub fn settle(&mut self) -> bool {
        for class in &mut self.classes {
            class.size = 0;
        }
        loop {
            let mut changed = false;
            for number in 0..self.classes.len() {
                for best in 0..self.classes[number].members.len() {
                    let size = self.size_by(&self.classes[number].members[best]);
                    let class = &mut self.classes[number];
                    if let Some(size) = size
                        && (class.size == 0 || size < u64::from(class.size))
                    {
                        class.size = size as u32;
                        class.best = best;
                        changed = true;
                    }
                }
            }
            if !changed {
                break;
            }
        }
        // The first member that has the least size.
        for number in 0..self.classes.len() {
            let class = &self.classes[number];
            let best = class
                .members
                .iter()
                .position(|m| self.size_by(m) == Some(u64::from(class.size)));
            if let Some(best) = best {
                self.classes[number].best = best;
            }
        }
        self.classes.iter().all(|class| class.size > 0)
    }

    /// Sizes by the best members as they are chosen; false if they do not exist.
    pub fn size_by_choice(&mut self) -> bool {
        for class in &mut self.classes {
            class.size = 0;
        }
        for _ in 0..=self.classes.len() {
            for number in 0..self.classes.len() {
                let class = &self.classes[number];
                if let Some(size) = self.size_by(&class.members[class.best]) {
                    self.classes[number].size = size as u32;
                }
            }
        }
        self.classes.iter().all(|class| class.size > 0)
            && self.classes.iter().all(|class| {
                self.size_by(&class.members[class.best]) == Some(u64::from(class.size))
            })
    }
}
