// SPDX-License-Identifier: Apache-2.0
//! Image text: a readable form of an image and a query.
//!
//! ```text
//! # anything after a hash
//! operation 0 Lit
//! operation 1 MSet identity 0
//! class 0
//!   literal 0 5
//! class 1
//!   member 1 0 2:3      # children as class or class:count
//!   * member 1 0        # the best member, where it is not the first smallest
//! query 0 1 14
//! ```

use crate::img::{Class, Img, KINDS, Member, Operation, Query};

fn number<T: std::str::FromStr>(word: Option<&str>, line: usize) -> Result<T, String> {
    word.and_then(|w| w.parse().ok())
        .ok_or_else(|| format!("line {line}: a number is missing or wrong"))
}

pub fn parse(text: &str) -> Result<(Img, Vec<Query>), String> {
    let mut img = Img::default();
    let mut queries = Vec::new();
    let mut starred = Vec::new();
    for (at, line) in text.lines().enumerate() {
        let at = at + 1;
        let line = line.split('#').next().unwrap_or("");
        let mut words = line.split_whitespace().peekable();
        let star = words.next_if_eq(&"*").is_some();
        match words.next() {
            None => {}
            Some("operation") => {
                let n: usize = number(words.next(), at)?;
                if n != img.ops.len() {
                    return Err(format!("line {at}: operation {} comes next", img.ops.len()));
                }
                let name = words.next().unwrap_or("");
                let kind = KINDS
                    .iter()
                    .position(|k| *k == name)
                    .ok_or_else(|| format!("line {at}: no kind {name:?}"))?;
                let identity = match words.next() {
                    None => None,
                    Some("identity") => Some(number(words.next(), at)?),
                    Some(other) => return Err(format!("line {at}: {other:?} is not `identity`")),
                };
                img.ops.push(Operation {
                    kind: kind as u8,
                    identity,
                });
            }
            Some("class") => {
                let n: usize = number(words.next(), at)?;
                if n != img.classes.len() {
                    return Err(format!("line {at}: class {} comes next", img.classes.len()));
                }
                img.classes.push(Class::default());
            }
            Some(head @ ("literal" | "member")) => {
                let op = number(words.next(), at)?;
                let mut member = Member {
                    op,
                    ..Member::default()
                };
                if head == "literal" {
                    member.literal = number(words.next(), at)?;
                } else {
                    for word in words.by_ref() {
                        let (class, count) = word.split_once(':').unwrap_or((word, "1"));
                        let class = number(Some(class), at)?;
                        member.children.push((class, number(Some(count), at)?));
                    }
                }
                let class = img.classes.len();
                let Some(last) = img.classes.last_mut() else {
                    return Err(format!("line {at}: a member before any class"));
                };
                if star {
                    starred.push((class - 1, last.members.len()));
                }
                last.members.push(member);
            }
            Some("query") => queries.push(Query {
                left: number(words.next(), at)?,
                right: number(words.next(), at)?,
                budget: number(words.next(), at)?,
            }),
            Some(other) => return Err(format!("line {at}: {other:?} is not known")),
        }
        if let Some(extra) = words.next() {
            return Err(format!("line {at}: {extra:?} is too much"));
        }
    }
    let classes = img.classes.len();
    for member in img.classes.iter().flat_map(|c| &c.members) {
        if member.children.iter().any(|c| c.0 >= classes) {
            return Err("a child is not a class of the image".to_string());
        }
    }
    if !img.settle() {
        return Err("a class has no finite term of at most 2,147,483,646 parts".to_string());
    }
    for (class, best) in &starred {
        img.classes[*class].best = *best;
    }
    if !starred.is_empty() && !img.size_by_choice() {
        return Err("the best members go round in a circle, or grow too large".to_string());
    }
    Ok((img, queries))
}

pub fn print(img: &Img, queries: &[Query]) -> String {
    let mut text = String::new();
    for (n, op) in img.ops.iter().enumerate() {
        text += &format!("operation {n} {}", KINDS[usize::from(op.kind)]);
        if let Some(identity) = op.identity {
            text += &format!(" identity {identity}");
        }
        text.push('\n');
    }
    let mut plain = img.clone();
    plain.settle();
    for (n, class) in img.classes.iter().enumerate() {
        text += &format!("class {n}\n");
        for (k, member) in class.members.iter().enumerate() {
            let star = k == class.best && plain != *img;
            text += if star { "* " } else { "  " };
            if img.ops[member.op].kind == 9 {
                text += &format!("literal {} {}", member.op, member.literal);
            } else {
                text += &format!("member {}", member.op);
                for (class, count) in &member.children {
                    text += &match count {
                        1 => format!(" {class}"),
                        _ => format!(" {class}:{count}"),
                    };
                }
            }
            text.push('\n');
        }
    }
    for query in queries {
        text += &format!("query {} {} {}\n", query.left, query.right, query.budget);
    }
    text
}
