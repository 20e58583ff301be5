// SPDX-License-Identifier: Apache-2.0
//! A graph of terms as one line of text, up to a limit.

use std::borrow::Cow;
use std::fmt::Write;

use crate::listing::Run;

#[derive(Clone, Copy)]
pub(crate) enum Head {
    Operation(u16),
    Variants,
}

pub(crate) enum Node<'a> {
    Literal(u16, u32),
    Over(Head, Cow<'a, [Run]>),
}

enum Step {
    Term(usize),
    Words(&'static str),
    Count(u64),
}

/// The last of `count` terms, at most `most` bytes of it and then `...`. Without recursion: a
/// term may be thousands of terms deep.
pub(crate) fn write<'a>(count: usize, node: impl Fn(usize) -> Node<'a>, most: usize) -> String {
    let mut literals = (0..count).filter_map(|at| match node(at) {
        Node::Literal(operation, _) => Some(operation),
        Node::Over(..) => None,
    });
    let one = literals.next();
    let mixed = literals.any(|operation| Some(operation) != one);
    let mut text = String::new();
    let mut steps = vec![Step::Term(count - 1)];
    while let Some(step) = steps.pop() {
        match step {
            Step::Words(words) => text.push_str(words),
            Step::Count(1) => (),
            Step::Count(times) => write!(text, ":{times}").expect("into a string"),
            Step::Term(at) => match node(at) {
                Node::Literal(operation, value) if mixed => {
                    write!(text, "lit{operation}:{value}").expect("into a string");
                }
                Node::Literal(_, value) => write!(text, "{value}").expect("into a string"),
                Node::Over(head, runs) => {
                    let (between, after) = match head {
                        Head::Operation(operation) => {
                            write!(text, "op{operation}(").expect("into a string");
                            (", ", ")")
                        }
                        Head::Variants => {
                            text.push('{');
                            (" | ", "}")
                        }
                    };
                    steps.push(Step::Words(after));
                    for (place, run) in runs.iter().enumerate().rev() {
                        steps.push(Step::Count(run.count));
                        steps.push(Step::Term(run.child));
                        if place > 0 {
                            steps.push(Step::Words(between));
                        }
                    }
                }
            },
        }
        if text.len() > most {
            text.truncate(most);
            text.push_str("...");
            return text;
        }
    }
    text
}
