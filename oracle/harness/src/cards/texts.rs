// SPDX-License-Identifier: Apache-2.0
//! Changed cards and lines, and random ones.

use model::card::signs::Signs;

use crate::rng::Rng;

const MARKS: [&str; 22] = [
    "(",
    ")",
    "[",
    "]",
    "[]",
    "{",
    "}",
    " | ",
    "; ",
    ";",
    "|",
    " ",
    "#",
    "0",
    "1",
    "9",
    "1#0",
    "0#63",
    "7#64",
    "\n",
    ",",
    "4294967296#0",
];

/// A sign of the table, alone, between spaces or before a list.
fn sign(rng: &mut Rng, signs: &Signs) -> Vec<u8> {
    let all: Vec<&[u8]> = (0..64)
        .filter_map(|operation| signs.of(operation))
        .map(|sign| &sign.word[..])
        .collect();
    let word = match all.is_empty() || rng.once_in(12) {
        true => *rng.pick(&[&b"+"[..], b"km", b"unknown", b"%", b"x", b"++"]),
        false => *rng.pick(&all),
    };
    match rng.below(4) {
        0 => word.to_vec(),
        1 => [word, b"["].concat(),
        2 => [word, b"[]"].concat(),
        _ => [b" ", word, b" "].concat(),
    }
}

fn mark(rng: &mut Rng, signs: &Signs) -> Vec<u8> {
    match rng.below(5) {
        0 | 1 => sign(rng, signs),
        2 => vec![rng.next() as u8],
        _ => rng.pick(&MARKS).as_bytes().to_vec(),
    }
}

/// A few marks in any order.
pub fn any(rng: &mut Rng, signs: &Signs) -> Vec<u8> {
    let many = rng.range(0, 12);
    (0..many).flat_map(|_| mark(rng, signs)).collect()
}

/// Two places of a text, the first not behind the second.
fn span(rng: &mut Rng, text: &[u8]) -> (usize, usize) {
    let from = rng.below(text.len() + 1);
    let length = rng.below(12).min(text.len() - from);
    (from, from + length)
}

/// The places of a byte.
pub fn places(text: &[u8], byte: u8) -> Vec<usize> {
    (0..text.len()).filter(|&at| text[at] == byte).collect()
}

/// A small change.
pub fn change(rng: &mut Rng, signs: &Signs, text: &mut Vec<u8>) {
    let (from, to) = span(rng, text);
    match rng.below(12) {
        0 => drop(text.drain(from..to)),
        1 if from < text.len() => drop(text.remove(from)),
        2 => drop(text.splice(from..from, mark(rng, signs))),
        3 => drop(text.splice(from..to, mark(rng, signs))),
        4 => drop(text.splice(from..from, text[from..to].to_vec())),
        5 => text.truncate(from),
        // a pair of brackets, or one of each, left out or put in
        6 | 7 => {
            let (opens, shuts) = (places(text, b'('), places(text, b')'));
            if !opens.is_empty() && !shuts.is_empty() {
                let (open, shut) = (*rng.pick(&opens), *rng.pick(&shuts));
                text.remove(open.max(shut));
                text.remove(open.min(shut));
            }
        }
        8 => {
            text.insert(to, b')');
            text.insert(from, b'(');
        }
        // a branch or a child more
        9 => {
            let (shut, more) = *rng.pick(&[(b'}', " | 1#0"), (b']', "; 1#0")]);
            let ends = places(text, shut);
            if !ends.is_empty() {
                let at = *rng.pick(&ends);
                drop(text.splice(at..at, more.bytes()));
            }
        }
        // a sign for another
        10 => {
            let spaces = places(text, b' ');
            if let [_, _, ..] = spaces[..] {
                let at = rng.below(spaces.len() - 1);
                let word = sign(rng, signs);
                let word = word.trim_ascii().to_vec();
                text.splice(spaces[at] + 1..spaces[at + 1], word);
            }
        }
        _ if from < text.len() => {
            text[from] = *rng.pick(b"0123456789#+-*/<>()[]{}|; \nakzAKZ");
        }
        _ => text.push(b' '),
    }
}

const WORDS: [&str; 18] = [
    "lit",
    "op",
    "variants",
    "0",
    "1",
    "2",
    "63",
    "64",
    "0:1",
    "0:2",
    "1:1",
    "0:0",
    "1:3",
    "0:279172874175",
    "0:279172874176",
    "00",
    "4294967295",
    "4294967296",
];

/// Lines whose numbers are mostly right, of any words.
pub fn any_lines(rng: &mut Rng) -> Vec<u8> {
    let mut text = String::new();
    for number in 0..rng.below(5) {
        let number = if rng.once_in(12) {
            rng.below(6)
        } else {
            number
        };
        text += &number.to_string();
        for _ in 0..rng.below(6) {
            text.push(' ');
            text += *rng.pick(&WORDS);
        }
        text.push('\n');
    }
    text.into_bytes()
}

/// A small change of lines.
pub fn change_lines(rng: &mut Rng, text: &mut Vec<u8>) {
    let (from, to) = span(rng, text);
    match rng.below(11) {
        0 => drop(text.drain(from..to)),
        1 if from < text.len() => drop(text.remove(from)),
        2 | 3 => {
            let word = format!(" {}", rng.pick(&WORDS));
            let mut ends = places(text, b'\n');
            ends.push(text.len());
            let at = *rng.pick(&ends);
            drop(text.splice(at..at, word.into_bytes()));
        }
        4 => drop(text.splice(from..to, rng.pick(&WORDS).bytes())),
        5 => text.truncate(from),
        6 => drop(text.pop()),
        7 => text.insert(from, *rng.pick(b"0123456789: \n")),
        // a line again, with the next number
        8 => {
            let last = text.iter().filter(|byte| **byte == b'\n').count();
            let lines: Vec<&[u8]> = text.split(|byte| *byte == b'\n').collect();
            let words = rng.pick(&lines).split(|byte| *byte == b' ').skip(1);
            let words: Vec<&[u8]> = words.collect();
            let line = [last.to_string().as_bytes(), b" ", &words.join(&b' '), b"\n"].concat();
            text.extend(line);
        }
        9 => {
            let last = text.iter().filter(|byte| **byte == b'\n').count();
            let count = *rng.pick(&[
                1u64,
                2,
                3,
                279_172_874_175,
                279_172_874_174,
                279_172_874_176,
                5_000_000_000,
            ]);
            let line = match rng.below(3) {
                0 => format!("{last} op 1 0:{count}\n"),
                1 => format!("{last} op 0 0:{count} {}:1\n", last.saturating_sub(1)),
                _ => format!("{last} variants 0:{count} {}:1\n", last.saturating_sub(1)),
            };
            text.extend(line.bytes());
        }
        _ if from < text.len() => text[from] = *rng.pick(b"0123456789: \nlitopvarns"),
        _ => text.push(b'\n'),
    }
}
