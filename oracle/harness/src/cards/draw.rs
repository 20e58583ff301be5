// SPDX-License-Identifier: Apache-2.0
//! Drawn sign tables, and drawn inputs of the programs.

use model::card::signs::Signs;
use model::card::{Graph, write};
use model::card_slip::CardSlip;

use super::terms::{self, Style, dressed};
use super::{Kind, input, texts};
use crate::r#gen;
use crate::rng::Rng;

/// Grouping bytes, and each operation's 8 bytes with its precedence.
pub fn table(groupings: [u8; 9], entries: &[([u8; 8], u8)]) -> Vec<u8> {
    let mut table = groupings.to_vec();
    for (word, precedence) in entries {
        table.extend(word);
        table.push(*precedence);
    }
    table
}

/// A table of operations with these signs and precedences; the precedences named group to the right.
pub fn table_of(entries: &[(&str, u8)], right: &[u8]) -> Vec<u8> {
    let mut groupings = [0; 9];
    for precedence in right {
        groupings[usize::from(*precedence) - 1] = 1;
    }
    let entries = entries
        .iter()
        .map(|(word, precedence)| (padded(word.as_bytes()), *precedence));
    table(groupings, &entries.collect::<Vec<_>>())
}

/// A word with zeros up to 8 bytes.
pub fn padded(word: &[u8]) -> [u8; 8] {
    let mut bytes = [0; 8];
    bytes[..word.len()].copy_from_slice(word);
    bytes
}

const WORDS: [&str; 22] = [
    "+", "-", "*", "/", "<", ">", "km", "KM", "Km", "k", "wait", "a", "A", "Z", "z", "max", "min",
    "sum", "abcdefgh", "abcdefg", "ABCDEFGH", "maximum",
];

const ODD: [&str; 7] = ["++", "+-", "a+", "+a", "<>", "=", "^"];

/// A proper word, of those above or any.
fn word(rng: &mut Rng) -> Vec<u8> {
    if !rng.once_in(3) {
        return rng.pick(&WORDS).as_bytes().to_vec();
    }
    let length = rng.range(1, 8);
    let letter = |_| *rng.pick(b"abcdefghijklmnopqrstuvwxyzABCDEFGHIJKLMNOPQRSTUVWXYZ");
    (0..length).map(letter).collect()
}

/// An entry that breaks a rule, or stands at its edge.
fn odd(rng: &mut Rng, entries: &mut [([u8; 8], u8)]) {
    let at = rng.below(entries.len());
    let other = rng.below(entries.len());
    match rng.below(13) {
        0 => entries[at].1 = 0,
        1 => entries[at].1 = 10,
        2 => entries[at].1 = rng.next() as u8,
        3 | 4 => entries[at].0 = entries[other].0,
        5 => {
            entries[at].0 = entries[other].0;
            entries[at].1 = *rng.pick(&[0, 10, 200]);
        }
        6 => entries[at].0 = [0; 8],
        // a zero inside, a byte behind the zeros
        7 => entries[at].0[rng.below(2)] = 0,
        8 => entries[at].0[7] = *rng.pick(b"aZ+1"),
        9 => entries[at].0[rng.below(8)] = *rng.pick(b"09 @[`{#\x7f\xff\xe4+-"),
        10 => entries[at].0 = padded(rng.pick(&ODD).as_bytes()),
        11 => entries[at].0 = entries[other].0.map(|byte| byte.to_ascii_uppercase()),
        _ => {
            let place = rng.below(8);
            entries[at].0[place] = rng.next() as u8;
        }
    }
}

/// A table of so many operations: mostly proper throughout.
pub fn draw_table(rng: &mut Rng, operations: usize) -> Vec<u8> {
    let grouping = |rng: &mut Rng| *rng.pick(&[0, 0, 0, 1, 1, 2, 128, 255]);
    let mut groupings = [0; 9];
    groupings.fill_with(|| grouping(rng));
    let levels: Vec<u8> = (0..rng.range(1, 4))
        .map(|_| rng.range(1, 9) as u8)
        .collect();
    let mut entries: Vec<([u8; 8], u8)> = Vec::new();
    while entries.len() < operations {
        let word = padded(&word(rng));
        if entries.iter().all(|entry| entry.0 != word) {
            entries.push((word, *rng.pick(&levels)));
        }
    }
    if rng.once_in(4) && !entries.is_empty() {
        for _ in 0..rng.range(1, 3) {
            odd(rng, &mut entries);
        }
    }
    // entries behind the 64th
    if rng.once_in(40) {
        while entries.len() < 64 {
            let number = entries.len() as u8;
            entries.push((padded(&[b'q', b'a' + number / 8, b'a' + number % 8]), 9));
        }
        for _ in 0..rng.range(0, 3) {
            let entry = (padded(&word(rng)), rng.range(0, 10) as u8);
            entries.push(entry);
        }
    }
    let mut table = table(groupings, &entries);
    match rng.below(24) {
        0 => table.truncate(rng.below(table.len() + 1)),
        1 => table.truncate(table.len().saturating_sub(rng.range(1, 9))),
        2 => {
            let more = rng.range(1, 8);
            table.extend((0..more).map(|_| *rng.pick(b"\0\x01ab+")));
        }
        _ => {}
    }
    table
}

/// The operations with a sign.
pub fn signed(signs: &Signs) -> Vec<usize> {
    (0..64)
        .filter(|operation| signs.of(*operation).is_some())
        .collect()
}

/// Wrong rules for signs, so that terms and texts have some that are almost proper.
const LENIENT: [CardSlip; 9] = [
    CardSlip::SharedByLater,
    CardSlip::SharedByEarlier,
    CardSlip::SharedByProper,
    CardSlip::PaddingIgnored,
    CardSlip::Digits,
    CardSlip::ManySymbols,
    CardSlip::Precedence0,
    CardSlip::Precedence10,
    CardSlip::CutEntry,
];

/// A table, and a term whose operations mostly have signs.
pub fn table_and_term(rng: &mut Rng, terms: usize, written: usize) -> (Vec<u8>, Graph) {
    let (table, graph, _) = table_term_and_signs(rng, terms, written);
    (table, graph)
}

/// With the signs by which its operations were chosen.
fn table_term_and_signs(rng: &mut Rng, terms: usize, written: usize) -> (Vec<u8>, Graph, Signs) {
    let many = match rng.below(10) {
        0 => rng.range(0, 2),
        1 => 64,
        _ => rng.range(2, 7),
    };
    let table = draw_table(rng, many);
    let rule = match rng.below(3) {
        0 => *rng.pick(&LENIENT),
        _ => CardSlip::None,
    };
    let signs = Signs::new(&table, rule);
    let mut operations = signed(&signs);
    if rng.once_in(12) {
        operations.extend([rng.below(many.max(1)), rng.below(64)]);
    }
    // few of them, so that they meet
    while operations.len() > 6 {
        operations.swap_remove(rng.below(operations.len()));
    }
    let style = Style {
        operations,
        terms,
        written,
        marked: rng.range(5, 12),
    };
    let graph = loop {
        let graph = terms::draw(rng, &style);
        if !graph.nodes.is_empty() {
            break graph;
        }
    };
    (table, graph, signs)
}

/// How many further pairs stand round a subterm: mostly none.
pub fn further(rng: &mut Rng) -> impl FnMut() -> usize {
    let rare = rng.range(1, 6);
    move || match rng.once_in(rare) {
        true => rng.range(0, 2),
        false => 0,
    }
}

/// A card of a drawn term, with further brackets or changed or neither; or any text.
pub fn table_and_text(rng: &mut Rng, terms: usize, written: usize) -> (Vec<u8>, Vec<u8>) {
    let (table, graph, signs) = table_term_and_signs(rng, terms, written);
    let plain = write::write(&signs, &graph, 100_000, CardSlip::None);
    let mut text = match plain {
        Ok(_) if rng.once_in(2) => dressed(&signs, &graph, &mut further(rng)).into_bytes(),
        Ok(text) if !rng.once_in(12) => text.into_bytes(),
        _ => texts::any(rng, &signs),
    };
    if rng.once_in(2) {
        for _ in 0..rng.range(1, 2) {
            texts::change(rng, &signs, &mut text);
        }
    }
    (table, text)
}

/// A table and lines of a drawn term, as they are or changed; or any lines.
pub fn table_and_lines(rng: &mut Rng, terms: usize, written: usize) -> (Vec<u8>, Vec<u8>) {
    let (table, graph) = table_and_term(rng, terms, written);
    let mut lines = match rng.below(12) {
        0 => texts::any_lines(rng),
        1..=4 => terms::walked(&graph).into_bytes(),
        _ => terms::lines(&graph).into_bytes(),
    };
    if rng.once_in(2) {
        for _ in 0..rng.range(1, 2) {
            texts::change_lines(rng, &mut lines);
        }
    }
    (table, lines)
}

/// A table for the operations of an image, and a drawn query of it.
fn table_and_frame(rng: &mut Rng, most: usize) -> (Vec<u8>, Vec<u8>) {
    let frame = loop {
        let family = match rng.below(8) {
            0 => "counts",
            1 => "lists",
            _ => r#gen::family(rng, r#gen::FAMILIES.len()),
        };
        let frames = r#gen::frames(rng, family);
        let small = frames.into_iter().find(|frame| frame.len() <= most);
        if let Some(frame) = small {
            break frame;
        }
    };
    let operations = frame.get(6).map_or(0, |count| usize::from(*count).min(64));
    let operations = match rng.below(12) {
        0 => rng.below(operations + 1),
        _ => operations,
    };
    (draw_table(rng, operations), frame)
}

/// An input for a program, of an image of at most so many bytes or a term of at most so many parts;
/// now and then a broken one.
pub fn draw_input(rng: &mut Rng, kind: Kind, most: usize) -> Vec<u8> {
    let (terms, written) = (most / 20, most / 8);
    let (table, mut rest) = match kind {
        Kind::Card => table_and_frame(rng, most),
        Kind::ReadCard => table_and_text(rng, terms, written),
        Kind::Lines => table_and_lines(rng, terms, written),
    };
    if kind == Kind::ReadCard && rng.once_in(2) {
        rest.push(b'\n');
    }
    let mut input = input(&table, &rest);
    match rng.below(60) {
        0 => input.truncate(rng.below(input.len() + 1)),
        1 => input[rng.below(4)] = rng.below(3) as u8,
        2 => input[3] = input[3].wrapping_add(1),
        _ => {}
    }
    input
}
