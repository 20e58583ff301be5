// SPDX-License-Identifier: Apache-2.0
//! Drawn cards through the safe interface, against the model.

use bench::cards::{Way, expected};
use bench::stack::measured;
use harness::cards::draw::{further, table_and_lines, table_and_term, table_and_text};
use harness::cards::terms::{dressed, lines, walked};
use harness::cards::with::answer;
use harness::cards::{Kind, draw::draw_table, input};
use harness::draw;
use harness::rng::Rng;
use model::card::signs::Signs;
use model::card_slip::CardSlip;
use tariff_merge::{Cards, Merger, Refusal, SignTable};

fn number(refusal: Refusal) -> u32 {
    refusal.number().into()
}

/// Written, read back, and read with further brackets.
#[test]
fn drawn_terms() {
    let (mut rng, mut cards) = (Rng::new(21), Cards::new());
    let mut met = [0; 2];
    for _ in 0..3_000 {
        let (bytes, graph) = table_and_term(&mut rng, 30, 60);
        let table = SignTable::from_bytes(&bytes[..]);
        let text = lines(&graph);
        let card = cards.write_lines(&table, text.as_bytes());
        let model = expected(Way::Write, &bytes, text.as_bytes(), Cards::OUTPUT);
        assert_eq!(card.clone().map_err(number), model, "{text}");
        let Ok(card) = card else {
            met[1] += 1;
            continue;
        };
        let formula = cards.read(&table, &card).unwrap();
        assert_eq!(formula.bytes(), walked(&graph).as_bytes(), "{card}");
        assert_eq!(cards.write(&table, &formula).unwrap(), card);
        let signs = Signs::new(&bytes, CardSlip::None);
        let more = dressed(&signs, &graph, &mut further(&mut rng));
        assert_eq!(cards.read(&table, &more).unwrap(), formula, "{more}");
        met[0] += 1;
    }
    assert!(met[0] > 2_500 && met[1] > 50, "{met:?}");
}

#[test]
fn drawn_texts_and_lines() {
    let (mut rng, mut cards) = (Rng::new(22), Cards::new());
    let mut met = [0; 4];
    for _ in 0..3_000 {
        let (bytes, text) = table_and_text(&mut rng, 20, 40);
        let table = SignTable::from_bytes(&bytes[..]);
        // a text for a card is one of Rust; the library is asked for others by the fuzz
        let text = String::from_utf8_lossy(&text);
        let read = cards.read(&table, &text);
        let read = read.map(|formula| String::from_utf8(formula.bytes().to_vec()).unwrap());
        let model = expected(Way::Read, &bytes, text.as_bytes(), Cards::OUTPUT);
        met[usize::from(read.is_ok())] += 1;
        assert_eq!(read.map_err(number), model, "{text}");
        let (bytes, lines) = table_and_lines(&mut rng, 20, 40);
        let table = SignTable::from_bytes(&bytes[..]);
        let card = cards.write_lines(&table, &lines);
        let model = expected(Way::Write, &bytes, &lines, Cards::OUTPUT);
        met[2 + usize::from(card.is_ok())] += 1;
        assert_eq!(card.map_err(number), model);
    }
    assert!(met.iter().all(|met| *met > 1_000), "{met:?}");
}

/// Merges of drawn images, on cards under drawn tables: what program `card` prints.
#[test]
fn drawn_merges() {
    let (mut rng, mut cards) = (Rng::new(23), Cards::new());
    let mut merger = Merger::with_output(1 << 20);
    let mut met = [0; 2];
    for frame in draw(24, 1_500, None) {
        let operations = frame.get(6).map_or(0, |count| usize::from(*count).min(64));
        let bytes = draw_table(&mut rng, operations);
        let whole = input(&bytes, &frame);
        let Some((image, &[a, b, c, d, e, f, g, h])) = frame.split_last_chunk::<8>() else {
            continue;
        };
        if whole.len() > 65_536 {
            continue;
        }
        let (left, right) = (u16::from_be_bytes([a, b]), u16::from_be_bytes([c, d]));
        let listing = merger.merge(image, left, right, u32::from_be_bytes([e, f, g, h]));
        let table = SignTable::from_bytes(bytes);
        let card = listing.and_then(|listing| cards.write(&table, &listing.formula()));
        met[usize::from(card.is_ok())] += 1;
        let printed = match card {
            Ok(card) => card + "\n",
            Err(refusal) => format!("refused {}\n", refusal.number()),
        };
        assert_eq!(printed, answer(Kind::Card, &whole, CardSlip::None));
    }
    assert!(met[0] > 200 && met[1] > 500, "{met:?}");
}

/// The measure of the stack sees what is used.
#[test]
fn measured_stack() {
    fn deep(levels: usize) -> usize {
        let here = std::hint::black_box([levels; 100]);
        match levels {
            0 => here[9],
            _ => deep(levels - 1) + here[levels % 100],
        }
    }
    let mut said = 0;
    let few = measured(1 << 20, &mut || said = deep(10));
    assert_eq!(said, 55);
    let more = measured(1 << 20, &mut || said = deep(110));
    assert!(few < 40_000 && more >= few + 80_000, "{few} {more}");
}
