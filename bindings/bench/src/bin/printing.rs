// SPDX-License-Identifier: Apache-2.0
//! What a card costs, written and read: the library and the model on the same cards, and how much stack the library needs.
//!
//! Each time is the least of several passes, in microseconds a call, from lines to card or from card to lines. The library's
//! is with all work buffers cleared, about 0.9 MB, and 0.5 MB more to write, or 8 bytes for each byte of a text to read. The stack is that of one call
//! (`bench::stack`), of the family's largest.

use std::hint::black_box;
use std::time::{Duration, Instant};

use bench::cards::{Card, Way, deepest, expected, longest, signs};
use bench::stack::measured;
use harness::cards::draw::table_and_text;
use harness::rng::Rng;
use tariff_merge::raw::{CardWork, Returned, STACK};

const OUTPUT: usize = 1 << 20;

struct Family {
    name: &'static str,
    cards: Vec<Card>,
}

/// Small cards under drawn tables.
fn drawn(count: usize) -> Vec<Card> {
    let mut rng = Rng::new(7);
    let mut found = Vec::new();
    while found.len() < count {
        let (table, text) = table_and_text(&mut rng, 20, 30);
        let text = String::from_utf8_lossy(&text).into_owned();
        if let Ok(lines) = expected(Way::Read, &table, text.as_bytes(), OUTPUT)
            && let Ok(text) = expected(Way::Write, &table, lines.as_bytes(), OUTPUT)
        {
            let name = "drawn";
            found.push(Card {
                name,
                table,
                text,
                lines,
            });
        }
    }
    found
}

fn families() -> Vec<Family> {
    let paper = {
        let text = "0#0 < (0#0 + 0#0)".to_string();
        let lines = expected(Way::Read, &signs(), text.as_bytes(), OUTPUT);
        Card {
            name: "three literals",
            table: signs(),
            text,
            lines: lines.expect("a formula"),
        }
    };
    let alone = |card: Card| Family {
        name: card.name,
        cards: vec![card],
    };
    let mut found = vec![
        alone(paper),
        Family {
            name: "drawn cards",
            cards: drawn(200),
        },
    ];
    found.extend(longest().into_iter().chain(deepest()).map(alone));
    found
}

/// The call in these buffers.
fn call(work: &mut CardWork, way: Way, card: &Card) -> Returned {
    // SAFETY: `main` runs this on a thread with 64 MiB of stack, and `measured` on one of 32 MiB.
    unsafe {
        match way {
            Way::Write => work.card(&card.table, card.lines.as_bytes()),
            Way::Read => work.read_card(&card.table, card.text.as_bytes()),
        }
    }
}

fn given(way: Way, card: &Card) -> &[u8] {
    match way {
        Way::Write => card.lines.as_bytes(),
        Way::Read => card.text.as_bytes(),
    }
}

fn least(mut pass: impl FnMut()) -> Duration {
    let mut once = || {
        let start = Instant::now();
        pass();
        start.elapsed()
    };
    let passes = (100_000_000 / (once().as_nanos() + 1)).clamp(3, 1_000);
    (0..passes).map(|_| once()).min().expect("a pass")
}

/// Microseconds a call of the library and of the model, and the most stack of the library.
fn measure(family: &Family, work: &mut CardWork, way: Way) -> (f64, f64, usize) {
    let mut stack = 0;
    for card in &family.cards {
        let expected = expected(way, &card.table, given(way, card), OUTPUT);
        let mut returned = None;
        let used = measured(32 << 20, &mut || returned = Some(call(work, way, card)));
        let returned = returned.expect("a call");
        let written = &work.output()[..returned.bytes];
        let answer = String::from_utf8_lossy(written).into_owned();
        assert_eq!(returned.number, 0, "{}", card.name);
        assert!(Ok(answer) == expected, "{}: the answers differ", card.name);
        stack = stack.max(used);
    }
    let each = |time: Duration| time.as_secs_f64() * 1e6 / family.cards.len() as f64;
    let library = least(|| {
        for card in &family.cards {
            black_box(call(work, way, black_box(card)));
        }
    });
    let model = least(|| {
        for card in &family.cards {
            let _ = black_box(expected(way, &card.table, given(way, card), OUTPUT));
        }
    });
    (each(library), each(model), stack)
}

fn printing() {
    println!(
        "| Cards | Bytes of lines | Bytes of card | written: library | model | stack | read: library | model | stack |"
    );
    println!("|---|---|---|---|---|---|---|---|---|");
    let mut work = CardWork::new(OUTPUT);
    let mut most = 0;
    for family in families() {
        let bytes = |of: fn(&Card) -> &String| -> usize {
            let all: usize = family.cards.iter().map(|card| of(card).len()).sum();
            all / family.cards.len()
        };
        let (lines, text) = (bytes(|card| &card.lines), bytes(|card| &card.text));
        let (write, write_model, write_stack) = measure(&family, &mut work, Way::Write);
        let (read, read_model, read_stack) = measure(&family, &mut work, Way::Read);
        println!(
            "| {} | {lines} | {text} | {write:.1} | {write_model:.1} | {write_stack} | {read:.1} | {read_model:.1} | {read_stack} |",
            family.name
        );
        most = most.max(write_stack).max(read_stack);
    }
    println!(
        "microseconds a call, bytes of stack; {most} bytes of stack at most, of {STACK} that are asked"
    );
    assert!(most <= STACK);
}

fn main() {
    let thread = std::thread::Builder::new()
        .stack_size(64 << 20)
        .spawn(printing);
    thread.expect("a thread").join().expect("the times");
}
