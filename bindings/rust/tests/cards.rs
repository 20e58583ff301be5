// SPDX-License-Identifier: Apache-2.0
//! Cards: written and read, refused, and what a call leaves in its buffers.

use std::thread::Builder;

use tariff_merge::raw::{
    self, CARD_FRAMES, CARD_MARKS, CARD_RUNS, CARD_TERMS, CardLengths, Returned, STACK,
};
use tariff_merge::{Cards, Formula, Line, Merger, Refusal, Run, SignTable, Unsigned};

const IMAGE: &[u8] = include_bytes!("E.image");

/// Operations 1 to 7: km, wait, *, +, -, max and <, of which the last groups to the right.
fn signs() -> SignTable {
    let table = SignTable::new().sign(1, "km", 9).unwrap();
    let table = table.sign(2, "wait", 9).unwrap();
    let table = table.sign(3, "*", 2).unwrap();
    let table = table.sign(4, "+", 1).unwrap();
    let table = table.sign(5, "-", 1).unwrap();
    let table = table.sign(6, "max", 3).unwrap();
    let table = table.sign(7, "<", 4).unwrap();
    table.groups_right(4).unwrap()
}

/// The paper's formula, with further brackets and without.
#[test]
fn the_papers_formula() {
    let mut cards = Cards::new();
    let formula = cards.read(&signs(), "3#0 * (km[] + wait[])").unwrap();
    let run = |child: usize, count: u64| Run { child, count };
    let over = |operation: u16, children: Vec<Run>| Line::Operation {
        operation,
        children,
    };
    assert_eq!(
        formula.terms,
        [
            Line::Literal {
                operation: 0,
                value: 3
            },
            over(1, vec![]),
            over(2, vec![]),
            over(4, vec![run(1, 1), run(2, 1)]),
            over(3, vec![run(0, 1), run(3, 1)]),
        ]
    );
    let lines = "0 lit 0 3\n1 op 1\n2 op 2\n3 op 4 1:1 2:1\n4 op 3 0:1 3:1\n";
    assert_eq!(formula.bytes(), lines.as_bytes());
    assert_eq!(formula.root(), 4);
    assert_eq!(formula.text(100), "op3(3, op4(op1(), op2()))");
    for text in [
        "3#0 * ((km[] + wait[]))",
        "((3#0) * ((km[]) + wait[]))",
        "(3#0 * (km[] + ((wait[]))))",
    ] {
        assert_eq!(cards.read(&signs(), text).unwrap(), formula);
    }
    let card = cards.write(&signs(), &formula);
    assert_eq!(card.as_deref(), Ok("3#0 * (km[] + wait[])"));
    assert_eq!(formula.card(&signs()), card);
    // without its brackets it is another one
    let other = cards.read(&signs(), "3#0 * km[] + wait[]").unwrap();
    assert_ne!(other, formula);
    assert_eq!(other.text(100), "op4(op3(3, op1()), op2())");
}

#[test]
fn grouping() {
    let mut cards = Cards::new();
    let mut same = |one: &str, other: &str| {
        let [one, other] = [one, other].map(|text| cards.read(&signs(), text).unwrap());
        one == other
    };
    assert!(same("1#0 - 2#0 + 3#0", "(1#0 - 2#0) + 3#0"));
    assert!(!same("1#0 - 2#0 + 3#0", "1#0 - (2#0 + 3#0)"));
    assert!(same("1#0 < 2#0 < 3#0", "1#0 < (2#0 < 3#0)"));
    assert!(!same("1#0 < 2#0 < 3#0", "(1#0 < 2#0) < 3#0"));
    assert!(same(
        "1#0 + 2#0 * 3#0 max 4#0 < 5#0",
        "1#0 + (2#0 * (3#0 max (4#0 < 5#0)))"
    ));
}

/// The merge of image E, on a card.
#[test]
fn a_listing_on_a_card() {
    let listing = Merger::new().merge(IMAGE, 2, 3, 14).unwrap();
    let plus = SignTable::new().sign(1, "+", 5).unwrap();
    assert_eq!(listing.card(&plus).unwrap(), "5#0 + {7#0 | 5#0}");
    assert_eq!(listing.card(&SignTable::new()), Err(Refusal::Sign));
    let formula = listing.formula();
    assert_eq!(formula.terms, listing.terms);
    assert_eq!(formula.left_reading(), listing.left_reading());
    assert_eq!(formula.right_reading(), listing.right_reading());
    let back = Cards::new().read(&plus, "5#0 + ({7#0 | 5#0})").unwrap();
    assert_eq!(back, formula);
    // two equal children: one run of two
    let apart = Merger::new().merge(IMAGE, 3, 3, 14).unwrap();
    assert_eq!(apart.card(&plus).unwrap(), "5#0 + 5#0");
}

#[test]
fn refusals_are_typed() {
    let mut cards = Cards::new();
    for text in [
        "",
        "1",
        "1#0\n",
        " 1#0",
        "01#0",
        "1#64",
        "1#0 +2#0",
        "max[1#0; 2#0]",
        "{1#0}",
        "km",
        "\u{e9}[]",
    ] {
        let read = cards.read(&signs(), text);
        assert_eq!(read, Err(Refusal::Formula), "{text}");
    }
    let nested = |terms: usize| "-[".repeat(terms) + &"]".repeat(terms);
    assert_eq!(cards.read(&signs(), &nested(16_385)), Err(Refusal::Terms));
    assert_eq!(
        cards.read(&signs(), &(nested(16_385) + "]")),
        Err(Refusal::Formula)
    );
    assert_eq!(cards.read(&signs(), &nested(16_384)), Err(Refusal::Output));
    let mut long = Cards::with_output(1 << 20);
    let deep = long.read(&signs(), &nested(16_384)).unwrap();
    assert_eq!(deep.root(), 16_383);
    assert_eq!(cards.write(&signs(), &deep).unwrap(), nested(16_384));
    for (lines, refusal) in [
        ("", Refusal::Formula),
        ("0 op 1\n1 op 1\n", Refusal::Formula),
        ("0 op 1\n1 op 2 0:1 0:1\n", Refusal::Formula),
        ("0 op 1\n1 op 0 0:1\n", Refusal::Sign),
        ("0 op 1\n1 op 0 0:279172874175\n", Refusal::Sign),
        ("0 op 1\n1 op 2 0:279172874175\n", Refusal::Output),
        ("0 op 1\n1 op 2 0:279172874176\n", Refusal::Formula),
    ] {
        let card = cards.write_lines(&signs(), lines.as_bytes());
        assert_eq!(card, Err(refusal), "{lines}");
    }
    let outside = cards.write_lines(&signs(), b"0 op 9\n1 op 1\n");
    assert_eq!(outside.as_deref(), Ok("km[]"));
    let mut short = Cards::with_output(2);
    assert_eq!(
        short.write_lines(&signs(), b"0 lit 0 1\n"),
        Err(Refusal::Output)
    );
    assert_eq!(short.read(&signs(), "1#0"), Err(Refusal::Output));
    assert_eq!(
        Cards::with_output(3)
            .write_lines(&signs(), b"0 lit 0 1\n")
            .as_deref(),
        Ok("1#0")
    );
    assert_eq!(
        [Refusal::Formula.number(), Refusal::Sign.number()],
        [17, 18]
    );
    assert!(Refusal::Formula.to_string().starts_with("refused 17: "));
    assert!(Refusal::Sign.to_string().contains("precedence"));
}

#[test]
fn tables() {
    let table = signs();
    assert_eq!(table.bytes().len(), 9 + 9 * 8);
    assert_eq!(table.bytes()[..9], [0, 0, 0, 1, 0, 0, 0, 0, 0]);
    assert_eq!(table.bytes()[9..18], [0; 9]);
    assert_eq!(table.bytes()[27..36], *b"wait\0\0\0\0\x09");
    assert_eq!(SignTable::from_bytes(table.bytes()), table);
    assert_eq!(SignTable::default(), SignTable::new());
    let none = SignTable::new;
    assert_eq!(none().sign(64, "x", 1), Err(Unsigned::Operation));
    assert!(none().sign(63, "x", 1).is_ok());
    for word in [
        "",
        "=",
        "++",
        "a1",
        "a b",
        "abcdefghi",
        "a+",
        "\u{e9}",
        "a\0",
    ] {
        assert_eq!(none().sign(0, word, 1), Err(Unsigned::Sign), "{word:?}");
    }
    for word in ["+", "-", "*", "/", "<", ">", "a", "Z", "abcdefgh"] {
        assert!(none().sign(0, word, 1).is_ok(), "{word:?}");
    }
    for precedence in [0, 10, 255] {
        assert_eq!(none().sign(0, "x", precedence), Err(Unsigned::Precedence));
        assert_eq!(none().groups_right(precedence), Err(Unsigned::Precedence));
    }
    let x = none().sign(3, "x", 1).unwrap();
    assert_eq!(
        x.clone().sign(5, "x", 2),
        Err(Unsigned::Shared { holder: 3 })
    );
    assert!(x.clone().sign(5, "X", 2).is_ok());
    // another sign in place of the one before
    let y = x.clone().sign(3, "x", 2).unwrap();
    assert_eq!(y, none().sign(3, "x", 2).unwrap());
    assert_ne!(x, y);
    assert!(
        Unsigned::Shared { holder: 3 }
            .to_string()
            .contains("operation 3")
    );
    // what is no proper sign of its own refuses as none would
    let mut shared = none().sign(1, "x", 1).unwrap().bytes().to_vec();
    shared.copy_within(18..27, 9);
    let mut cards = Cards::new();
    let shared = SignTable::from_bytes(shared);
    assert_eq!(cards.write_lines(&shared, b"0 op 1\n"), Err(Refusal::Sign));
    assert_eq!(cards.read(&shared, "x[]"), Err(Refusal::Formula));
    assert!(cards.read(&SignTable::from_bytes([]), "1#0").is_ok());
}

/// A stored input and its answer.
struct Stored {
    kind: u8,
    table: Vec<u8>,
    rest: Vec<u8>,
    answer: Vec<u8>,
}

/// The stored cards whose inputs have a table.
fn stored() -> Vec<Stored> {
    let mut rest = &include_bytes!("../../../oracle/sample/cards.bin")[..];
    let mut record = || {
        let (length, tail) = rest.split_first_chunk::<4>()?;
        let (record, after) = tail.split_at(u32::from_be_bytes(*length) as usize);
        rest = after;
        Some(record.to_vec())
    };
    let mut found = Vec::new();
    while let (Some(input), Some(answer)) = (record(), record()) {
        let (kind, input) = input.split_first().unwrap();
        let table = input
            .split_first_chunk::<4>()
            .and_then(|(length, tail)| tail.split_at_checked(u32::from_be_bytes(*length) as usize));
        match table {
            Some((table, rest)) => found.push(Stored {
                kind: *kind,
                table: table.to_vec(),
                rest: rest.to_vec(),
                answer,
            }),
            None => assert_eq!(answer, b"refused 2\n"),
        }
    }
    found
}

fn refused(refusal: Refusal) -> String {
    format!("refused {}\n", refusal.number())
}

/// What program `card` prints: the merge, and then the card.
fn merged(merger: &mut Merger, cards: &mut Cards, table: &SignTable, frame: &[u8]) -> String {
    let Some((image, &[a, b, c, d, e, f, g, h])) = frame.split_last_chunk::<8>() else {
        return refused(Refusal::Length);
    };
    let (left, right) = (u16::from_be_bytes([a, b]), u16::from_be_bytes([c, d]));
    let budget = u32::from_be_bytes([e, f, g, h]);
    let listing = merger.merge(image, left, right, budget);
    let card = listing.and_then(|listing| cards.write(table, &listing.formula()));
    card.map_or_else(refused, |card| card + "\n")
}

#[test]
fn stored_answers() {
    // a card may be short where its listing is long
    let (mut merger, mut cards) = (Merger::with_output(1 << 20), Cards::new());
    let mut met = [0; 3];
    for (at, one) in stored().into_iter().enumerate() {
        let table = SignTable::from_bytes(one.table);
        let printed = match one.kind {
            0 => merged(&mut merger, &mut cards, &table, &one.rest),
            1 => {
                let text = one.rest.strip_suffix(b"\n").unwrap_or(&one.rest);
                // no formula has other bytes than ASCII ones
                let text = String::from_utf8_lossy(text);
                let read = cards.read(&table, &text);
                let lines = |formula: Formula| String::from_utf8(formula.bytes().to_vec()).unwrap();
                read.map_or_else(refused, lines)
            }
            2 => {
                let card = cards.write_lines(&table, &one.rest);
                card.map_or_else(refused, |card| card + "\n")
            }
            kind => panic!("kind {kind}"),
        };
        assert!(printed.as_bytes() == one.answer, "stored card {at}");
        met[usize::from(one.kind)] += 1;
    }
    assert!(met.iter().all(|met| *met > 60), "{met:?}");
}

const GARBAGE: u8 = 0xa5;

/// Buffers of any lengths with garbage in them; what a call returned, and the buffers afterwards.
struct Called {
    returned: Returned,
    frames: Vec<u64>,
    marks: Vec<u16>,
    terms: Vec<u32>,
    runs: Vec<u64>,
    out: Vec<u8>,
}

impl Called {
    /// With the lengths of frames, marks, terms, runs and output.
    fn new(call: raw::CardCall, table: &[u8], text: &[u8], lengths: [usize; 5]) -> Called {
        let mut called = Called {
            returned: Returned {
                number: 0,
                bytes: 0,
                class: 0,
            },
            frames: vec![0xa5a5_a5a5_a5a5_a5a5; lengths[0]],
            marks: vec![0xa5a5; lengths[1]],
            terms: vec![0xa5a5_a5a5; lengths[2]],
            runs: vec![0xa5a5_a5a5_a5a5_a5a5; lengths[3]],
            out: vec![GARBAGE; lengths[4]],
        };
        // SAFETY: each pointer and length is a slice's own, and no two overlap; the tests that call
        // this have terms of a few levels, for which a test's thread has enough stack.
        called.returned = unsafe {
            call(
                table.as_ptr(),
                table.len(),
                text.as_ptr(),
                text.len(),
                called.frames.as_mut_ptr(),
                called.frames.len(),
                called.marks.as_mut_ptr(),
                called.marks.len(),
                called.terms.as_mut_ptr(),
                called.terms.len(),
                called.runs.as_mut_ptr(),
                called.runs.len(),
                called.out.as_mut_ptr(),
                called.out.len(),
            )
        };
        called
    }

    /// Whether it returned this number with this text, and left the buffers as promised.
    fn holds(&self, number: u32, text: &[u8]) -> bool {
        let (two, four, eight) = match number {
            1 => (0xa5a5, 0xa5a5_a5a5, 0xa5a5_a5a5_a5a5_a5a5),
            _ => (0, 0, 0),
        };
        let (written, rest) = self.out.split_at(text.len());
        let returned = Returned {
            number,
            bytes: text.len(),
            class: 0,
        };
        self.returned == returned
            && written == text
            && rest.iter().all(|byte| *byte == GARBAGE)
            && self.frames.iter().all(|x| *x == eight)
            && self.marks.iter().all(|x| *x == two)
            && self.terms.iter().all(|x| *x == four)
            && self.runs.iter().all(|x| *x == eight)
    }
}

/// The lengths of the work buffers by their numbers, as the library has them: 1 with one less of any, where
/// a card is read with one frame less than the text has bytes; every buffer zero afterwards, or as it was after 1; the
/// output untouched by a refusal and past the text.
#[test]
fn lengths_and_buffers() {
    let lengths = CardLengths {
        marks: 32_768,
        terms: 66_562,
        runs: 65_536,
    };
    assert_eq!(raw::tariff_card_lengths(), lengths);
    assert_eq!(
        [CARD_FRAMES, CARD_MARKS, CARD_TERMS, CARD_RUNS],
        [65_536, 32_768, 66_562, 65_536]
    );
    let table = signs();
    let lines = b"0 lit 0 3\n1 op 1\n2 op 2\n3 op 4 1:1 2:1\n4 op 3 0:1 3:1\n";
    let card = b"3#0 * (km[] + wait[])";
    let calls: [(raw::CardCall, &[u8], &[u8], &[(&[u8], u32)]); 2] = [
        (
            raw::tariff_card,
            lines,
            card,
            &[(b"0 op 0\n", 18), (b"0 op 0\n1 op 0\n", 17), (b"", 17)],
        ),
        (
            raw::tariff_read_card,
            card,
            lines,
            &[(b"3#0 * ", 17), (b"", 17), (b"((((((((", 17)],
        ),
    ];
    for (call, text, answer, refusals) in calls {
        let reads = answer == lines;
        let frames = |text: &[u8]| if reads { text.len() } else { 65_536 };
        let least = [frames(text), 32_768, 66_562, 65_536, 200];
        for more in [0, 1, 5] {
            let mut lengths = least.map(|length| length + more);
            let called = Called::new(call, table.bytes(), text, lengths);
            assert!(called.holds(0, answer), "{:?}", called.returned);
            lengths[4] = answer.len();
            let called = Called::new(call, table.bytes(), text, lengths);
            assert!(called.holds(0, answer), "{:?}", called.returned);
            for room in [0, answer.len() - 1] {
                lengths[4] = room;
                let called = Called::new(call, table.bytes(), text, lengths);
                assert!(called.holds(14, b""), "{:?}", called.returned);
            }
        }
        for short in 0..4 {
            let mut lengths = least;
            lengths[short] -= 1;
            let called = Called::new(call, table.bytes(), text, lengths);
            assert!(called.holds(1, b""), "{short}: {:?}", called.returned);
            // 1 comes before all others
            for (broken, _) in refusals.iter().filter(|one| !one.0.is_empty()) {
                let mut lengths = [frames(broken), 32_768, 66_562, 65_536, 0];
                lengths[short] -= 1;
                let called = Called::new(call, table.bytes(), broken, lengths);
                assert!(called.holds(1, b""), "{short}: {:?}", called.returned);
            }
        }
        for (broken, number) in refusals {
            for room in [0, 200] {
                let lengths = [frames(broken), 32_768, 66_562, 65_536, room];
                let called = Called::new(call, table.bytes(), broken, lengths);
                assert!(called.holds(*number, b""), "{:?}", called.returned);
            }
        }
        let called = Called::new(call, table.bytes(), text, [0; 5]);
        assert!(called.holds(1, b""));
    }
}

/// A caller's thread may be as small as it likes.
#[test]
fn deep_formulas_from_small_threads() {
    let small = || {
        let mut cards = Cards::with_output(1 << 20);
        let table = signs();
        for (from, to) in [
            ("-[", "]"),
            ("(", ")"),
            ("{1#0 | ", "}"),
            ("1#0 < ", ""),
            ("1#0 + (", ")"),
        ] {
            let text = from.repeat(16_000) + "2#0" + &to.repeat(16_000);
            let formula = cards.read(&table, &text).unwrap();
            let card = cards.write(&table, &formula).unwrap();
            if from == "(" {
                assert_eq!(card, "2#0");
            } else {
                // the innermost brackets are further ones
                assert!(card == text.replace("(2#0)", "2#0"), "{from}");
                assert_eq!(cards.read(&table, &card).unwrap(), formula);
            }
        }
    };
    let threads = [0, 1].map(|_| Builder::new().stack_size(128 << 10).spawn(small).unwrap());
    for thread in threads {
        thread.join().unwrap();
    }
    const { assert!(STACK >= 6 << 20) };
}

#[test]
fn buffers_are_kept_between_calls() {
    let mut cards = Cards::new();
    let table = signs();
    for turn in 0..300 {
        let text = format!("{turn}#0 * (km[] + {}#1)", turn * turn);
        let formula = cards.read(&table, &text).unwrap();
        assert_eq!(cards.write(&table, &formula).unwrap(), text);
        assert_eq!(cards.read(&table, "km[] +"), Err(Refusal::Formula));
    }
    let moved = std::thread::spawn(move || cards.read(&signs(), "km[]").unwrap());
    assert_eq!(moved.join().unwrap().text(9), "op1()");
}
