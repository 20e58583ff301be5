// SPDX-License-Identifier: Apache-2.0
//! What is asked of the model's cards (02, Paper 1): with themselves, with a second writer, and with
//! the grammar taken literally.

use std::rc::Rc;

use harness::cards::draw::{
    further, padded, table, table_and_lines, table_and_term, table_and_text, table_of,
};
use harness::cards::grammar::{Tree, derivations};
use harness::cards::terms::{dressed, enter, joined, lines, walked};
use harness::cards::texts::places;
use harness::cards::{self, Kind, sample, with};
use harness::rng::Rng;
use model::card::signs::Signs;
use model::card::{Graph, read, write};
use model::card_slip::CardSlip;
use model::image::Refusal;
use model::term::{Head, Runs};

const NONE: CardSlip = CardSlip::None;

fn written(signs: &Signs, graph: &Graph) -> Result<String, Refusal> {
    write::write(signs, graph, 100_000, NONE)
}

/// The lines of a text's term, or the refusal.
fn read_back(signs: &Signs, text: &[u8]) -> Result<String, Refusal> {
    read::read(signs, text, NONE).map(|graph| lines(&graph))
}

/// The bracket that shuts the one at a place.
fn partner(text: &[u8], open: usize) -> usize {
    let mut depth = 0;
    for (at, byte) in text.iter().enumerate().skip(open) {
        match byte {
            b'(' => depth += 1,
            b')' => depth -= 1,
            _ => {}
        }
        if depth == 0 {
            return at;
        }
    }
    unreachable!("a card's brackets are paired")
}

fn without(text: &[u8], one: usize, other: usize) -> Vec<u8> {
    let mut text = text.to_vec();
    text.remove(one.max(other));
    text.remove(one.min(other));
    text
}

/// "Reading a written card yields the same term, and leaving out any one bracket pair yields another
/// term or none"; "further brackets round any subterm allowed".
#[test]
fn drawn_terms_and_back() {
    let count = if cfg!(debug_assertions) {
        4_000
    } else {
        100_000
    };
    let mut rng = Rng::new(1);
    let mut met = [0; 6];
    for _ in 0..count {
        let (terms, most) = *rng.pick(&[(8, 12), (20, 40), (60, 150)]);
        let (bytes, graph) = table_and_term(&mut rng, terms, most);
        let signs = Signs::new(&bytes, NONE);
        let text = match written(&signs, &graph) {
            Ok(text) => text,
            Err(refusal) => {
                assert_eq!(refusal, Refusal(18));
                met[5] += 1;
                continue;
            }
        };
        let back = Ok(walked(&graph));
        assert_eq!(read_back(&signs, text.as_bytes()), back, "{text}");
        assert_eq!(dressed(&signs, &graph, &mut || 0), text);
        assert_eq!(
            write::write(&signs, &graph, text.len(), NONE),
            Ok(text.clone())
        );
        let short = write::write(&signs, &graph, text.len() - 1, NONE);
        assert_eq!(short, Err(Refusal(14)));
        let more = dressed(&signs, &graph, &mut further(&mut rng));
        assert_eq!(read_back(&signs, more.as_bytes()), back, "{more}");
        met[0] += 1;
        met[1] += usize::from(more != text);
        let opens = places(text.as_bytes(), b'(');
        met[2] += usize::from(!opens.is_empty());
        for open in opens {
            let less = without(text.as_bytes(), open, partner(text.as_bytes(), open));
            let read = read_back(&signs, &less);
            assert!(read != back, "{text}");
            met[3] += 1;
            met[4] += usize::from(read.is_err());
        }
    }
    println!(
        "{count} terms: {} written and read back, {} with further brackets, {} with brackets, {} pairs left out, {} of them no \
         formula; {} refused by 18",
        met[0], met[1], met[2], met[3], met[4], met[5]
    );
    assert!(
        met[0] > count * 8 / 10 && met[1] > count / 3 && met[2] > count / 5,
        "{met:?}"
    );
}

/// A shape of a term: its leaves are told apart by their values.
#[derive(Clone)]
enum Shape {
    Leaf,
    Two(usize, Box<[Shape; 2]>),
    One(usize, Box<Shape>),
    Marked(Box<[Shape; 2]>),
}

/// All shapes of so many leaves over three operations; with lists of one and marked places where `all`.
fn shapes(leaves: usize, all: bool) -> Vec<Shape> {
    if leaves == 1 {
        return vec![Shape::Leaf];
    }
    let mut found = Vec::new();
    for left in 1..leaves {
        for one in shapes(left, all) {
            for other in shapes(leaves - left, all) {
                let both = Box::new([one.clone(), other]);
                for operation in 0..3 {
                    let two = Shape::Two(operation, both.clone());
                    if all {
                        found.push(Shape::One(0, Box::new(two.clone())));
                    }
                    found.push(two);
                }
                if all {
                    found.push(Shape::Marked(both));
                }
            }
        }
    }
    found
}

fn build(shape: &Shape, graph: &mut Graph, leaves: &mut u32) -> usize {
    match shape {
        Shape::Leaf => {
            *leaves += 1;
            enter(graph, Head::Literal(0, *leaves), Vec::new())
        }
        Shape::Two(operation, both) => {
            let children = both.each_ref().map(|child| build(child, graph, leaves));
            enter(graph, Head::Operation(*operation), joined(children))
        }
        Shape::One(operation, child) => {
            let child = build(child, graph, leaves);
            enter(graph, Head::Operation(*operation), joined([child]))
        }
        Shape::Marked(both) => {
            let children = both.each_ref().map(|child| build(child, graph, leaves));
            enter(graph, Head::Variants, joined(children))
        }
    }
}

/// The term with a pair of brackets exactly round the subterms that the bits name, in the order in
/// which they begin; leaves have none where they are not `counted`.
struct Bracketing<'a> {
    graph: &'a Graph,
    words: [&'a str; 3],
    bits: u32,
    counted: bool,
    next: u32,
}

impl Bracketing<'_> {
    fn text(&mut self, term: usize) -> String {
        let (head, runs) = &self.graph.nodes[term];
        let mut mine = false;
        if self.counted || !runs.is_empty() {
            mine = self.bits >> self.next & 1 == 1;
            self.next += 1;
        }
        let parts: Vec<String> = runs.iter().map(|run| self.text(run.0)).collect();
        let text = match head {
            Head::Literal(operation, value) => format!("{value}#{operation}"),
            Head::Variants => format!("{{{}}}", parts.join(" | ")),
            Head::Operation(operation) if parts.len() == 2 => {
                parts.join(&format!(" {} ", self.words[*operation]))
            }
            Head::Operation(operation) => {
                format!("{}[{}]", self.words[*operation], parts.join("; "))
            }
        };
        if mine { format!("({text})") } else { text }
    }
}

/// Small trees exhaustively: the written text has one derivation, of its tree; no bracketing of the
/// tree that is a formula of it has fewer pairs; leaving out any opening with any closing bracket
/// gives another term or none, and a pair never none. Every bracketing is judged alike by the reader
/// and by the grammar.
#[test]
fn small_trees_exhaustively() {
    let (mut trees, mut texts, mut left_out) = (0, 0, 0);
    for (most, all) in [(4, false), (3, true)] {
        if cfg!(debug_assertions) && most == 4 {
            continue;
        }
        for pattern in 0..32u8 {
            // brackets round leaves: in some patterns
            let counted = all && pattern % 5 == 0;
            let precedence = |at: u8| 4 + (pattern >> at & 1);
            let right: Vec<u8> = [4, 5]
                .into_iter()
                .filter(|p| pattern >> (p - 1) & 1 == 1)
                .collect();
            let words = ["+", "-", "x"];
            let entries = [0, 1, 2].map(|at| (words[usize::from(at)], precedence(at)));
            let bytes = table_of(&entries, &right);
            let signs = Signs::new(&bytes, NONE);
            for shape in (1..=most).flat_map(|leaves| shapes(leaves, all)) {
                let mut graph = Graph::default();
                build(&shape, &mut graph, &mut 0);
                let tree = Tree::of(&graph);
                let text = written(&signs, &graph).unwrap();
                assert_eq!(
                    derivations(&signs, text.as_bytes()),
                    [tree.clone()],
                    "{text}"
                );
                let pairs = places(text.as_bytes(), b'(').len();
                let back = walked(&graph);
                let counts = |node: &&(Head, Runs)| counted || !node.1.is_empty();
                let subterms = graph.nodes.iter().filter(counts).count();
                for bits in 0..1 << subterms {
                    let mut bracketing = Bracketing {
                        graph: &graph,
                        words,
                        bits,
                        counted,
                        next: 0,
                    };
                    let other = bracketing.text(graph.nodes.len() - 1);
                    let found = derivations(&signs, other.as_bytes());
                    assert_eq!(found.len(), 1, "{other}");
                    let read = read::read(&signs, other.as_bytes(), NONE).unwrap();
                    assert_eq!(Tree::of(&read), found[0], "{other}");
                    let mine = found[0] == tree;
                    assert_eq!(mine, lines(&read) == back, "{other}");
                    assert!(
                        !mine || bits.count_ones() as usize >= pairs,
                        "{other}: {text}"
                    );
                    texts += 1;
                }
                for open in places(text.as_bytes(), b'(') {
                    for shut in places(text.as_bytes(), b')') {
                        let less = without(text.as_bytes(), open, shut);
                        let read = read_back(&signs, &less);
                        assert!(read.as_ref() != Ok(&back), "{text}");
                        let pair = partner(text.as_bytes(), open) == shut;
                        assert!(!pair || read.is_ok(), "{text}");
                        left_out += usize::from(pair);
                    }
                }
                trees += 1;
            }
        }
    }
    println!("{trees} trees, {texts} bracketings, {left_out} pairs left out");
}

/// Every text of a few marks: the reader and the grammar say the same.
#[test]
fn every_text_of_a_few_marks() {
    let bytes = table_of(&[("+", 2), ("*", 3), ("s", 2)], &[3]);
    let signs = Signs::new(&bytes, NONE);
    let alphabets: [(&[&str], usize); 3] = [
        (&["1#0", " + ", " * ", "(", ")"], 7),
        (&["1#0", "s[", "]", "; ", "{", "}", " | ", "(", ")"], 6),
        (&["1", "#", "0", " ", "+", "s", "[", "]"], 5),
    ];
    let (mut texts, mut formulas) = (0, 0);
    for (marks, most) in alphabets {
        let most = if cfg!(debug_assertions) {
            most - 2
        } else {
            most
        };
        let mut words: Vec<Vec<u8>> = vec![Vec::new()];
        for _ in 0..=most {
            for word in &words {
                let found = derivations(&signs, word);
                let read = read::read(&signs, word, NONE);
                let said = String::from_utf8_lossy(word);
                match &found[..] {
                    [] => assert_eq!(read.map(|_| ()), Err(Refusal(17)), "{said}"),
                    [tree] => assert_eq!(&Tree::of(&read.unwrap()), tree, "{said}"),
                    _ => panic!("{said} has several derivations"),
                }
                texts += 1;
                formulas += found.len();
            }
            let longer = words
                .iter()
                .flat_map(|word| marks.iter().map(|mark| [word, mark.as_bytes()].concat()));
            words = longer.collect();
        }
    }
    println!("{texts} texts, {formulas} formulas");
    assert!(formulas > 90 || cfg!(debug_assertions), "{formulas}");
}

/// Drawn texts, most of them changed: the reader and the grammar say the same.
#[test]
fn changed_texts_by_the_grammar() {
    let count = if cfg!(debug_assertions) {
        1_000
    } else {
        20_000
    };
    let mut rng = Rng::new(3);
    let (mut formulas, mut judged) = (0, 0);
    while judged < count {
        let (bytes, text) = table_and_text(&mut rng, 14, 14);
        if text.len() > 100 {
            continue;
        }
        let signs = Signs::new(&bytes, NONE);
        let found = derivations(&signs, &text);
        let read = read::read(&signs, &text, NONE);
        let said = String::from_utf8_lossy(&text);
        match &found[..] {
            [] => assert_eq!(read.map(|_| ()), Err(Refusal(17)), "{said}"),
            [tree] => assert_eq!(&Tree::of(&read.unwrap()), tree, "{said}"),
            _ => panic!("{said} has several derivations"),
        }
        formulas += found.len();
        judged += 1;
    }
    println!("{judged} texts, {formulas} formulas");
    assert!(
        formulas > count / 3 && formulas < count * 9 / 10,
        "{formulas}"
    );
}

/// A formula's lines are read, and written as it is with the fewest brackets; lines that are read are
/// those of a term that is written and read back.
#[test]
fn drawn_lines() {
    let count = if cfg!(debug_assertions) {
        4_000
    } else {
        60_000
    };
    let mut rng = Rng::new(4);
    let mut met = [0; 4];
    for _ in 0..count {
        let (bytes, text) = table_and_lines(&mut rng, 10, 30);
        let signs = Signs::new(&bytes, NONE);
        let graph = match model::card::lines::read(&text, NONE) {
            Ok(graph) => graph,
            Err(refusal) => {
                assert_eq!(refusal, Refusal(17));
                met[0] += 1;
                continue;
            }
        };
        assert_eq!(lines(&graph).as_bytes(), text);
        match write::write(&signs, &graph, 100, NONE) {
            Ok(card) => {
                assert_eq!(read_back(&signs, card.as_bytes()), Ok(walked(&graph)));
                met[3] += 1;
            }
            Err(Refusal(18)) => met[1] += 1,
            Err(refusal) => {
                assert_eq!(refusal, Refusal(14));
                met[2] += 1;
            }
        }
    }
    println!("17, 18, 14, a card: {met:?}");
    assert!(met.iter().all(|met| *met > count / 100), "{met:?}");
}

/// The paper's example, and the edges of its rules.
#[test]
fn edges() {
    let entries = [
        ("x", 9),
        ("*", 2),
        ("+", 1),
        ("km", 9),
        ("wait", 9),
        ("-", 1),
        ("max", 3),
        ("<", 4),
    ];
    let bytes = table_of(&entries, &[4]);
    let signs = Signs::new(&bytes, NONE);
    // texts as they are written
    for text in [
        "3#0 * (km[] + wait[])",
        "3#0 * km[] + wait[]",
        "1#0 - 2#0 + 3#0",
        "1#0 - (2#0 + 3#0)",
        "1#0 < 2#0 < 3#0",
        "(1#0 < 2#0) < 3#0",
        "km[] km km[]",
        "km[] max km[] * 2#0",
        "max[1#0 + 2#0; 3#0; 4#0]",
        "max[{1#0 + 2#0 | 3#0}]",
        "{1#0 | 1#0} + {1#0 | 1#0}",
        "-[1#0]",
        "-[-[]] - -[]",
        "4294967295#63",
        "0#0",
        "max[1#0; 1#0; 1#0]",
        "(1#0 + 1#0) * (1#0 + 1#0)",
    ] {
        let graph = read::read(&signs, text.as_bytes(), NONE).unwrap_or_else(|_| panic!("{text}"));
        assert_eq!(written(&signs, &graph).unwrap(), text);
        let tree = Tree::of(&graph);
        assert_eq!(derivations(&signs, text.as_bytes()), [tree]);
    }
    // formulas with further brackets, and what is written
    for (text, card) in [
        ("(1#0)", "1#0"),
        ("((1#0 + 2#0)) + (3#0)", "1#0 + 2#0 + 3#0"),
        ("max[(1#0); (2#0); ((3#0))]", "max[1#0; 2#0; 3#0]"),
        ("{(1#0) | (2#0 + 3#0)}", "{1#0 | 2#0 + 3#0}"),
        ("(({1#0 | 2#0}))", "{1#0 | 2#0}"),
        ("1#0 < (2#0 < 3#0)", "1#0 < 2#0 < 3#0"),
    ] {
        let graph = read::read(&signs, text.as_bytes(), NONE).unwrap();
        assert_eq!(written(&signs, &graph).unwrap(), card);
    }
    for text in [
        "",
        " ",
        "1",
        "1#",
        "#0",
        "01#0",
        "1#00",
        "1#64",
        "4294967296#0",
        "99999999999999999999#0",
        "-1#0",
        "+1#0",
        " 1#0",
        "1#0 ",
        "1#0\n",
        "1#0+2#0",
        "1#0 +2#0",
        "1#0+ 2#0",
        "1#0  + 2#0",
        "1#0 + ",
        " + 1#0",
        "1#0 1#0",
        "1#0 % 2#0",
        "km",
        "km[",
        "km]",
        "km[ ]",
        "km []",
        "KM[]",
        "k[]",
        "kmx[]",
        "max[1#0; 2#0]",
        "max[1#0;2#0;3#0]",
        "max[1#0, 2#0, 3#0]",
        "max[1#0; ]",
        "max[; 1#0]",
        "max[1#0 ; 2#0; 3#0]",
        "max(1#0)",
        "{1#0}",
        "{1#0 | 2#0 | 3#0}",
        "{1#0|2#0}",
        "{ | }",
        "{1#0 | }",
        "{1#0 | 2#0",
        "()",
        "(",
        ")",
        "(1#0",
        "1#0)",
        "( 1#0)",
        "(1#0 )",
        "[1#0]",
        "[]",
        "1#0 - - 2#0",
        "1#0 (+) 2#0",
        "(max)[1#0]",
        "max[(1#0; 2#0); 3#0]",
        "1#0 max[] 2#0",
        "1#0\t+ 2#0",
        "1#0 + 2#0;",
        "\u{e9}[]",
        "1\u{b2}#0",
    ] {
        assert_eq!(
            read_back(&signs, text.as_bytes()),
            Err(Refusal(17)),
            "{text}"
        );
        assert!(derivations(&signs, text.as_bytes()).is_empty(), "{text}");
    }
}

/// Tables: what is a proper sign of an operation's own.
#[test]
fn signs_of_their_own() {
    let of = |bytes: &[u8]| -> Vec<bool> {
        let signs = Signs::new(bytes, NONE);
        (0..64)
            .map(|operation| signs.of(operation).is_some())
            .collect()
    };
    let first = |entries: &[([u8; 8], u8)]| of(&table([0; 9], entries))[0];
    for (word, proper) in [
        (&b"a\0\0\0\0\0\0\0"[..], true),
        (b"abcdefgh", true),
        (b"aZ\0\0\0\0\0\0", true),
        (b"+\0\0\0\0\0\0\0", true),
        (b">\0\0\0\0\0\0\0", true),
        (b"\0\0\0\0\0\0\0\0", false),
        (b"a\0a\0\0\0\0\0", false),
        (b"a\0\0\0\0\0\0a", false),
        (b"\0a\0\0\0\0\0\0", false),
        (b"a1\0\0\0\0\0\0", false),
        (b"++\0\0\0\0\0\0", false),
        (b"+a\0\0\0\0\0\0", false),
        (b"a+\0\0\0\0\0\0", false),
        (b"+\0\0\0\0\0\0+", false),
        (b"=\0\0\0\0\0\0\0", false),
        (b"^\0\0\0\0\0\0\0", false),
        (b"[\0\0\0\0\0\0\0", false),
        (b"@\0\0\0\0\0\0\0", false),
        (b"`\0\0\0\0\0\0\0", false),
        (b"{\0\0\0\0\0\0\0", false),
        (b" \0\0\0\0\0\0\0", false),
        (b"\xe9\0\0\0\0\0\0\0", false),
    ] {
        let word = word.try_into().unwrap();
        for p in 0..=255 {
            let range = (1..=9).contains(&p);
            assert_eq!(first(&[(word, p)]), proper && range, "{word:?} {p}");
        }
    }
    let a = padded(b"a");
    assert!(first(&[(a, 1), (padded(b"A"), 1)]));
    assert!(first(&[(a, 1), (*b"a\0\0\0\0\0\0x", 1)]));
    assert!(!first(&[(a, 1), (a, 2)]));
    assert!(!first(&[(a, 1), (padded(b"b"), 1), (a, 0)]));
    // whole entries behind the nine bytes, and at most 64
    let mut entries: Vec<([u8; 8], u8)> = (0..64)
        .map(|n| (padded(&[b'a' + n / 8, b'a' + n % 8]), 1))
        .collect();
    entries.push(entries[5]);
    let bytes = table([0; 9], &entries);
    assert!(of(&bytes).iter().all(|proper| *proper));
    for length in 0..bytes.len() {
        let whole = (length.saturating_sub(9) / 9).min(64);
        let expected: Vec<bool> = (0..64).map(|operation| operation < whole).collect();
        assert_eq!(of(&bytes[..length]), expected);
    }
}

#[test]
fn tree_of_a_graph() {
    let mut graph = Graph::default();
    let leaf = enter(&mut graph, Head::Literal(0, 5), Vec::new());
    enter(&mut graph, Head::Operation(1), vec![(leaf, 2)]);
    let five = Rc::new(Tree::Literal(0, 5));
    assert_eq!(*Tree::of(&graph), Tree::Over(1, vec![five.clone(), five]));
}

fn file(name: &str) -> Vec<u8> {
    let path = format!("{}/../../{name}", env!("CARGO_MANIFEST_DIR"));
    std::fs::read(&path).unwrap_or_else(|why| panic!("{path}: {why}"))
}

fn stored() -> Vec<sample::Stored> {
    sample::read(&file("oracle/sample/cards.bin")).unwrap()
}

/// The stored cards have the model's answers, and each refusal is met.
#[test]
fn stored_cards_are_the_models() {
    let stored = stored();
    for (n, one) in stored.iter().enumerate() {
        let answer = with::answer(one.kind, &one.input, NONE);
        assert!(answer.as_bytes() == one.answer, "stored card {n}");
    }
    let counts = sample::counts(&stored);
    for (kind, numbers) in [
        (Kind::Card, &[2, 3, 4, 5, 9, 11, 12, 13, 14, 18][..]),
        (Kind::ReadCard, &[2, 13, 14, 17]),
        (Kind::Lines, &[2, 14, 17, 18]),
    ] {
        let of = format!("{kind:?}, ");
        let met: Vec<&str> = counts
            .iter()
            .filter_map(|one| one.0.strip_prefix(&of))
            .collect();
        let mut expected = vec!["an answer".to_string()];
        expected.extend(numbers.iter().map(|number| format!("refused {number:>2}")));
        assert_eq!(met, expected);
    }
}

/// The stored cards catch every slip, but for those that only larger calls catch.
#[test]
fn every_slip_is_caught_by_the_stored_cards() {
    for (name, _, caught) in sample::table(&stored(), 1) {
        assert_eq!(
            caught.is_empty(),
            sample::BY_CALLS.contains(&name),
            "{name}"
        );
    }
}

/// Lines of so many nested terms.
fn nested_lines(terms: usize) -> String {
    let line = |n: usize| match n {
        0 => "0 op 0\n".to_string(),
        _ => format!("{n} op 0 {}:1\n", n - 1),
    };
    (0..terms).map(line).collect()
}

/// An operation over two literals in turn, so many times: as lines and as a text.
fn in_turn(runs: usize) -> (String, String) {
    let (mut lines, mut text) = ("0 lit 0 0\n1 lit 0 1\n2 op 0".to_string(), String::new());
    for run in 0..runs {
        lines += &format!(" {}:1", run % 2);
        text += if run == 0 { "x[" } else { "; " };
        text += ["0#0", "1#0"][run % 2];
    }
    (lines + "\n", text + "]")
}

/// 17, 13, 18 and 14 of calls larger than any program's input.
#[test]
fn limits_of_calls() {
    let table = table_of(&[("x", 9)], &[]);
    let card = |lines: &str, slip| model::card::card(&table, lines.as_bytes(), 1 << 20, slip);
    let back = |text: &str, slip| model::card::read_card(&table, text.as_bytes(), 1 << 20, slip);
    let (text, lines) = (sample::nested(16_384), nested_lines(16_384));
    assert!(card(&lines, NONE) == Ok(text.clone()));
    assert!(back(&text, NONE) == Ok(lines.clone()));
    assert_eq!(card(&nested_lines(16_385), NONE), Err(Refusal(13)));
    assert_eq!(back(&sample::nested(16_385), NONE), Err(Refusal(13)));
    assert_eq!(
        back(&(sample::nested(16_385) + " "), NONE),
        Err(Refusal(17))
    );
    // line 16,384: its form, then whether it is there before, then the room
    let equal = lines.clone() + "16384 op 0 16382:1\n";
    assert_eq!(card(&equal, NONE), Err(Refusal(17)));
    assert_eq!(card(&equal, CardSlip::RoomBeforeEqual), Err(Refusal(13)));
    let broken = lines.clone() + "16384 op 0 16384:1\n";
    assert_eq!(card(&broken, NONE), Err(Refusal(17)));
    // 13 as met: a line behind is not looked at
    let behind = nested_lines(16_385) + "rubbish\n";
    assert_eq!(card(&behind, NONE), Err(Refusal(13)));
    let (lines, text) = in_turn(65_536);
    assert!(card(&lines, NONE) == Ok(text.clone()));
    assert!(back(&text, NONE) == Ok(lines));
    let (lines, text) = in_turn(65_537);
    assert_eq!(card(&lines, NONE), Err(Refusal(13)));
    // a run beyond is met before what stands behind it, not before what is wrong with it
    let cut = lines.trim_end();
    for behind in [" 7:1\n", " ", "x\n", ""] {
        let broken = format!("{cut}{behind}");
        assert_eq!(card(&broken, NONE), Err(Refusal(13)));
        assert_eq!(card(&broken, CardSlip::FormBeforeRoom), Err(Refusal(17)));
    }
    let before = cut.trim_end_matches(|byte| byte != ' ');
    for run in [
        "1:1\n",
        "0:0\n",
        "0:01\n",
        "0:279172874175\n",
        "2:1\n",
        "0\n",
        "\n",
    ] {
        assert_eq!(
            card(&format!("{before}{run}"), NONE),
            Err(Refusal(17)),
            "{run}"
        );
    }
    let marked = lines.replace("op 0", "variants");
    assert_eq!(card(&marked, NONE), Err(Refusal(13)));
    let literal = lines.replace("2 op 0", "2 lit 0 7");
    assert_eq!(card(&literal, NONE), Err(Refusal(17)));
    assert_eq!(back(&text, NONE), Err(Refusal(13)));
    // equal terms are entered once
    let (half, third) = (sample::nested(9_000), sample::nested(2));
    let twice = format!("x[{half}; {half}; {third}]");
    assert!(back(&twice, NONE).is_ok());
    let slipped = back(&twice, CardSlip::RepeatedTermsCounted);
    assert_eq!(slipped, Err(Refusal(13)));
}

/// The tariffs of examples/driver.txt on a card, and the paper's formula.
#[test]
fn example_of_a_card() {
    let text = |name: &str| String::from_utf8(file(name)).unwrap();
    let table = cards::table_text(&text("examples/driver.signs")).unwrap();
    let (img, queries) = harness::text::parse(&text("examples/driver.txt")).unwrap();
    let input = cards::input(&table, &img.frame(&queries[0]));
    assert_eq!(input, file("crates/card/stdin"));
    let card = with::answer(Kind::Card, &input, NONE);
    assert_eq!(
        card,
        "{3#0 | 4#0} * (km[] + wait[]) + {350#0 | 350#0 - 50#0}\n"
    );
    assert_eq!(card.as_bytes(), file("crates/card/stdout"));
    assert_eq!(card, text("examples/driver.card"));
    let listing = text("examples/driver.listing");
    let lines = listing.split_once('\n').unwrap().1;
    assert_eq!(
        with::answer(Kind::Lines, &cards::input(&table, lines.as_bytes()), NONE),
        card
    );
    let back = cards::input(&table, card.as_bytes());
    assert_eq!(with::answer(Kind::ReadCard, &back, NONE), lines);
    let paper = cards::input(&table, b"3#0 * (km[] + wait[])\n");
    assert_eq!(paper, file("crates/read_card/stdin"));
    assert_eq!(
        with::answer(Kind::ReadCard, &paper, NONE).as_bytes(),
        file("crates/read_card/stdout")
    );
}
