// SPDX-License-Identifier: Apache-2.0
//! The stored cards: inputs of the programs and of the call on lines, chosen so that every refusal is
//! met and every deliberate slip is caught, with the model's answers.

use std::collections::{BTreeMap, BTreeSet};

use model::card_slip::{CARD_SLIPS, CardSlip};

use super::draw::{draw_input, table_of};
use super::with::answer;
use super::{KINDS, Kind, input};
use crate::r#gen::{class, lit, over};
use crate::img::{Class, Img, Member, Operation, Query};
use crate::judge::{pack, unpack};
use crate::limits;
use crate::rng::Rng;

pub struct Stored {
    pub kind: Kind,
    pub input: Vec<u8>,
    pub answer: Vec<u8>,
}

/// Stored cards in one stream: input, answer, input, answer .., each behind its length in 4 bytes, an
/// input behind a byte that says which it is, 0 for program `card`, 1 for program `read_card`, 2 for
/// lines.
pub fn stream(stored: &[Stored]) -> Vec<u8> {
    let records = stored.iter().flat_map(|one| {
        let mut record = vec![one.kind as u8];
        record.extend(&one.input);
        [record, one.answer.clone()]
    });
    pack(&records.collect::<Vec<_>>())
}

pub fn read(stream: &[u8]) -> Result<Vec<Stored>, String> {
    let records = unpack(stream)?;
    let stored = |two: &[Vec<u8>]| {
        let (kind, input) = two[0].split_first()?;
        Some(Stored {
            kind: *KINDS.get(usize::from(*kind))?,
            input: input.to_vec(),
            answer: two.get(1)?.clone(),
        })
    };
    let stored: Option<Vec<Stored>> = records.chunks(2).map(stored).collect();
    stored.ok_or_else(|| "an input without its kind or its answer".to_string())
}

pub type Case = (String, Kind, Vec<u8>);

/// Operations x, *, +, km, wait, -, max and < of the precedences 9, 2, 1, 9, 9, 1, 3 and 4, the last of
/// which groups to the right.
fn plain() -> Vec<u8> {
    let entries = [
        ("x", 9),
        ("*", 2),
        ("+", 1),
        ("km", 9),
        ("wait", 9),
        ("-", 1),
        ("max", 3),
        ("<", 4),
    ];
    table_of(&entries, &[4])
}

fn op(kind: u8) -> Operation {
    Operation {
        kind,
        identity: None,
    }
}

fn frame(ops: Vec<Operation>, classes: Vec<Class>, left: usize, right: usize) -> Vec<u8> {
    let mut img = Img { ops, classes };
    img.order();
    assert!(img.settle(), "every class has a finite term");
    img.frame(&Query {
        left,
        right,
        budget: u32::MAX,
    })
}

/// A query whose term is operation 1 over a literal of three bytes, so many times.
fn times(count: u32) -> Vec<u8> {
    let many = Member {
        op: 1,
        literal: 0,
        children: vec![(0, count)],
    };
    let classes = vec![class(vec![lit(0, 1)]), class(vec![many])];
    frame(vec![op(9), op(7)], classes, 1, 1)
}

/// A query whose term doubles so often: operation 1 over the same twice.
fn doubled(levels: usize) -> Vec<u8> {
    let mut classes = vec![class(vec![lit(0, 1)])];
    for level in 0..levels {
        classes.push(class(vec![over(1, &[level, level])]));
    }
    frame(vec![op(9), op(2)], classes, levels, levels)
}

/// A query whose listing is longer than 65,536 bytes, and its card not: 36 × 64 different marked places
/// of two literals.
fn marked() -> Vec<u8> {
    let (rows, columns) = (36, 64);
    let literals = (0..rows + columns).map(|n| class(vec![lit(0, n as u32)]));
    let mut classes: Vec<Class> = literals.collect();
    for row in 0..rows {
        classes.push(class(vec![over(1, &vec![row; columns])]));
    }
    let all: Vec<usize> = (rows..rows + columns).collect();
    classes.push(class(vec![over(1, &all)]));
    let last = classes.len() - 1;
    let left: Vec<usize> = (last - rows..last).collect();
    classes.push(class(vec![over(1, &left)]));
    classes.push(class(vec![over(1, &vec![last; rows])]));
    frame(vec![op(9), op(6)], classes, last + 1, last + 2)
}

/// A list of literals whose lines have so many bytes, of an operation with sign x.
pub fn lines_of(bytes: usize) -> String {
    let lines = |values: &[u32]| -> usize {
        let digits = |n: usize| n.to_string().len();
        let each = values.iter().enumerate();
        let each = each.map(|(n, value)| 2 * digits(n) + digits(*value as usize) + 11);
        each.sum::<usize>() + digits(values.len()) + 6
    };
    let mut values: Vec<u32> = Vec::new();
    while lines(&values) + 30 < bytes {
        values.push(1_000 + values.len() as u32);
    }
    // Some of them ten times as large until it fits: values that differ stay so.
    let missing = bytes - lines(&values);
    values
        .iter_mut()
        .take(missing)
        .for_each(|value| *value *= 10);
    let values: Vec<String> = values.iter().map(|value| format!("{value}#0")).collect();
    format!("x[{}]", values.join("; "))
}

/// So many distinct terms one in another, of an operation with sign x.
pub fn nested(terms: usize) -> String {
    format!("{}x[]{}", "x[".repeat(terms - 1), "]".repeat(terms - 1))
}

/// The tables of an input, broken or not, before what program `merge` reads.
fn broken(found: &mut Vec<Case>) {
    let table = table_of(&[("x", 1), ("s", 1)], &[]);
    let small = times(3);
    let whole = input(&table, &small);
    let mut case =
        |what: &str, kind: Kind, input: Vec<u8>| found.push((what.to_string(), kind, input));
    for kind in KINDS {
        case("no input", kind, Vec::new());
        case("a cut length", kind, vec![0, 0, 0]);
        case("a length without a table", kind, vec![0, 0, 0, 1]);
        case("an empty table and nothing behind it", kind, vec![0; 4]);
        case("a table that is not there", kind, vec![255; 12]);
        let mut longer = whole.clone();
        longer[..4].copy_from_slice(&(whole.len() as u32 - 3).to_be_bytes());
        case("a table one byte longer than the input", kind, longer);
        let mut all = whole.clone();
        all[..4].copy_from_slice(&(whole.len() as u32 - 4).to_be_bytes());
        case("a table that is the whole input", kind, all);
    }
    for less in 1..=9 {
        let what = format!("a query without its last {less} bytes");
        case(&what, Kind::Card, whole[..whole.len() - less].to_vec());
    }
    case(
        "a query with a byte more",
        Kind::Card,
        [&whole[..], &[0]].concat(),
    );
    case("a table alone", Kind::Card, input(&table, &[]));
    for (at, byte, what) in [
        (4, 2, "version 2"),
        (6, 65, "65 operations"),
        (10, 9, "nine members"),
    ] {
        let mut frame = small.clone();
        frame[at] = byte;
        case(what, Kind::Card, input(&table, &frame));
    }
    let mut query = small.clone();
    let at = query.len() - 5;
    query[at] = 2;
    case(
        "a class not in the image",
        Kind::Card,
        input(&table, &query),
    );
    // what is wrong with the image comes before what is wrong with the table
    case(
        "a class not in the image, no signs",
        Kind::Card,
        input(&[], &query),
    );
}

/// Texts and their terms.
fn texts(found: &mut Vec<Case>) {
    let table = plain();
    for text in [
        "3#0 * (km[] + wait[])",
        "3#0 * (km[] + wait[])\n",
        "3#0 * (km[] + wait[])\n\n",
        "3#0 * (km[] + wait[])\r\n",
        "3#0 * (km[] + wait[]) ",
        "3#0 * (km[] + wait[]",
        "",
        "\n",
        "1#0 - 2#0 + 3#0\n",
        "1#0 - (2#0 + 3#0)\n",
        "1#0 < 2#0 < 3#0\n",
        "(1#0 < 2#0) < 3#0\n",
        "1#0 + 2#0 * 3#0 < 4#0 + 5#0\n",
        "km[] km km[]\n",
        "-[-[]] - -[]\n",
        "{1#0 | 1#0} + ((1#0))\n",
        "max[1#0; 1#0; 1#0; 2#0; 1#0]\n",
        "max[1#0; 2#0]\n",
        "max[1#0]\n",
        "{1#0 | 2#0 | 3#0}\n",
        "{1#0}\n",
        "4294967295#63\n",
        "4294967296#0\n",
        "1#64\n",
        "01#0\n",
    ] {
        let what = format!("{text:?}");
        found.push((what, Kind::ReadCard, input(&table, text.as_bytes())));
    }
    found.push((
        "a text and no signs".to_string(),
        Kind::ReadCard,
        input(&[], b"7#5"),
    ));
    found.push((
        "a list and no signs".to_string(),
        Kind::ReadCard,
        input(&[], b"x[]"),
    ));
}

/// Lines and their cards.
fn lines(found: &mut Vec<Case>) {
    let table = plain();
    for text in [
        "0 lit 0 5\n1 lit 0 7\n2 variants 1:1 0:1\n3 op 1 0:1 2:1\n",
        "0 lit 63 4294967295\n1 op 2 0:1\n2 op 5 1:2\n3 op 6 2:3\n",
        "0 op 3\n1 variants 0:2\n",
        "0 op 9\n1 op 3\n",
        "0 op 9\n1 op 3 0:1\n",
        "",
        "\n",
        "0 lit 0 5",
        "0 lit 0 5\n1 lit 0 5\n",
        "0 lit 0 5\n1 op 0 0:1 0:1\n",
        "0 lit 0 5\n1 op 0 0:0\n",
        "0 lit 0 5\n1 op 0 1:1\n",
        "0 lit 0 5\n1 variants 0:1\n",
        "0 lit 0 5\n1 variants 0:3\n",
        "0 lit 0 5\n1 op 0 0:279172874175\n",
        "0 lit 0 5\n1 op 9 0:279172874175\n",
        "0 lit 0 5\n1 op 0 0:279172874176\n",
        "0 lit 0 5\n1 lit 0 6\n2 op 0 0:279172874174 1:1\n",
        "0 lit 0 5\n1 lit 0 6\n2 op 0 0:279172874175 1:1\n",
        "1 lit 0 5\n",
        "0 lit 64 5\n",
        "0 op 64\n",
        "0 op 3 \n",
        "0  op 3\n",
        "0 Op 3\n",
        "0 op 03\n",
        "0 lit 0 5 \n",
        "0 lit 0 5\r\n",
    ] {
        let what = format!("lines {text:?}");
        found.push((what, Kind::Lines, input(&table, text.as_bytes())));
    }
}

/// Cards of terms at the limits: 18 before 14, and 14.
fn lengths(found: &mut Vec<Case>) {
    let mut case = |what: &str, word: &str, frame: &[u8]| {
        let table = table_of(&[("x", 1), (word, 1)], &[]);
        found.push((what.to_string(), Kind::Card, input(&table, frame)));
    };
    case("a child three times", "sum", &times(3));
    case("a child twice", "sum", &times(2));
    case("a card of 65,536 bytes", "abcdef", &times(13_106));
    case("a card of 65,537 bytes", "abcdefg", &times(13_106));
    case("a child 2,147,483,645 times", "s", &times(2_147_483_645));
    case("the same without a sign", "s1", &times(2_147_483_645));
    case("a term that doubles 29 times", "+", &doubled(29));
    case("the same without a sign", "x", &doubled(29));
    case("a term that doubles 4 times", "+", &doubled(4));
    case("a card whose listing is too long", "s", &marked());
    // refusals of the merge come before 18
    for (what, frame) in limits::cases() {
        let early = [
            "4097 pairs, budget 1",
            "past 16,384 terms",
            "best size wraps to 0",
        ];
        if early.contains(&what.as_str()) {
            case(&format!("{what}, without signs"), "s1", &frame);
        }
    }
    let x = plain();
    for (what, text) in [
        ("lines of 65,536 bytes", lines_of(65_536)),
        ("lines of 65,537 bytes", lines_of(65_537)),
        ("16,384 terms, whose lines are too long", nested(16_384)),
        ("16,385 terms", nested(16_385)),
        ("16,385 terms and a bracket", nested(16_385) + ")"),
    ] {
        found.push((what.to_string(), Kind::ReadCard, input(&x, text.as_bytes())));
    }
}

/// The cases made by hand.
pub fn fixed() -> Vec<Case> {
    let mut found = Vec::new();
    broken(&mut found);
    texts(&mut found);
    lines(&mut found);
    lengths(&mut found);
    found
}

/// Inputs too large to be stored: at 65,536 bytes and one more.
pub fn large() -> Vec<Case> {
    let mut found = Vec::new();
    for length in [65_536, 65_537] {
        for (kind, rest) in [(Kind::Card, times(3)), (Kind::ReadCard, b"x[]\n".to_vec())] {
            let mut table = table_of(&[("x", 1), ("s", 1)], &[]);
            table.resize(length - 4 - rest.len(), 0);
            found.push((
                format!("an input of {length} bytes"),
                kind,
                input(&table, &rest),
            ));
        }
        let pairs = (length - 4 - 3) / 2;
        let text = format!("{}{}{}", "(".repeat(pairs), "1#0", ")".repeat(pairs));
        let what = format!("a literal in {pairs} pairs of brackets");
        found.push((what, Kind::ReadCard, input(&[], text.as_bytes())));
    }
    found
}

/// How often each slip is caught at least.
const CATCHES: usize = 3;

/// Slips that no input of 65,536 bytes catches, or only a large one: the tests call the model itself.
pub const BY_CALLS: [&str; 3] = ["RepeatedTermsCounted", "FormBeforeRoom", "RoomBeforeEqual"];

fn slipped(kind: Kind, input: &[u8], slip: CardSlip, right: &str) -> bool {
    answer(kind, input, slip) != right
}

pub fn choose(seed: u64) -> Vec<Stored> {
    let mut chosen: Vec<(Kind, Vec<u8>)> = Vec::new();
    let mut taken = BTreeSet::new();
    for (_, kind, input) in fixed() {
        if taken.insert((kind, input.clone())) {
            chosen.push((kind, input));
        }
    }
    let mut rng = Rng::new(seed);
    let mut pool: Vec<(Kind, Vec<u8>)> = Vec::new();
    for kind in KINDS {
        for _ in 0..8_000 {
            pool.push((kind, draw_input(&mut rng, kind, 300)));
        }
    }
    pool.sort_by_key(|(kind, input)| (input.len(), *kind, input.clone()));
    pool.dedup();
    let with_answers = |all: &[(Kind, Vec<u8>)]| -> Vec<String> {
        let one = |(kind, input): &(Kind, Vec<u8>)| answer(*kind, input, CardSlip::None);
        all.iter().map(one).collect()
    };
    let answers = with_answers(&pool);
    for &(slip, _, _) in CARD_SLIPS {
        let small = chosen.iter().filter(|one| one.1.len() < 2_000);
        let caught = small.filter(|(kind, input)| {
            slipped(*kind, input, slip, &answer(*kind, input, CardSlip::None))
        });
        let mut caught = caught.count();
        for ((kind, input), right) in pool.iter().zip(&answers) {
            if caught >= CATCHES {
                break;
            }
            let new = !taken.contains(&(*kind, input.clone()));
            if new && slipped(*kind, input, slip, right) {
                caught += 1;
                taken.insert((*kind, input.clone()));
                chosen.push((*kind, input.clone()));
            }
        }
    }
    // The larger of the drawn ones, some of each kind.
    for (kind, more) in KINDS.into_iter().zip([24, 8, 8]) {
        let many = pool.iter().zip(&answers).rev();
        let many = many.filter(|((of, _), right)| *of == kind && !right.starts_with("refused"));
        for ((_, input), _) in many.step_by(40).take(more) {
            if taken.insert((kind, input.clone())) {
                chosen.push((kind, input.clone()));
            }
        }
    }
    chosen.sort_by_key(|(kind, _)| *kind);
    chosen
        .into_iter()
        .map(|(kind, input)| {
            let answer = answer(kind, &input, CardSlip::None).into_bytes();
            Stored {
                kind,
                input,
                answer,
            }
        })
        .collect()
}

/// How often each answer is stored, by kind.
pub fn counts(stored: &[Stored]) -> Vec<(String, usize)> {
    let mut counts: BTreeMap<String, usize> = BTreeMap::new();
    for one in stored {
        let answer = String::from_utf8_lossy(&one.answer);
        let said = match answer.strip_prefix("refused ") {
            Some(number) => format!("refused {:>2}", number.trim_end()),
            None => "an answer".to_string(),
        };
        *counts.entry(format!("{:?}, {said}", one.kind)).or_insert(0) += 1;
    }
    counts.into_iter().collect()
}

/// Which stored inputs catch each slip, the smaller ones first; at most so many.
pub fn table(stored: &[Stored], most: usize) -> Vec<(&'static str, &'static str, Vec<usize>)> {
    let mut order: Vec<usize> = (0..stored.len()).collect();
    order.sort_by_key(|&n| stored[n].input.len() + stored[n].answer.len());
    let caught = |slip: CardSlip| -> Vec<usize> {
        let catches = |n: &usize| {
            let one = &stored[*n];
            answer(one.kind, &one.input, slip).as_bytes() != one.answer
        };
        order.iter().copied().filter(catches).take(most).collect()
    };
    let slips = CARD_SLIPS.iter();
    slips
        .map(|&(slip, name, meaning)| (name, meaning, caught(slip)))
        .collect()
}
