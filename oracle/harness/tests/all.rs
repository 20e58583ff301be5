// SPDX-License-Identifier: Apache-2.0
//! What the gate asks of oracle, model and sample.

use harness::drive::{Counts, compare};
use harness::img::{Img, Query};
use harness::judge::{AsTheRust, Judge, Said, as_the_rust, unpack};
use harness::{damage, draw, limits, pairs, plans, sample, skipped, small, text, turned, verdicts};
use model::belongs::{Belongs, Reading};
use model::brute::Derivations;
use model::image::{Image, LIT, lowest_doubled, tables, verdict};
use model::run::Phase;
use model::slip::{SLIPS, Slip};
use model::{DESK, PAGE};

fn file(name: &str) -> String {
    let path = format!("{}/../{name}", env!("CARGO_MANIFEST_DIR"));
    std::fs::read_to_string(&path).unwrap_or_else(|why| panic!("{path}: {why}"))
}

fn bytes(name: &str) -> Vec<u8> {
    let path = format!("{}/../{name}", env!("CARGO_MANIFEST_DIR"));
    std::fs::read(&path).unwrap_or_else(|why| panic!("{path}: {why}"))
}

fn stored() -> Vec<sample::Stored> {
    let frames = unpack(&bytes("sample/frames.bin")).unwrap();
    let answers = unpack(&bytes("sample/answers.bin")).unwrap();
    assert_eq!(frames.len(), answers.len());
    frames
        .into_iter()
        .zip(answers)
        .map(|(frame, answer)| sample::Stored { frame, answer })
        .collect()
}

/// Whether the oracle's listing is this one but for the fields that the Rust does not write, with
/// as many checks as the oracle counted.
fn alike(frame: &[u8], listing: &str) -> bool {
    Said::of_oracle(frame, false).agrees(listing.as_bytes())
}

const ORACLE: Judge = Judge::Oracle { pruning: false };
const MODEL: Judge = Judge::Model(Slip::None);

#[test]
fn example_e_of_document_01() {
    let merged = "0 lit 0 5\n1 lit 0 7\n2 variants 1:1 0:1\n3 op 1 0:1 2:1\n";
    let apart = "0 lit 0 5\n1 lit 0 7\n2 op 1 0:1 1:1\n3 op 1 0:2\n4 variants 2:1 3:1\n";
    let (img, mut queries) = text::parse(&file("../examples/E.txt")).unwrap();
    let mut answer = |budget| {
        queries[0].budget = budget;
        let frame = img.frame(&queries[0]);
        let text = model::answer(&frame, Slip::None);
        assert!(alike(&frame, &text));
        text
    };
    for (budget, checks, line, terms) in [
        (14, 14, "complete pairs 3 rounds 1 size 4 mass 2", merged),
        (1_000, 14, "complete pairs 3 rounds 1 size 4 mass 2", merged),
        (
            u32::MAX,
            14,
            "complete pairs 3 rounds 1 size 4 mass 2",
            merged,
        ),
        (13, 13, "partial pairs 3 rounds 1 size 4 mass 2", merged),
        (10, 10, "partial pairs 3 rounds 1 size 4 mass 2", merged),
        (9, 9, "partial pairs 3 rounds 0 size 6 mass 6", apart),
        (3, 3, "partial pairs 3 rounds 0 size 6 mass 6", apart),
        (2, 2, "partial pairs 1 rounds 0 size 6 mass 6", apart),
        (0, 0, "partial pairs 1 rounds 0 size 6 mass 6", apart),
    ] {
        let listing = format!("{line} skipped 0 checks {checks}\n{terms}");
        assert_eq!(answer(budget), listing);
    }
}

#[test]
fn oracle_and_model_agree_on_drawn_queries() {
    let count = if cfg!(debug_assertions) { 1_500 } else { 4_000 };
    let mut counts = Counts::default();
    let difference = compare(&ORACLE, &MODEL, &draw(20_261_115, count, None), &mut counts).unwrap();
    if let Some(difference) = difference {
        panic!("{}", difference.print("oracle", "model"));
    }
    for phase in [
        "phase 1 cut in building",
        "phase 2 cut in starting terms",
        "phase 3 cut at a round's start",
        "phase 4 cut inside a round",
        "phase 5 complete",
        "action MSet",
        "action Set",
        "action SPair, crossed",
        "action PlainN",
        "action Plain0",
        "monomial pairs skipped",
    ] {
        assert!(counts.get(phase) > 0, "{phase} was not met");
    }
}

#[test]
fn oracle_and_model_agree_at_the_limits() {
    let frames: Vec<Vec<u8>> = limits::cases().into_iter().map(|case| case.1).collect();
    let difference = compare(&ORACLE, &MODEL, &frames, &mut Counts::default()).unwrap();
    assert!(difference.is_none());
}

/// What is said of a limit case is what the model says.
#[test]
fn limits_are_where_document_01_puts_them() {
    for (what, frame) in limits::cases() {
        let answer = model::answer(&frame, Slip::None);
        let refusal = match what.as_str() {
            "65 operations" | "257 classes" | "1025 members" | "4097 children" => Some(4),
            "a member with 65 children" => Some(7),
            "best size 2,147,483,647" | "best size wraps to 0" | "best size wraps to 7" => Some(9),
            _ if what.ends_with("its sum one more") => Some(9),
            _ if what.ends_with("its sum one more, with itself") => Some(9),
            "an input of 65536 bytes" => Some(5),
            "an input of 65537 bytes" => Some(2),
            "4097 pairs, budget 1" | "4097 pairs, budget 4294967295" => Some(12),
            _ if what.starts_with("past") || what.starts_with("far past") => Some(13),
            "a listing of 65537 bytes" => Some(14),
            _ => None,
        };
        match refusal {
            Some(number) => assert_eq!(answer, format!("refused {number}\n"), "{what}"),
            None => assert!(!answer.starts_with("refused"), "{what}: {answer}"),
        }
    }
}

/// (02, Paper 9) Each caller is refused beyond its own limit, and what both accept has the same
/// bytes. The first check lets the root join all other pairs; without it nothing is refused.
#[test]
fn callers_are_refused_at_their_own_limits() {
    for (pairs, mut frame) in limits::callers() {
        for (budget, reported) in [(0, 1), (1, 1), (u32::MAX, pairs)] {
            let at = frame.len() - 4;
            frame[at..].copy_from_slice(&budget.to_be_bytes());
            for (limit, most) in [(PAGE, 256), (DESK, 4_096)] {
                let answer = model::answer_within(limit, &frame, Slip::None);
                if pairs > most && budget > 0 {
                    assert_eq!(answer, "refused 12\n", "{pairs} pairs, limit {limit}");
                } else {
                    let line = format!(" pairs {reported} rounds ");
                    assert!(answer.contains(&line), "{pairs} pairs, limit {limit}");
                    assert!(alike(&frame, &answer));
                    assert_eq!(answer, model::answer(&frame, Slip::None));
                }
            }
        }
    }
}

/// The calls of crate samples, module Callers, are answered as they say, and their image is that of
/// callers.image.
#[test]
fn the_definitions_tests_of_both_callers() {
    let (img, _) = text::parse(&file("sample/callers.image")).unwrap();
    let hex: String = img.bytes().iter().map(|b| format!("{b:02x}")).collect();
    let module = file("../crates/samples/specs/Callers.antt");
    assert!(module.contains(&format!("hex \"{hex}\"")));
    let said = |word: &str| word.split('"').nth(1).unwrap().replace("\\n", "\n");
    let named = |name: &str| {
        let start = format!("{name} = \"");
        module
            .lines()
            .find(|line| line.starts_with(&start))
            .map(said)
            .unwrap()
    };
    let mut met = [0; 2];
    for line in module.lines() {
        let Some((_, call)) = line.split_once(" : merge_for ") else {
            continue;
        };
        let (call, answer) = call.split_once(" ≡ ").unwrap();
        let ["Page" | "Desk", "true" | "false", "image", numbers @ ..] =
            &call.split(' ').collect::<Vec<_>>()[..]
        else {
            panic!("{line}");
        };
        let numbers: Vec<usize> = numbers.iter().map(|n| n.parse().unwrap()).collect();
        let [left, right, budget, room] = numbers[..] else {
            panic!("{line}");
        };
        let budget = budget as u32;
        let frame = img.frame(&Query {
            left,
            right,
            budget,
        });
        let page = call.starts_with("Page");
        met[usize::from(page)] += 1;
        let limit = if page { PAGE } else { DESK };
        let model = match model::answer_within(limit, &frame, Slip::None) {
            _ if call.contains("false") => "refused 1\n".to_string(),
            listing if !listing.starts_with("refused") && listing.len() > room => {
                "refused 14\n".to_string()
            }
            other => other,
        };
        let answer = match answer.strip_prefix("ok ") {
            Some(_) => {
                let rest = answer.trim_end_matches(')').rsplit_once(' ').unwrap().1;
                said(answer) + &named(rest)
            }
            None => format!("{answer}\n"),
        };
        assert_eq!(model, answer, "{line}");
    }
    assert!(met[0] > 2 && met[1] > 5, "{met:?}");
}

/// What the quote page accepts has the desk's bytes, on drawn queries about the page's limit.
#[test]
fn what_the_page_accepts_the_desk_accepts() {
    let mut met = [0; 3];
    for frame in draw(20_261_116, 600, Some("page")) {
        let page = model::answer_within(PAGE, &frame, Slip::None);
        let desk = model::answer(&frame, Slip::None);
        let case = match page.as_str() {
            "refused 12\n" if desk == page => 0,
            "refused 12\n" => 1,
            _ => 2,
        };
        met[case] += 1;
        assert!(case < 2 || desk == page);
    }
    assert!(met[0] == 0 && met[1] > 50 && met[2] > 200, "{met:?}");
}

/// The number at the head of a damaged frame's name is its refusal.
#[test]
fn damaged_images_are_refused_as_they_say() {
    for (what, frame) in damage::small() {
        let answer = model::answer(&frame, Slip::None);
        let number = what.split([':', ' ']).next().unwrap();
        if number == "sound" {
            assert!(!answer.starts_with("refused"), "{what}");
        } else {
            assert_eq!(answer, format!("refused {number}\n"), "{what}");
        }
    }
}

/// The class at the head of a frame about rule 10 is its class.
#[test]
fn doubled_literals_are_refused_as_they_say() {
    for (what, frame) in damage::doubled() {
        let head = what.split(':').next().unwrap();
        let line = match head {
            "sound" => "accepted".to_string(),
            _ => format!("refused {head}"),
        };
        let image = &frame[..frame.len() - 8];
        assert_eq!(verdict(image, Slip::None), line, "{what}");
        let answer = model::answer(&frame, Slip::None);
        match head.split(' ').next().unwrap() {
            "sound" => assert!(!answer.starts_with("refused"), "{what}"),
            number => assert_eq!(answer, format!("refused {number}\n"), "{what}"),
        }
    }
}

/// Operation, value and class of each literal, in stored order.
fn literals(image: &Image) -> Vec<(usize, u32, usize)> {
    let mut found = Vec::new();
    for class in 0..image.classes.len() {
        for member in image.members_of(class) {
            if image.kind_of(member) == LIT {
                found.push((member.operation, member.literal, class));
            }
        }
    }
    found
}

type Rule = fn(&Image) -> Option<usize>;

/// Wrong rules for the class of refusal 10.
const WRONG: [(&str, Rule); 7] = [
    ("the first clash met", |image| {
        clashes(image).first().map(|c| c.0)
    }),
    ("the last clash met", |image| {
        clashes(image).last().map(|c| c.0)
    }),
    ("the higher holder", |image| {
        clashes(image).iter().map(|c| c.1).min()
    }),
    ("the highest class", |image| {
        clashes(image).iter().map(|c| c.1).max()
    }),
    ("the least literal", |image| {
        let least = clashes(image).into_iter().min_by_key(|c| c.2);
        least.map(|c| c.0)
    }),
    ("a literal by value alone", |image| {
        let all = literals(image);
        let doubled = |one: &&(usize, u32, usize)| all.iter().any(|o| o.1 == one.1 && o.2 != one.2);
        all.iter().filter(doubled).map(|one| one.2).min()
    }),
    ("a literal twice in one class", |image| {
        let all = literals(image);
        let doubled = |one: &&(usize, u32, usize)| {
            let same = all.iter().filter(|o| (o.0, o.1) == (one.0, one.1));
            same.count() > 1
        };
        all.iter().filter(doubled).map(|one| one.2).min()
    }),
];

/// The clashes as they are met in stored order: the first holder, the class that meets
/// it, and the literal.
fn clashes(image: &Image) -> Vec<(usize, usize, (usize, u32))> {
    let all = literals(image);
    let met = |&(operation, value, class): &(usize, u32, usize)| {
        let first = all.iter().find(|o| (o.0, o.1) == (operation, value))?.2;
        (first != class).then_some((first, class, (operation, value)))
    };
    all.iter().filter_map(met).collect()
}

/// The rule once more, class by class.
fn by_force(image: &Image) -> Option<usize> {
    let all = literals(image);
    let doubled = |one: &(usize, u32, usize)| {
        all.iter()
            .any(|o| (o.0, o.1) == (one.0, one.1) && o.2 != one.2)
    };
    (0..image.classes.len()).find(|&class| all.iter().any(|o| o.2 == class && doubled(o)))
}

/// The hand-made images and the drawn ones tell the rule from each wrong one.
#[test]
fn doubled_literals_catch_wrong_rules() {
    let count = if cfg!(debug_assertions) { 200 } else { 1_000 };
    let drawn = verdicts::images(draw(12, count, Some("doubled")));
    let made = verdicts::damaged().split_off(damage::small().len());
    // Of the hand-made images one breaks rule 9.
    for (images, broken, least) in [(made, 1, 2), (drawn, 0, count / 20)] {
        let (all, mut sound) = (images.len(), 0);
        let mut caught = [0; WRONG.len()];
        let mut met = [0; 3];
        for bytes in images {
            let Ok(image) = tables(&bytes, Slip::None) else {
                continue;
            };
            sound += 1;
            let class = lowest_doubled(&image);
            assert_eq!(class, by_force(&image));
            let line = class.map_or("accepted".to_string(), |c| format!("refused 10 class {c}"));
            assert_eq!(verdict(&bytes, Slip::None), line);
            for (caught, (_, wrong)) in caught.iter_mut().zip(WRONG) {
                *caught += usize::from(wrong(&image) != class);
            }
            let whole = [
                class.is_none(),
                image.classes.len() == 256,
                image.members.len() == 1_024,
            ];
            for (met, holds) in met.iter_mut().zip(whole) {
                *met += usize::from(holds);
            }
        }
        assert_eq!(sound + broken, all);
        assert!(met.iter().all(|met| *met > 0), "{met:?}");
        for (caught, (name, _)) in caught.iter().zip(WRONG) {
            assert!(*caught >= least, "{name}: caught {caught} times");
        }
    }
}

#[test]
fn small_answers_are_up_to_date() {
    let made = small::small(&file("sample/small.images")).unwrap();
    assert!(made == file("sample/small.txt"), "make small.txt again");
}

#[test]
fn queries_of_skipped_pairs_are_up_to_date() {
    let made = small::queries(&file("sample/skipped.images")).unwrap();
    assert!(made == file("sample/skipped.txt"), "make skipped.txt again");
}

#[test]
fn queries_about_checks_are_up_to_date() {
    let made = small::queries(&file("sample/checks.images")).unwrap();
    assert!(made == file("sample/checks.txt"), "make checks.txt again");
}

#[test]
fn stored_slips_are_up_to_date() {
    let stored = file("sample/slips.txt");
    assert!(
        small::again(&stored).unwrap() == stored,
        "ask slips.txt again"
    );
}

/// Only the first line's last two fields are dropped, and only where they are there.
#[test]
fn the_fields_that_the_rust_does_not_write() {
    let dropped = |answer: &str| {
        let AsTheRust { listing, checks } = as_the_rust(answer.as_bytes())?;
        Some((String::from_utf8(listing).unwrap(), checks))
    };
    for (answer, kept, checks) in [
        (
            "partial pairs 1 mass 2 skipped 0 checks 0\n0 lit 0 5\n",
            "partial pairs 1 mass 2\n0 lit 0 5\n",
            Some(0),
        ),
        (
            "complete mass 2 skipped 262144 checks 16793601\n",
            "complete mass 2\n",
            Some(16_793_601),
        ),
        ("refused 12\n", "refused 12\n", None),
    ] {
        assert_eq!(dropped(answer), Some((kept.to_string(), checks)));
    }
    for first in [
        "complete pairs 1 mass 2",
        "complete pairs 1 mass 2 skipped 0",
        "complete pairs 1 mass 2 checks 4",
        "complete pairs 1 mass 2 checks 4 skipped 0",
        "complete pairs 1 mass 2 skipped checks 4",
        "complete pairs 1 mass 2 skipped 0 checks",
        "complete pairs 1 mass 2 skipped 0 checks ",
        "complete pairs 1 mass 2 skipped 00 checks 4",
        "complete pairs 1 mass 2 skipped 0 checks 04",
        "complete pairs 1 mass 2 skipped -1 checks 4",
        "complete pairs 1 mass 2 skipped 0 checks +4",
        "complete pairs 1 mass 2 skipped 0 checks 4 ",
        "complete pairs 1 mass 2 skipped 0  checks 4",
        "complete pairs 1 mass 2 skipped 0 checks 4 more 0",
        "complete pairs 1 mass 2 skipped 0 more 0 checks 4",
        "complete pairs 1 mass 2 skipped 0 Checks 4",
    ] {
        assert_eq!(dropped(&format!("{first}\n0 lit 0 5\n")), None, "{first}");
    }
    let below = "complete pairs 1 mass 2\n0 lit skipped 0 checks 4\n";
    assert_eq!(dropped(below), None);
}

/// The slips about the checks that passed.
fn about_checks() -> &'static [(Slip, &'static str, &'static str)] {
    let first = SLIPS.iter().position(|slip| slip.1 == "ChecksExpired");
    &SLIPS[first.unwrap()..]
}

/// A wrong number of checks is a difference from the oracle, though the Rust does not write it:
/// its own count is held against it, and shown.
#[test]
fn the_oracle_counts_the_checks() {
    let frames = draw(13, 400, None);
    for &(slip, name, _) in about_checks() {
        let slipped = Judge::Model(slip);
        for (a, b) in [(&ORACLE, &slipped), (&slipped, &ORACLE)] {
            let difference = compare(a, b, &frames, &mut Counts::default()).unwrap();
            let shown = difference.expect(name).print("a", "b");
            assert!(
                shown.contains("\nchecks counted by the oracle: "),
                "{shown}"
            );
        }
        // With the field dropped, nothing else is wrong but for the order of the fields.
        let mut alone = 0;
        for frame in &frames {
            let (right, wrong) = (model::answer(frame, Slip::None), model::answer(frame, slip));
            if right.starts_with("refused") || wrong == right {
                continue;
            }
            let oracle = Said::of_oracle(frame, false);
            if oracle.counted.is_some() {
                assert!(!oracle.agrees(wrong.as_bytes()), "{name}");
                let dropped = as_the_rust(wrong.as_bytes());
                alone += usize::from(dropped.is_some_and(|one| one.listing == oracle.answer));
            }
        }
        assert_eq!(alone > 0, slip != Slip::ChecksFirst, "{name}: {alone}");
    }
}

/// The oracle's count starts anew with each query, also after one that it could not hold.
#[test]
fn the_oracle_counts_each_query_alone() {
    let (img, queries) = text::parse(&file("../examples/E.txt")).unwrap();
    let frame = img.frame(&queries[0]);
    let mut unholdable = 0;
    for other in draw(3, 60, Some("huge")) {
        unholdable += usize::from(listed::answer(&other, false) == listed::Answer::Unholdable);
        assert_eq!(listed::answer(&frame, false).checks(), Some(14));
    }
    assert!(unholdable > 0);
}

/// "Complete runs on (left, right) and (right, left), neither refused," are alike, and runs spend
/// what they should (see `harness::turned`).
#[test]
fn turned_queries() {
    let count = if cfg!(debug_assertions) { 500 } else { 2_000 };
    let drawn = draw(1_313, count, None);
    let asked = |judge: &Judge, counts: &mut Counts| {
        let mut runs = |frames: &[Vec<u8>]| turned::by_judge(judge, frames);
        turned::turned(&drawn, &mut runs, counts)
    };
    let mut counts = Counts::default();
    asked(&MODEL, &mut counts).unwrap();
    let complete = counts.get("enough checks: both complete");
    assert!(complete > 9 * count as u64 / 10, "{complete}");
    asked(&ORACLE, &mut Counts::default()).unwrap();
    // Wrong counts of checks, and rules for one side only.
    let one_sided = [
        Slip::PadLeftOnly,
        Slip::UnchangedCounted,
        Slip::FreeSelfPairs,
    ];
    let wrong = about_checks().iter().map(|slip| slip.0).chain(one_sided);
    for slip in wrong {
        let slipped = asked(&Judge::Model(slip), &mut Counts::default());
        assert!(slipped.is_err(), "{slip:?}");
    }
}

/// Skipped monomial pairs by the model's set and by comparing each with all before it, on drawn
/// queries that tell the rule from each slip.
#[test]
fn skipped_pairs_are_counted_once() {
    let count = if cfg!(debug_assertions) { 300 } else { 2_000 };
    let frames = draw(77, count, Some("skipped"));
    let first = SLIPS.iter().position(|slip| slip.1 == "SkippedUncounted");
    let slips = &SLIPS[first.unwrap()..SLIPS.len() - about_checks().len()];
    let mut caught = vec![0; slips.len()];
    let (mut above, mut cut) = (0, 0);
    for frame in &frames {
        let (text, outcome) = model::outcome(frame, Slip::None).unwrap();
        assert_eq!(Some(outcome.skipped), skipped::by_force(frame), "{text}");
        let first = text.lines().next().unwrap();
        let (skipped, checks) = (outcome.skipped, outcome.checks);
        assert!(first.ends_with(&format!(" skipped {skipped} checks {checks}")));
        above += usize::from(outcome.skipped > 0);
        cut += usize::from(outcome.skipped > 0 && outcome.phase == Phase::Building);
        for (caught, (slip, ..)) in caught.iter_mut().zip(slips) {
            *caught += usize::from(model::answer(frame, *slip) != text);
        }
    }
    assert!(above > count / 3 && cut > count / 20, "{above}, {cut}");
    for (caught, (_, name, _)) in caught.iter().zip(slips) {
        assert!(*caught > count / 100, "{name}: caught {caught} times");
    }
    println!("{count} queries, {above} with a skipped pair, {cut} of them cut in building");
    let difference = compare(&ORACLE, &MODEL, &frames, &mut Counts::default()).unwrap();
    assert!(difference.is_none());
}

/// As many as 1,024 members give.
#[test]
fn costly_queries_are_accepted() {
    for (name, number) in [
        ("different", 511 * 511),
        ("identity", 513 * 512 - 2),
        ("padded", 3 * 510),
        ("falling", 3 * 510),
        ("turned", 2 * 510 * 510),
        ("equal", 1),
    ] {
        let answer = model::answer(&skipped::costly(name).unwrap(), Slip::None);
        let first = answer.lines().next().unwrap();
        let field = format!(" skipped {number} checks ");
        assert!(first.contains(&field), "{first}");
    }
}

#[test]
fn stored_answers_are_the_judges() {
    let counts = sample::check(&stored()).unwrap();
    for number in 2..=14 {
        let refused = format!("refused {number:2}");
        assert!(counts.get(&refused) > 0, "{refused} is not in the sample");
    }
}

#[test]
fn every_slip_is_caught_by_the_sample() {
    let stored = stored();
    for &(slip, name, _) in SLIPS {
        let equal = sample::EQUAL.contains(&name);
        let problems = sample::BY_PROBLEMS.contains(&name)
            && plans::catches(&file("sample/transport.txt"), slip);
        assert!(
            equal || problems || sample::catches(&stored, slip),
            "{name}"
        );
    }
}

/// What program `representation` is held to tells the model from its slips.
#[test]
fn stored_pairs_catch_the_slips_of_monomials() {
    let frames = unpack(&bytes("sample/frames.bin")).unwrap();
    let stored = file("../crates/representation/stdout");
    assert!(pairs::of_frames(&frames, Slip::None) == stored);
    for slip in [
        Slip::NoSelfMonomial,
        Slip::SelfOnlyWithoutMember,
        Slip::SelfFirst,
        Slip::SetAsOnce,
        Slip::PadLeftOnly,
        Slip::SkipAtLimit,
        Slip::OneSidedMissing,
        Slip::OperationsAsMet,
    ] {
        assert!(pairs::of_frames(&frames, slip) != stored, "{slip:?}");
    }
}

#[test]
fn transport_problems() {
    assert!(plans::check(&file("sample/transport.txt")).unwrap() > 80);
    plans::compare(9, if cfg!(debug_assertions) { 400 } else { 3_000 }).unwrap();
}

/// After r rounds the root's quality is the least of all derivations of height r.
#[test]
fn rounds_give_the_least_derivations() {
    let mut tiny = 0;
    for family in ["mixed", "twins", "cycle", "identity", "crossed"] {
        let wanted = if cfg!(debug_assertions) { 40 } else { 250 };
        for mut frame in draw(4, wanted, Some(family)) {
            let at = frame.len() - 4;
            frame[at..].copy_from_slice(&[255; 4]);
            let Ok((image, left, right, _)) = model::query(&frame, Slip::None) else {
                continue;
            };
            let Ok((_, outcome)) = model::outcome(&frame, Slip::None) else {
                continue;
            };
            let mut derivations = Derivations::new(&image);
            let last = *outcome.met.root.last().unwrap();
            for height in 0..outcome.met.root.len() + 2 {
                let Some(least) = derivations.least((left, right), height) else {
                    break;
                };
                let least = (u128::from(least.0), u128::from(least.1));
                assert_eq!(least, *outcome.met.root.get(height).unwrap_or(&last));
                tiny += usize::from(height > 0);
            }
        }
    }
    assert!(tiny > 100, "only {tiny} tiny queries");
    println!("{tiny} heights compared");
}

#[test]
fn image_text_and_back() {
    for frame in draw(8, 400, None) {
        if let Ok((image, ..)) = model::query(&frame, Slip::None) {
            let img = Img::of(&image);
            assert_eq!(text::parse(&text::print(&img, &[])), Ok((img, vec![])));
        }
    }
}

/// Read by the first branch the result belongs to the left class, by the second to
/// the right class.
#[test]
fn readings_belong_to_the_queried_classes() {
    let mut read = 0;
    for frame in draw(15, if cfg!(debug_assertions) { 300 } else { 1_500 }, None) {
        let Ok((image, left, right, _)) = model::query(&frame, Slip::None) else {
            continue;
        };
        let Ok((text, outcome)) = model::outcome(&frame, Slip::None) else {
            continue;
        };
        // Written out, a list of this model's readings must stay small.
        let most = outcome.pool.nodes.iter().map(|node| node.runs.len()).max();
        if outcome.pool.nodes[outcome.root].quality.0 > 100_000 || most > Some(65) {
            continue;
        }
        for (branch, class) in [left, right].into_iter().enumerate() {
            let mut reading = Reading::new(&outcome.pool, branch);
            let term = reading.read(outcome.root);
            let belongs = Belongs::new(&image, &reading.pool).belongs(term, class);
            assert!(belongs, "branch {branch} of\n{text}");
        }
        read += 1;
    }
    assert!(read > 200, "only {read} results read");
}

#[test]
fn examples_have_their_listings() {
    for name in ["E", "airport", "night", "luggage", "cap", "zones", "driver"] {
        let (img, queries) = text::parse(&file(&format!("../examples/{name}.txt"))).unwrap();
        let listing = file(&format!("../examples/{name}.listing"));
        let frame = img.frame(&queries[0]);
        assert!(alike(&frame, &listing), "{name}");
        assert_eq!(model::answer(&frame, Slip::None), listing, "{name}");
    }
}
