// SPDX-License-Identifier: Apache-2.0
//! The harness: see README.md for its commands.

use std::io::{Read, Write};

use harness::cards::{Kind, with};
use harness::drive::{Counts, compare};
use harness::img::{Img, Query};
use harness::judge::{Judge, as_the_rust, pack, unpack};
use harness::{
    budgets, cards, children, damage, draw, limits, pairs, plans, sample, skipped, small, text,
    turned, verdicts,
};
use model::card_slip::CardSlip;
use model::slip::{SLIPS, Slip};

fn stdin() -> Result<Vec<u8>, String> {
    let mut bytes = Vec::new();
    std::io::stdin()
        .read_to_end(&mut bytes)
        .map_err(|why| why.to_string())?;
    Ok(bytes)
}

fn stdout(bytes: &[u8]) -> Result<(), String> {
    std::io::stdout()
        .write_all(bytes)
        .map_err(|why| why.to_string())
}

fn read(path: &str) -> Result<Vec<u8>, String> {
    std::fs::read(path).map_err(|why| format!("{path}: {why}"))
}

fn read_text(path: &str) -> Result<String, String> {
    String::from_utf8(read(path)?).map_err(|why| format!("{path}: {why}"))
}

fn write(path: &str, bytes: &[u8]) -> Result<(), String> {
    std::fs::write(path, bytes).map_err(|why| format!("{path}: {why}"))
}

/// The slips that touch the transport solver.
const SOLVER_SLIPS: [Slip; 5] = [
    Slip::StackQueue,
    Slip::LooseRelax,
    Slip::PathsBySizeThenMass,
    Slip::VFromOpenCells,
    Slip::ColumnsFirst,
];

/// The stored sample of a folder.
fn stored(folder: &str) -> Result<Vec<sample::Stored>, String> {
    let frames = unpack(&read(&format!("{folder}/frames.bin"))?)?;
    let answers = unpack(&read(&format!("{folder}/answers.bin"))?)?;
    if frames.len() != answers.len() {
        return Err("as many answers as frames".to_string());
    }
    Ok(frames
        .into_iter()
        .zip(answers)
        .map(|(frame, answer)| sample::Stored { frame, answer })
        .collect())
}

fn number(word: &str) -> Result<u64, String> {
    word.parse().map_err(|_| format!("{word:?} is no number"))
}

/// Which of the calls on cards is meant.
fn card_kind(word: &str) -> Result<Kind, String> {
    match word {
        "card" => Ok(Kind::Card),
        "read_card" => Ok(Kind::ReadCard),
        "lines" => Ok(Kind::Lines),
        _ => Err(format!("{word:?} is none of card, read_card, lines")),
    }
}

/// The image of a text with its query, where it has one.
fn text_frame(text: &str) -> Result<Vec<u8>, String> {
    let (img, queries) = text::parse(text)?;
    match &queries[..] {
        [] => Ok(img.bytes()),
        [query] => Ok(img.frame(query)),
        _ => Err("more than one query: give one, or none for the image alone".into()),
    }
}

fn compare_frames(a: &str, b: &str, frames: &[Vec<u8>]) -> Result<(), String> {
    let mut counts = Counts::default();
    let (first, second) = (Judge::parse(a)?, Judge::parse(b)?);
    let mut done = 0;
    for part in frames.chunks(1_000) {
        if let Some(difference) = compare(&first, &second, part, &mut counts)? {
            print!("{}", difference.print(a, b));
            return Err(format!("a difference in frame {}", done + difference.at));
        }
        done += part.len();
    }
    print!("{}", counts.print());
    println!("no difference between {a} and {b}");
    Ok(())
}

fn main() {
    let words: Vec<String> = std::env::args().skip(1).collect();
    let words: Vec<&str> = words.iter().map(String::as_str).collect();
    let done = run(&words);
    if let Err(why) = done {
        eprintln!("{why}");
        std::process::exit(1);
    }
}

fn run(words: &[&str]) -> Result<(), String> {
    match words {
        ["small", source] => {
            print!("{}", small::small(&read_text(source)?)?);
            Ok(())
        }
        ["queries", source] => {
            print!("{}", small::queries(&read_text(source)?)?);
            Ok(())
        }
        ["again", path] => {
            print!("{}", small::again(&read_text(path)?)?);
            Ok(())
        }
        ["as-the-rust"] => {
            let dropped = as_the_rust(&stdin()?);
            stdout(
                &dropped
                    .ok_or("the first line does not end with skipped and checks")?
                    .listing,
            )
        }
        ["adversary"] => Err(format!("one of {}", skipped::COSTLY.join(", "))),
        ["adversary", name] => stdout(&skipped::costly(name).ok_or("no such adversary")?),
        ["draw", seed, count] => stdout(&pack(&draw(number(seed)?, number(count)? as usize, None))),
        ["draw", seed, count, family] => {
            let frames = draw(number(seed)?, number(count)? as usize, Some(family));
            stdout(&pack(&frames))
        }
        ["random", a, b, seed, count] => {
            compare_frames(a, b, &draw(number(seed)?, number(count)? as usize, None))
        }
        ["random", a, b, seed, count, family] => {
            let frames = draw(number(seed)?, number(count)? as usize, Some(family));
            compare_frames(a, b, &frames)
        }
        ["budgets", a, b, seed, count, family @ ..] if family.len() < 2 => {
            let count = number(count)? as usize;
            let drawn = draw(number(seed)?, 20 * count, family.first().copied());
            let (queries, frames) = budgets::every(&drawn, count);
            println!("{queries} queries, {} frames", frames.len());
            compare_frames(a, b, &frames)
        }
        ["turned", judge, seed, count, family @ ..] if family.len() < 2 => {
            let count = number(count)? as usize;
            let drawn = draw(number(seed)?, count, family.first().copied());
            let asked = Judge::parse(judge)?;
            let mut counts = Counts::default();
            let mut runs = |frames: &[Vec<u8>]| turned::by_judge(&asked, frames);
            turned::turned(&drawn, &mut runs, &mut counts)?;
            print!("{}", counts.print());
            println!("{judge}: the queries and the turned ones are as promised");
            Ok(())
        }
        ["children", seed, count] => {
            print!(
                "{}",
                children::module(number(seed)?, number(count)? as usize)
            );
            Ok(())
        }
        ["card-input", path] => {
            let text = String::from_utf8(stdin()?).map_err(|why| why.to_string())?;
            let table = cards::table_text(&read_text(path)?)?;
            stdout(&cards::input(&table, &text_frame(&text)?))
        }
        ["read-card-input", path] => {
            let table = cards::table_text(&read_text(path)?)?;
            stdout(&cards::input(&table, &stdin()?))
        }
        ["card-draw", kind, seed, count] => {
            let drawn = with::draw(number(seed)?, number(count)? as usize, card_kind(kind)?);
            stdout(&pack(&drawn))
        }
        ["card-with", kind, command, seed, count] => {
            let kind = card_kind(kind)?;
            let made = cards::sample::fixed()
                .into_iter()
                .chain(cards::sample::large());
            let mut inputs: Vec<Vec<u8>> = made
                .filter(|case| case.1 == kind)
                .map(|case| case.2)
                .collect();
            inputs.extend(with::draw(number(seed)?, number(count)? as usize, kind));
            print!("{}", with::compare(command, kind, &inputs)?);
            Ok(())
        }
        ["card-cases"] => {
            let made = cards::sample::fixed()
                .into_iter()
                .chain(cards::sample::large());
            for (what, kind, input) in made {
                let answer = with::answer(kind, &input, CardSlip::None);
                let bytes = answer.len();
                let line: String = answer
                    .lines()
                    .next()
                    .unwrap_or("")
                    .chars()
                    .take(60)
                    .collect();
                println!(
                    "{:>6} bytes  {kind:?}, {what}: {bytes} bytes, {line}",
                    input.len()
                );
            }
            Ok(())
        }
        ["card-sample", seed] => stdout(&cards::sample::stream(&cards::sample::choose(number(
            seed,
        )?))),
        ["card-meets", path] => {
            let stored = cards::sample::read(&read(path)?)?;
            for (what, count) in cards::sample::counts(&stored) {
                println!("{count:>9}  {what}");
            }
            println!("{:>9}  in all", stored.len());
            Ok(())
        }
        ["card-slips", path] => {
            let stored = cards::sample::read(&read(path)?)?;
            for (name, meaning, caught) in cards::sample::table(&stored, 6) {
                let caught: Vec<String> = caught.iter().map(usize::to_string).collect();
                println!("| {name} | {meaning} | {} |", caught.join(" "));
            }
            Ok(())
        }
        ["plans", seed, count] => {
            print!(
                "{}",
                plans::compare(number(seed)?, number(count)? as usize)?
            );
            Ok(())
        }
        ["plans-with", command, seed, count] => {
            print!(
                "{}",
                plans::program(command, number(seed)?, number(count)? as usize)?
            );
            Ok(())
        }
        ["plans-slips", seed, count] => {
            print!(
                "{}",
                plans::slips(number(seed)?, number(count)? as usize, &SOLVER_SLIPS)
            );
            Ok(())
        }
        ["plans-catch", name, seed, count] => {
            let slip = SLIPS.iter().find(|slip| slip.1 == *name);
            let slip = slip.ok_or("no such slip")?.0;
            print!(
                "{}",
                plans::catch(number(seed)?, number(count)? as usize, slip)
            );
            Ok(())
        }
        ["plans-sample", seed] => {
            print!("{}", plans::sample(number(seed)?, &SOLVER_SLIPS));
            Ok(())
        }
        ["sample", seed, folder] => {
            let source = read_text(&format!("{folder}/small.images"))?;
            let stored = sample::choose(&source, number(seed)?, 20_000)?;
            let (frames, answers): (Vec<_>, Vec<_>) =
                stored.into_iter().map(|s| (s.frame, s.answer)).unzip();
            write(&format!("{folder}/frames.bin"), &pack(&frames))?;
            write(&format!("{folder}/answers.bin"), &pack(&answers))
        }
        ["meets", folder] => {
            print!("{}", sample::check(&stored(folder)?)?.print());
            Ok(())
        }
        ["slips", folder] => {
            for (name, meaning, caught) in sample::table(&stored(folder)?) {
                let some: Vec<String> = caught.iter().take(6).map(usize::to_string).collect();
                println!(
                    "| {name} | {meaning} | {} | {} |",
                    caught.len(),
                    some.join(" ")
                );
            }
            Ok(())
        }
        ["limits"] => {
            for (what, frame) in limits::cases() {
                let answer = model::answer(&frame, model::slip::Slip::None);
                let line = answer.lines().next().unwrap_or("");
                println!("{:>6} bytes  {what}: {line}", frame.len());
            }
            Ok(())
        }
        ["callers"] => {
            for (pairs, frame) in limits::callers() {
                let first = |limit| {
                    let answer = model::answer_within(limit, &frame, Slip::None);
                    answer.lines().next().unwrap_or("").to_string()
                };
                let (page, desk) = (first(model::PAGE), first(model::DESK));
                println!(
                    "{:>6} bytes  {pairs} pairs: page {page}, desk {desk}",
                    frame.len()
                );
            }
            Ok(())
        }
        ["frames", "callers"] => {
            let frames: Vec<Vec<u8>> = limits::callers().into_iter().map(|case| case.1).collect();
            stdout(&pack(&frames))
        }
        ["frames", "limits"] => {
            let frames: Vec<Vec<u8>> = limits::cases().into_iter().map(|case| case.1).collect();
            stdout(&pack(&frames))
        }
        ["frames", "damaged"] => {
            let frames: Vec<Vec<u8>> = damage::small().into_iter().map(|case| case.1).collect();
            stdout(&pack(&frames))
        }
        ["frames", "adversaries"] => {
            let frames = skipped::COSTLY
                .iter()
                .filter_map(|name| skipped::costly(name));
            stdout(&pack(&frames.collect::<Vec<_>>()))
        }
        ["images", "damaged"] => stdout(&pack(&verdicts::damaged())),
        ["verdicts"] => stdout(verdicts::lines(&unpack(&stdin()?)?).as_bytes()),
        ["verdicts-with", command, seed, count, family @ ..] if family.len() < 2 => {
            let frames = draw(
                number(seed)?,
                number(count)? as usize,
                family.first().copied(),
            );
            print!("{}", verdicts::compare(command, &verdicts::images(frames))?);
            Ok(())
        }
        ["compare", a, b, path] => compare_frames(a, b, &unpack(&read(path)?)?),
        ["answer", judge] => stdout(&pack(&Judge::parse(judge)?.answers(&unpack(&stdin()?)?)?)),
        ["interleave", frames, answers] => {
            let (frames, answers) = (unpack(&read(frames)?)?, unpack(&read(answers)?)?);
            let both: Vec<Vec<u8>> = frames
                .into_iter()
                .zip(answers)
                .flat_map(|(frame, answer)| [frame, answer])
                .collect();
            stdout(&pack(&both))
        }
        ["pairs", path] => {
            let frames = unpack(&read(path)?)?;
            stdout(pairs::of_frames(&frames, Slip::None).as_bytes())
        }
        ["bytes"] => {
            let text = String::from_utf8(stdin()?).map_err(|why| why.to_string())?;
            stdout(&text_frame(&text)?)
        }
        ["text"] => {
            let bytes = stdin()?;
            let none = model::slip::Slip::None;
            if let Ok((image, left, right, budget)) = model::query(&bytes, none) {
                let query = Query {
                    left,
                    right,
                    budget,
                };
                return stdout(text::print(&Img::of(&image), &[query]).as_bytes());
            }
            let image = model::image::accept(&bytes, none)
                .map_err(|refusal| format!("refused {}", refusal.0))?;
            stdout(text::print(&Img::of(&image), &[]).as_bytes())
        }
        _ => Err("see README.md for the commands".to_string()),
    }
}
