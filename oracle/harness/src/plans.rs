// SPDX-License-Identifier: Apache-2.0
//! The transport solver alone: random problems, oracle against model, and on tiny
//! problems against every plan there is.

use std::collections::BTreeMap;
use std::io::Write;
use std::process::{Command, Stdio};

use model::image::Refusal;
use model::slip::Slip;
use model::transport::{Problem, solve};

use crate::rng::Rng;

pub struct Drawn {
    pub supply: Vec<u32>,
    pub demand: Vec<u32>,
    pub cells: Vec<Option<(u32, u32)>>,
}

fn problem(drawn: &Drawn) -> Problem {
    Problem {
        supply: drawn.supply.iter().map(|&n| u64::from(n)).collect(),
        demand: drawn.demand.iter().map(|&n| u64::from(n)).collect(),
        cells: drawn
            .cells
            .iter()
            .map(|cell| cell.map(|(s, m)| (u64::from(s), u64::from(m))))
            .collect(),
    }
}

/// The problem as a line of text.
pub fn line(drawn: &Drawn) -> String {
    let words = |numbers: &[u32]| -> String { numbers.iter().map(|n| format!(" {n}")).collect() };
    let cells: String = drawn
        .cells
        .iter()
        .map(|cell| match cell {
            None => " -".to_string(),
            Some((size, mass)) => format!(" {size},{mass}"),
        })
        .collect();
    format!(
        "supply{} demand{} cells{cells}",
        words(&drawn.supply),
        words(&drawn.demand)
    )
}

pub fn parse(line: &str) -> Result<Drawn, String> {
    let wrong = || format!("no problem: {line}");
    let (supply, rest) = line
        .strip_prefix("supply")
        .and_then(|rest| rest.split_once("demand"))
        .ok_or_else(wrong)?;
    let (demand, cells) = rest.split_once("cells").ok_or_else(wrong)?;
    let numbers = |text: &str| -> Option<Vec<u32>> {
        text.split_whitespace()
            .map(|word| word.parse().ok())
            .collect()
    };
    let cell = |word: &str| match word.split_once(',') {
        None => (word == "-").then_some(None),
        Some((size, mass)) => Some(Some((size.parse().ok()?, mass.parse().ok()?))),
    };
    Ok(Drawn {
        supply: numbers(supply).ok_or_else(wrong)?,
        demand: numbers(demand).ok_or_else(wrong)?,
        cells: cells
            .split_whitespace()
            .map(cell)
            .collect::<Option<_>>()
            .ok_or_else(wrong)?,
    })
}

fn spread(rng: &mut Rng, parts: usize, mut total: u64, most: u64) -> Vec<u32> {
    let mut numbers = vec![0u64; parts];
    for at in 0..parts {
        let room = most * (parts - at - 1) as u64;
        let least = total.saturating_sub(room);
        let high = total.min(most);
        let number = if at + 1 == parts {
            high
        } else {
            least + rng.next() % (high - least + 1)
        };
        numbers[at] = number;
        total -= number;
    }
    for at in (1..parts).rev() {
        numbers.swap(at, rng.below(at + 1));
    }
    numbers.iter().map(|&n| n as u32).collect()
}

pub fn draw(rng: &mut Rng) -> Drawn {
    let size = match rng.below(40) {
        0 => 65,
        1..=3 => 20,
        4..=12 => 8,
        _ => 4,
    };
    let least = usize::from(!rng.once_in(50));
    let (rows, columns) = (rng.range(least, size), rng.range(least, size));
    let high = match rng.below(5) {
        0 => u64::from(u32::MAX),
        1 => 30,
        _ => 3,
    };
    let narrow = rows.min(columns) as u64;
    let total = if rng.once_in(30) {
        0
    } else {
        rng.next() % (high * narrow.max(1) + 1)
    };
    let mut supply = spread(rng, rows, total, high);
    let demand = spread(rng, columns, total, high);
    if rng.once_in(20) && !supply.is_empty() {
        let at = rng.below(supply.len());
        supply[at] = supply[at].saturating_sub(1);
    }
    let forbid = *rng.pick(&[3, 6, 1_000, 1_000]);
    let (sizes, masses) = match rng.below(5) {
        0 => (3, 3),
        1 => (6, 40),
        2 => (1, 2),
        3 => (usize::MAX, usize::MAX),
        _ => (20, 9),
    };
    let cost = |rng: &mut Rng, below: usize| match below {
        usize::MAX => u32::MAX - rng.below(5) as u32 * 1_000_000_000,
        _ => rng.below(below) as u32,
    };
    let cells = (0..rows * columns)
        .map(|_| (!rng.once_in(forbid)).then(|| (cost(rng, sizes), cost(rng, masses))))
        .collect();
    Drawn {
        supply,
        demand,
        cells,
    }
}

pub fn by_model(drawn: &Drawn, slip: Slip) -> String {
    match solve(&problem(drawn), slip) {
        Err(Refusal(number)) => format!("refused {number}"),
        Ok(solution) => {
            let plan: Vec<String> = solution.plan.iter().map(u64::to_string).collect();
            format!(
                "size {} mass {} plan {}",
                solution.size,
                solution.mass,
                plan.join(" ")
            )
        }
    }
}

/// The oracle's answer; it knows no refusal 15.
pub fn by_oracle(drawn: &Drawn) -> Option<String> {
    let columns = drawn.demand.len();
    let rows = drawn.supply.len();
    if rows > 65 || columns > 65 || drawn.cells.len() != rows * columns {
        return None;
    }
    let cells = (0..rows)
        .map(|row| drawn.cells[row * columns..(row + 1) * columns].to_vec())
        .collect();
    Some(
        match listed::transport(drawn.supply.clone(), drawn.demand.clone(), cells) {
            None => "refused 16".to_string(),
            Some(solution) => {
                let plan: Vec<String> = solution.flow.concat().iter().map(u32::to_string).collect();
                let (size, mass) = solution.total;
                format!("size {size} mass {mass} plan {}", plan.join(" "))
            }
        },
    )
}

/// The least (size, mass) over every plan, where the problem is tiny; `Some(None)`
/// where there is no plan.
pub fn by_force(drawn: &Drawn) -> Option<Option<(u128, u128)>> {
    let total: u64 = drawn.supply.iter().map(|&n| u64::from(n)).sum();
    if total > 8 || drawn.cells.len() > 12 {
        return None;
    }
    if drawn.cells.is_empty() {
        return Some(None);
    }
    let mut least = None;
    let (mut rows, mut columns) = (drawn.supply.clone(), drawn.demand.clone());
    force(drawn, 0, &mut rows, &mut columns, (0, 0), &mut least);
    Some(least)
}

fn force(
    drawn: &Drawn,
    at: usize,
    rows: &mut Vec<u32>,
    columns: &mut Vec<u32>,
    sum: (u128, u128),
    least: &mut Option<(u128, u128)>,
) {
    if at == drawn.cells.len() {
        if rows.iter().chain(columns.iter()).all(|&left| left == 0) {
            *least = Some(least.map_or(sum, |old| old.min(sum)));
        }
        return;
    }
    let (row, column) = (at / columns.len(), at % columns.len());
    let (most, (size, mass)) = match drawn.cells[at] {
        None => (0, (0, 0)),
        Some(cost) => (rows[row].min(columns[column]), cost),
    };
    for units in 0..=most {
        rows[row] -= units;
        columns[column] -= units;
        let step = |part: u32| u128::from(units) * u128::from(part);
        let next = (sum.0 + step(size), sum.1 + step(mass));
        force(drawn, at + 1, rows, columns, next, least);
        rows[row] += units;
        columns[column] += units;
    }
}

/// Compares on drawn problems; what was met, or the first difference.
pub fn compare(seed: u64, count: usize) -> Result<String, String> {
    let mut rng = Rng::new(seed);
    let (mut solved, mut refused, mut forced, mut largest) = (0, 0, 0, 0);
    for _ in 0..count {
        let drawn = draw(&mut rng);
        let model = by_model(&drawn, Slip::None);
        let oracle = by_oracle(&drawn).ok_or("a drawn problem has the right cells")?;
        if oracle != model {
            return Err(format!(
                "{}\noracle: {oracle}\nmodel: {model}",
                line(&drawn)
            ));
        }
        if let Some(least) = by_force(&drawn) {
            let least = least.map_or("refused 16".to_string(), |(s, m)| {
                format!("size {s} mass {m}")
            });
            if !model.starts_with(&least) {
                return Err(format!("{}\nforce: {least}\nmodel: {model}", line(&drawn)));
            }
            forced += 1;
        }
        largest = largest.max(drawn.cells.len());
        if model.starts_with("refused") {
            refused += 1;
        } else {
            solved += 1;
        }
    }
    Ok(format!(
        "{solved} solved, {refused} refused 16, {forced} of them against every plan, most cells {largest}\n"
    ))
}

/// A drawn problem; once in twelve with 66 rows or columns, or a wrong number of cells.
fn draw_any(rng: &mut Rng) -> Drawn {
    let mut drawn = draw(rng);
    if !rng.once_in(12) {
        return drawn;
    }
    match rng.below(5) {
        0 => drawn.supply = vec![1; 66],
        1 => drawn.demand = vec![1; 66],
        2 => drawn.cells.push(Some((1, 1))),
        3 => {
            drawn.cells.pop();
        }
        _ => drawn.cells.clear(),
    }
    if rng.once_in(2) {
        let count = drawn.supply.len() * drawn.demand.len();
        drawn.cells.resize(count, Some((2, 3)));
    }
    drawn
}

/// Compares the program (a line of input a problem, a line of output an answer) with the
/// oracle, and where the shape is wrong with the model, on drawn problems; what was met,
/// or the first difference.
pub fn program(command: &str, seed: u64, count: usize) -> Result<String, String> {
    // What the program reads at once.
    const ROOM: usize = 262_144;
    let mut rng = Rng::new(seed);
    let mut met: BTreeMap<String, u64> = BTreeMap::new();
    let (mut lines, mut answers) = (String::new(), Vec::new());
    let (mut sent, mut largest, mut cells) = (0, 0, 0u64);
    loop {
        let drawn = (sent < count).then(|| draw_any(&mut rng));
        let next = drawn.as_ref().map_or(String::new(), line);
        if drawn.is_none() || lines.len() + next.len() + 1 > ROOM {
            compare_lines(command, &lines, &answers)?;
            lines.clear();
            answers.clear();
        }
        let Some(drawn) = drawn else { break };
        sent += 1;
        largest = largest.max(drawn.cells.len());
        let answer = by_oracle(&drawn).unwrap_or_else(|| by_model(&drawn, Slip::None));
        let kind = match answer.strip_prefix("refused ") {
            Some(number) => format!("refused {number}"),
            None => {
                cells += drawn.cells.len() as u64;
                "solved".to_string()
            }
        };
        *met.entry(kind).or_insert(0) += 1;
        lines += &next;
        lines.push('\n');
        answers.push(answer);
    }
    let mut text: String = met.iter().map(|(k, n)| format!("{n:>9}  {k}\n")).collect();
    text += &format!("{cells:>9}  cells of plans, most {largest}\n");
    Ok(text)
}

fn compare_lines(command: &str, lines: &str, answers: &[String]) -> Result<(), String> {
    let wrong = |error: std::io::Error| format!("{command}: {error}");
    let mut child = Command::new(command)
        .stdin(Stdio::piped())
        .stdout(Stdio::piped())
        .spawn()
        .map_err(wrong)?;
    let mut input = child.stdin.take().ok_or("no standard input")?;
    let text = lines.to_string();
    let writer = std::thread::spawn(move || input.write_all(text.as_bytes()));
    let output = child.wait_with_output().map_err(wrong)?;
    writer.join().map_err(|_| "no writer")?.map_err(wrong)?;
    let output = String::from_utf8_lossy(&output.stdout).into_owned();
    let mut told = output.lines();
    for (asked, answer) in lines.lines().zip(answers) {
        let told = told.next().unwrap_or("nothing");
        if told != answer {
            return Err(format!("{asked}\noracle: {answer}\nprogram: {told}"));
        }
    }
    match told.next() {
        None => Ok(()),
        Some(more) => Err(format!("the program goes on: {more}")),
    }
}

/// How many of the drawn problems each slip of the solver changes.
pub fn slips(seed: u64, count: usize, slips: &[Slip]) -> String {
    let mut rng = Rng::new(seed);
    let mut changed = vec![0; slips.len()];
    for _ in 0..count {
        let drawn = draw(&mut rng);
        let model = by_model(&drawn, Slip::None);
        for (slip, changed) in slips.iter().zip(&mut changed) {
            *changed += usize::from(by_model(&drawn, *slip) != model);
        }
    }
    slips
        .iter()
        .zip(changed)
        .map(|(slip, changed)| format!("{changed:>9}  {slip:?}\n"))
        .collect()
}

/// The smallest drawn problem that a slip of the solver changes, with its answer.
pub fn catch(seed: u64, count: usize, slip: Slip) -> String {
    let mut rng = Rng::new(seed);
    let changed = |drawn: &Drawn| by_model(drawn, slip) != by_model(drawn, Slip::None);
    (0..count)
        .map(|_| draw(&mut rng))
        .filter(|drawn| drawn.cells.len() <= 20 && changed(drawn))
        .min_by_key(|drawn| (drawn.cells.len(), line(drawn).len()))
        .map_or_else(String::new, |drawn| {
            format!("{}\n  {}\n", line(&drawn), by_model(&drawn, Slip::None))
        })
}

/// The stored problems with their answers: a line each, the answer indented.
pub fn check(stored: &str) -> Result<usize, String> {
    let mut count = 0;
    let mut lines = stored
        .lines()
        .filter(|line| !line.starts_with('#') && !line.is_empty());
    while let (Some(asked), Some(answer)) = (lines.next(), lines.next()) {
        let drawn = parse(asked)?;
        let model = by_model(&drawn, Slip::None);
        let oracle = by_oracle(&drawn).unwrap_or_else(|| model.clone());
        if answer.trim() != model || model != oracle {
            return Err(format!(
                "{asked}\nstored: {answer}\nmodel: {model}\noracle: {oracle}"
            ));
        }
        count += 1;
    }
    Ok(count)
}

/// Whether a stored problem catches a slip.
pub fn catches(stored: &str, slip: Slip) -> bool {
    stored
        .lines()
        .filter_map(|asked| parse(asked).ok())
        .any(|drawn| by_model(&drawn, slip) != by_model(&drawn, Slip::None))
}

/// The P items of "Edges of the rules", refusal 15, and rare orders.
const EDGES: [&str; 15] = [
    "supply 2 1 demand 1 2 cells 1,0 2,2 2,2 2,2",
    "supply demand 1 cells",
    "supply 1 demand cells",
    "supply demand cells",
    "supply 0 demand 0 cells 1,1",
    "supply 1 demand 2 cells 1,1",
    "supply 1 demand 1 cells -",
    "supply 0 demand 0 cells -",
    "supply 1 demand 1 cells 1,1 1,1",
    "supply 1 demand 1 cells",
    "supply 1 demand cells 1,1",
    "supply 4294967295 demand 4294967295 cells 4294967295,4294967295",
    // The order of a column's edges, and the edges that lead back from the sink.
    "supply 1 1 3 demand 3 2 cells - 0,1 0,1 0,0 0,1 0,0",
    "supply 310868728 829044963 186531264 3533700926 2528021569 460417090 demand 3820217976 1077323100 2951043464 cells - 0,1 0,1 1,2 2,0 2,2 2,1 1,2 1,0 1,2 1,2 0,0 2,1 2,1 1,1 2,0 - 0,0",
    "supply 29 30 30 29 demand 30 28 30 30 cells 1,2 1,0 0,1 1,1 2,0 2,1 2,0 2,1 1,0 1,2 1,0 0,1 1,2 0,0 2,1 0,2",
];

/// Problems for the stored sample: each slip of the solver is caught by some.
pub fn sample(seed: u64, slips: &[Slip]) -> String {
    let mut rng = Rng::new(seed);
    let mut chosen: Vec<Drawn> = EDGES.iter().filter_map(|line| parse(line).ok()).collect();
    for (rows, columns) in [(66, 1), (1, 66), (65, 65)] {
        chosen.push(Drawn {
            supply: vec![1; rows],
            demand: vec![1; columns],
            cells: (0..rows * columns)
                .map(|at| Some((at as u32 % 7, at as u32 % 5)))
                .collect(),
        });
    }
    let mut caught = vec![0; slips.len()];
    let mut plain = 0;
    for _ in 0..60_000 {
        let drawn = draw(&mut rng);
        if drawn.cells.len() > 30 {
            continue;
        }
        let model = by_model(&drawn, Slip::None);
        let mut wanted = plain < 60 && rng.once_in(5);
        plain += usize::from(wanted);
        for (slip, caught) in slips.iter().zip(&mut caught) {
            if *caught < 6 && by_model(&drawn, *slip) != model {
                *caught += 1;
                wanted = true;
            }
        }
        if wanted {
            chosen.push(drawn);
        }
    }
    let mut text = String::from(
        "# Transport problems and the oracle's answers (15: the model's). See HOW.md.\n",
    );
    for drawn in chosen {
        text += &format!("{}\n  {}\n", line(&drawn), by_model(&drawn, Slip::None));
    }
    text
}
