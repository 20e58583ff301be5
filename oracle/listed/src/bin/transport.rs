// SPDX-License-Identifier: Apache-2.0
//! The listed transport solver alone, one problem a line:
//!
//! ```text
//! supply 2 1 demand 1 2 cells 1,0 2,2 2,2 2,2
//! ```
//!
//! Cells stand row by row, `-` for a forbidden one. The answer is a line
//! `size S mass M plan ..` (row by row) or `refused 16`.

use std::io::BufRead;

type Cells = Vec<Option<(u32, u32)>>;

fn parse(line: &str) -> Option<(Vec<u32>, Vec<u32>, Cells)> {
    let (supply, rest) = line.strip_prefix("supply")?.split_once("demand")?;
    let (demand, cells) = rest.split_once("cells")?;
    let numbers = |text: &str| -> Option<Vec<u32>> {
        text.split_whitespace()
            .map(|word| word.parse().ok())
            .collect()
    };
    let cell = |word: &str| match word.split_once(',') {
        None if word == "-" => Some(None),
        None => None,
        Some((size, mass)) => Some(Some((size.parse().ok()?, mass.parse().ok()?))),
    };
    let cells = cells
        .split_whitespace()
        .map(cell)
        .collect::<Option<Cells>>()?;
    Some((numbers(supply)?, numbers(demand)?, cells))
}

fn main() {
    for line in std::io::stdin().lock().lines() {
        let line = line.expect("lines of text");
        let Some((supply, demand, cells)) = parse(&line) else {
            println!("unreadable");
            continue;
        };
        let columns = demand.len();
        if cells.len() != supply.len() * columns {
            println!("unreadable");
            continue;
        }
        let rows = (0..supply.len())
            .map(|row| cells[row * columns..(row + 1) * columns].to_vec())
            .collect();
        match listed::transport(supply, demand, rows) {
            None => println!("refused 16"),
            Some(solution) => {
                let plan: Vec<String> = solution.flow.concat().iter().map(u32::to_string).collect();
                println!(
                    "size {} mass {} plan {}",
                    solution.total.0,
                    solution.total.1,
                    plan.join(" ")
                );
            }
        }
    }
}
