// SPDX-License-Identifier: Apache-2.0
//! The oracle as a program. It reads what program `merge` reads and prints the
//! listing. `--stream`: frames in, answers out, each behind its 4-byte length.
//! `--pruning`: with the Rust's pruning.

use std::io::{Read, Write};

fn main() -> std::io::Result<()> {
    let words: Vec<String> = std::env::args().skip(1).collect();
    let flag = |name: &str| words.iter().any(|word| word == name);
    let mut input = Vec::new();
    std::io::stdin().read_to_end(&mut input)?;
    let mut output = std::io::BufWriter::new(std::io::stdout());
    if !flag("--stream") {
        return write!(
            output,
            "{}",
            listed::answer(&input, flag("--pruning")).text()
        );
    }
    let mut rest = &input[..];
    while let Some((head, tail)) = rest.split_first_chunk::<4>() {
        let (frame, after) = tail.split_at(u32::from_be_bytes(*head) as usize);
        let answer = listed::answer(frame, flag("--pruning"));
        output.write_all(&(answer.text().len() as u32).to_be_bytes())?;
        output.write_all(answer.text().as_bytes())?;
        rest = after;
    }
    Ok(())
}
