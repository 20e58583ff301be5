// SPDX-License-Identifier: Apache-2.0
//! A model as a program: one input and its answer, or with `--stream` any number of them, each
//! behind its 4-byte length.

use std::io::{Read, Write};

pub fn serve(answer: impl Fn(&[u8]) -> String) -> std::io::Result<()> {
    let stream = std::env::args().skip(1).any(|word| word == "--stream");
    let mut input = Vec::new();
    std::io::stdin().read_to_end(&mut input)?;
    let mut output = std::io::BufWriter::new(std::io::stdout());
    if !stream {
        return write!(output, "{}", answer(&input));
    }
    let mut rest = &input[..];
    while let Some((head, tail)) = rest.split_first_chunk::<4>() {
        let (frame, after) = tail.split_at(u32::from_be_bytes(*head) as usize);
        let answer = answer(frame);
        output.write_all(&(answer.len() as u32).to_be_bytes())?;
        output.write_all(answer.as_bytes())?;
        rest = after;
    }
    Ok(())
}
