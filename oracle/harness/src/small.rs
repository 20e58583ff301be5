// SPDX-License-Identifier: Apache-2.0
//! small.txt: small queries and damaged images with their answers, as text. One
//! line of decimal frame bytes, the answer's lines indented by two spaces, a blank
//! line. Lines of a `#` say what comes.

use crate::damage;
use crate::img::{Img, Query};
use crate::sample::judged;
use crate::text;

fn entry(out: &mut String, frame: &[u8], answer: &str) {
    let bytes: Vec<String> = frame.iter().map(u8::to_string).collect();
    out.push_str(&bytes.join(" "));
    out.push('\n');
    for line in answer.lines() {
        out.push_str(&format!("  {line}\n"));
    }
    out.push('\n');
}

/// The images of a file with lines `== name`.
pub fn images(source: &str) -> Result<Vec<(String, Img, Vec<Query>)>, String> {
    let mut found = Vec::new();
    for part in source.split("\n== ").skip(1) {
        let (name, body) = part.split_once('\n').unwrap_or((part, ""));
        let (img, queries) = text::parse(body).map_err(|why| format!("{name}: {why}"))?;
        found.push((name.to_string(), img, queries));
    }
    Ok(found)
}

/// A frame with its answer: the model's, with which the oracle agrees (`judged`).
fn asked(out: &mut String, frame: &[u8]) -> Result<(), String> {
    let answer = judged(frame)?;
    entry(out, frame, &String::from_utf8_lossy(&answer));
    Ok(())
}

/// The queries of a file of images, each held by the oracle.
pub fn queries(source: &str) -> Result<String, String> {
    let mut out = String::new();
    for (name, img, queries) in images(source)? {
        out.push_str(&format!("# {name}\n"));
        for query in &queries {
            let frame = img.frame(query);
            let oracle = listed::answer(&frame, false);
            if !matches!(oracle, listed::Answer::Listing { .. }) {
                return Err(format!("{name}, {query:?}: {}", oracle.text()));
            }
            asked(&mut out, &frame).map_err(|why| format!("{name}, {query:?}: {why}"))?;
        }
    }
    Ok(out)
}

/// The queries of a file of images, and the damaged images.
pub fn small(source: &str) -> Result<String, String> {
    let mut out = queries(source)?;
    for (what, frame) in damage::small() {
        out.push_str(&format!("# {what}\n"));
        asked(&mut out, &frame)?;
    }
    Ok(out)
}

/// A text of this form with each frame asked again.
pub fn again(text: &str) -> Result<String, String> {
    let mut out = String::new();
    for line in text.lines() {
        if line.starts_with('#') {
            out.push_str(&format!("{line}\n"));
        } else if line.starts_with(|first: char| first.is_ascii_digit()) {
            let frame: Result<Vec<u8>, _> = line.split(' ').map(str::parse).collect();
            asked(&mut out, &frame.map_err(|why| format!("{line}: {why}"))?)?;
        }
    }
    Ok(out)
}
