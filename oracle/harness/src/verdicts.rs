// SPDX-License-Identifier: Apache-2.0
//! Images alone, and the model's verdicts on them, as program `verdict` writes them.

use std::collections::BTreeMap;

use model::image::verdict;
use model::slip::Slip;

use crate::damage;
use crate::judge::{call, pack};

/// What program `verdict` reads at most.
const INPUT: usize = 65_536;

/// The images of frames: without the query, where there is one.
pub fn images(frames: Vec<Vec<u8>>) -> Vec<Vec<u8>> {
    let image = |mut frame: Vec<u8>| {
        frame.truncate(frame.len().checked_sub(8).unwrap_or(frame.len()));
        frame
    };
    frames.into_iter().map(image).collect()
}

/// The images of every damaged frame, those about rule 10 last.
pub fn damaged() -> Vec<Vec<u8>> {
    let frames = damage::small().into_iter().chain(damage::doubled());
    images(frames.map(|case| case.1).collect())
}

/// A line for each image.
pub fn lines(images: &[Vec<u8>]) -> String {
    let line = |image: &Vec<u8>| verdict(image, Slip::None) + "\n";
    images.iter().map(line).collect()
}

/// Images in parts that program `verdict` can read.
fn parts(images: &[Vec<u8>]) -> Vec<&[Vec<u8>]> {
    let mut parts = Vec::new();
    let (mut from, mut bytes) = (0, 0);
    for (at, image) in images.iter().enumerate() {
        bytes += 4 + image.len();
        if bytes > INPUT {
            parts.push(&images[from..at]);
            (from, bytes) = (at, 4 + image.len());
        }
    }
    parts.push(&images[from..]);
    parts
}

/// A program against the model, image by image; the counts of the model's verdicts.
pub fn compare(command: &str, images: &[Vec<u8>]) -> Result<String, String> {
    let mut counts: BTreeMap<String, usize> = BTreeMap::new();
    let parts = parts(images);
    for part in &parts {
        let said = String::from_utf8_lossy(&call(command, &pack(part))?).into_owned();
        let said: Vec<&str> = said.lines().collect();
        if said.len() != part.len() {
            let (lines, images) = (said.len(), part.len());
            return Err(format!("{command}: {lines} lines to {images} images"));
        }
        for (image, said) in part.iter().zip(said) {
            let line = verdict(image, Slip::None);
            if said != line {
                return Err(format!("{command}: {said}; model: {line}; {image:?}"));
            }
            let kind = line.split(" class").next().unwrap_or("");
            *counts.entry(kind.to_string()).or_insert(0) += 1;
        }
    }
    let mut text = String::new();
    for (kind, count) in counts {
        text += &format!("{count:>9}  {kind}\n");
    }
    let (images, parts) = (images.len(), parts.len());
    text += &format!("{images} images in {parts} inputs, no difference\n");
    Ok(text)
}
