// SPDX-License-Identifier: Apache-2.0
//! Random and mutated inputs for the static library: `fuzz SEED COUNT [FAMILY]`.
//!
//! Each call gets an image that is random bytes, a drawn frame, or a drawn frame with bytes changed, cut off or added,
//! with a small budget. With a family every call gets a drawn frame of it, also a large one; those of family `doubled` are
//! changed rarely, so that most reach rule 10. All buffers hold garbage before the call, and now and then one is too short.
//! Afterwards: the number is in the table; the output is untouched on a refusal, and untouched behind the listing otherwise;
//! every work buffer is zero, or as it was where one was too short; the answer is the model's, with 10 also the class,
//! which is 0 with every other number; and a listing's checks are 2n + (r + 1)(n + 1) where it is complete, else the budget.

use std::collections::BTreeMap;

use bench::buffers::{Buffers, Expected, checks_hold};
use bench::seed_count_family;
use harness::draw;
use harness::r#gen;
use harness::rng::Rng;
use tariff_merge::Caller;

const OUTPUT: usize = 2_048;

/// The buffer that is too short now and then: the terms'.
const SHORT: usize = 4;

/// Drawn frames.
enum Drawn {
    /// Small ones of all families, each taken again and again.
    Small(Vec<Vec<u8>>),
    /// Of one family, drawn as they are taken.
    Family(&'static str, Rng, Vec<Vec<u8>>),
}

impl Drawn {
    fn new(seed: u64, family: Option<&'static str>) -> Drawn {
        if let Some(name) = family {
            return Drawn::Family(name, Rng::new(!seed), Vec::new());
        }
        let mut frames = draw(seed, 4_000, None);
        frames.retain(|frame| (8..700).contains(&frame.len()));
        Drawn::Small(frames)
    }

    fn take(&mut self, rng: &mut Rng) -> Vec<u8> {
        match self {
            Drawn::Small(frames) => rng.pick(frames).clone(),
            Drawn::Family(name, own, frames) => loop {
                match frames.pop() {
                    Some(frame) if frame.len() >= 8 => return frame,
                    Some(_) => {}
                    None => *frames = r#gen::frames(own, name),
                }
            },
        }
    }
}

/// An image, and a query of eight bytes.
fn input(rng: &mut Rng, drawn: &mut Drawn) -> (Vec<u8>, [u8; 8]) {
    let mut query = [0; 8];
    let mut image: Vec<u8>;
    if matches!(drawn, Drawn::Small(_)) && rng.below(8) == 0 {
        image = (0..rng.below(80)).map(|_| rng.below(256) as u8).collect();
        query.fill_with(|| rng.below(4) as u8);
    } else {
        let frame = drawn.take(rng);
        let (front, last) = frame.split_last_chunk::<8>().expect("a query");
        image = front.to_vec();
        query = *last;
    }
    let changes = match drawn {
        Drawn::Family("doubled", ..) if rng.below(32) > 0 => 0,
        _ => rng.below(4),
    };
    for _ in 0..changes {
        let at = rng.below(image.len() + 1);
        match rng.below(6) {
            0 if at < image.len() => image[at] ^= 1 << rng.below(8),
            1 if at < image.len() => image[at] = rng.below(256) as u8,
            2 if at < image.len() => image[at] = image[at].wrapping_add(1),
            3 => image.truncate(at),
            4 => image.insert(at, rng.below(256) as u8),
            _ => query[rng.below(4)] = rng.below(16) as u8,
        }
    }
    if rng.below(2) == 0 {
        query[4..8].copy_from_slice(&(rng.below(200) as u32).to_be_bytes());
    }
    (image, query)
}

fn fuzz(seed: u64, count: usize, family: Option<&'static str>) -> BTreeMap<u32, u64> {
    let mut rng = Rng::new(seed);
    let mut drawn = Drawn::new(seed, family);
    let mut buffers = Buffers::new(OUTPUT);
    let mut met = BTreeMap::new();
    for turn in 0..count {
        let (image, query) = input(&mut rng, &mut drawn);
        let short = rng.below(500) == 0;
        buffers.fill();
        // SAFETY: `main` runs this on a thread with 64 MiB of stack.
        let r =
            unsafe { buffers.call(Caller::Desk, &image, query, short.then_some(SHORT), OUTPUT) };
        let expected = if short {
            Expected::refused(1)
        } else {
            Expected::of(Caller::Desk, &image, query, OUTPUT)
        };
        let right = buffers.hold(r, &expected, short)
            && (r.number != 0 || checks_hold(&buffers.out[..r.bytes], query));
        assert!(
            right,
            "turn {turn} of seed {seed}: {r:?}, expected {expected:?}; image {image:02x?} query {query:02x?}"
        );
        *met.entry(r.number).or_insert(0) += 1;
    }
    met
}

fn main() {
    let Some((seed, count, family)) = seed_count_family() else {
        eprintln!("fuzz SEED COUNT [FAMILY]");
        std::process::exit(2);
    };
    let met = std::thread::Builder::new()
        .stack_size(64 << 20)
        .spawn(move || fuzz(seed, count, family))
        .expect("a thread")
        .join()
        .expect("no difference");
    for (number, times) in met {
        println!(
            "{times:>9}  {}",
            if number == 0 {
                "listing".to_string()
            } else {
                format!("refused {number}")
            }
        );
    }
    println!("{count} calls, each as promised");
}
