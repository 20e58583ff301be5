// SPDX-License-Identifier: Apache-2.0
//! What the test of an image costs by its literals: images of 256 classes with 4 members each.
//!
//! The library marks literals in 4,093 slots, by value plus operation, and looks through the members where a slot is shared.
//! Each number is the least of several passes, in microseconds a call, less that of an image with one member, which is the
//! clearing of the buffers. The queried class is not in the image (refusal 11), so that nothing is merged.

use std::hint::black_box;
use std::time::Instant;

use harness::r#gen::{class, lit};
use harness::img::{Img, Operation};
use harness::rng::Rng;
use model::image::verdict;
use model::slip::Slip;
use tariff_merge::raw::Work;

const SLOTS: u32 = 4_093;
const MEMBERS: u32 = 1_024;
const PASSES: usize = 20;
const CALLS: u32 = 40;

/// Members of one kind, four in a class.
fn image(kind: u8, values: &[u32]) -> Vec<u8> {
    let literals = |values: &[u32]| class(values.iter().map(|value| lit(0, *value)).collect());
    let identity = None;
    let mut img = Img {
        ops: vec![Operation { kind, identity }],
        classes: values.chunks(4).map(literals).collect(),
    };
    assert!(img.settle());
    img.bytes()
}

/// Values of different slots, changed.
fn changed(change: impl Fn(&mut [u32])) -> Vec<u8> {
    let mut values: Vec<u32> = (0..MEMBERS).collect();
    change(&mut values);
    image(9, &values)
}

/// The first `count` values have partners among the last, each `apart` more.
fn pairs(count: usize, apart: u32) -> Vec<u8> {
    changed(|values| {
        let (front, back) = values.split_at_mut(512);
        for (one, partner) in front.iter().zip(back.iter_mut().rev()).take(count) {
            *partner = one + apart;
        }
    })
}

/// The last literal of the last class but one also stands in the last.
fn last_two(values: &mut [u32]) {
    values[1_020] = values[1_019];
}

fn images() -> Vec<(String, Vec<u8>)> {
    let one_slot = |values: &mut [u32]| values.iter_mut().for_each(|value| *value *= SLOTS);
    let random = |values: &mut [u32]| {
        let mut rng = Rng::new(1);
        values.fill_with(|| rng.next() as u32);
    };
    let mut found = vec![
        ("no literal".to_string(), image(0, &[0; 1_024])),
        ("each in its slot".to_string(), changed(|_| {})),
        ("drawn from 32 bits".to_string(), changed(random)),
    ];
    for count in [1, 16, 64, 256, 512] {
        let what = format!("pairs of different literals in one slot: {count}");
        found.push((what, pairs(count, SLOTS)));
    }
    found.push(("all in one slot".to_string(), changed(one_slot)));
    for count in [1, 16, 256, 512] {
        found.push((format!("doubled literals: {count}"), pairs(count, 0)));
    }
    let what = "each in its slot, the last two classes share one";
    found.push((what.to_string(), changed(last_two)));
    let both = |values: &mut [u32]| {
        one_slot(values);
        last_two(values);
    };
    let what = "all in one slot, the last two classes share one";
    found.push((what.to_string(), changed(both)));
    found
}

/// Microseconds a call.
fn time(work: &mut Work, image: &[u8]) -> f64 {
    let pass = |_| {
        let start = Instant::now();
        for _ in 0..CALLS {
            // SAFETY: `main` runs this on a thread with 64 MiB of stack.
            black_box(unsafe { work.merge(black_box(image), 0, u16::MAX, 0) });
        }
        start.elapsed().as_secs_f64() * 1e6 / f64::from(CALLS)
    };
    (0..PASSES).map(pass).fold(f64::INFINITY, f64::min)
}

fn judging() {
    let mut work = Work::new(64);
    let least = time(&mut work, &image(9, &[0]));
    println!("| 1,024 members | Verdict | Microseconds |");
    println!("|---|---|---|");
    for (what, image) in images() {
        // SAFETY: as above.
        let returned = unsafe { work.merge(&image, 0, u16::MAX, 0) };
        let said = match returned.number {
            11 => "accepted".to_string(),
            number => format!("refused {number} class {}", returned.class),
        };
        assert_eq!(said, verdict(&image, Slip::None), "{what}");
        let microseconds = time(&mut work, &image) - least;
        println!("| {what} | {said} | {microseconds:.1} |");
    }
    println!("one member: {least:.1} microseconds, taken off");
}

fn main() {
    let thread = std::thread::Builder::new()
        .stack_size(64 << 20)
        .spawn(judging);
    thread.expect("a thread").join().expect("the times");
}
