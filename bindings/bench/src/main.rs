// SPDX-License-Identifier: Apache-2.0
//! The listed Rust and the static library on the same queries, in one process and one thread.
//!
//! listed: the listed Rust from the frame to the listing. snapshot: the part of it that reads the
//! frame and makes the snapshot, before the run. library: `tariff_merge`, or of the quote page's
//! families `tariff_quote`, from the image to the listing, with its test of the image and with all
//! work buffers cleared. Merger: the same through the safe interface, with the hand-over to its
//! thread and with the listing parsed. Each number is the least of several passes over the family,
//! in microseconds a query. Where the page refuses, the listed Rust's time is that of its whole run.

use std::hint::black_box;
use std::time::{Duration, Instant};

use bench::{Family, families};
use harness::judge::Said;
use listed::au::egraph_api::AuSnapshot;
use listed::config::ImageConfig;
use listed::egraph::EGraph;
use tariff_merge::Merger;
use tariff_merge::raw::Work;

type Graph = EGraph<ImageConfig, u32, false, false>;

struct Asked<'a> {
    frame: &'a [u8],
    image: &'a [u8],
    left: u16,
    right: u16,
    budget: u32,
}

impl<'a> Asked<'a> {
    fn of(frame: &'a [u8]) -> Option<Asked<'a>> {
        let (image, &[a, b, c, d, e, f, g, h]) = frame.split_last_chunk::<8>()?;
        Some(Asked {
            frame,
            image,
            left: u16::from_be_bytes([a, b]),
            right: u16::from_be_bytes([c, d]),
            budget: u32::from_be_bytes([e, f, g, h]),
        })
    }
}

/// The queries of a family that both can answer, with the listed Rust's answers.
fn answered(family: &Family) -> Vec<(Asked<'_>, Said)> {
    let mut found = Vec::new();
    for frame in &family.frames {
        let said = Said::of_oracle(frame, false);
        if said.counted.is_some()
            && let Some(asked) = Asked::of(frame)
        {
            found.push((asked, said));
        }
    }
    found
}

fn least(passes: usize, mut pass: impl FnMut()) -> Duration {
    let once = |pass: &mut dyn FnMut()| {
        let start = Instant::now();
        pass();
        start.elapsed()
    };
    (0..passes).map(|_| once(&mut pass)).min().expect("a pass")
}

fn measure(family: &Family, work: &mut Work, merger: &mut Merger) {
    let caller = family.caller;
    let mut asked = answered(family);
    let mut refused = 0;
    asked.retain(|(q, said)| {
        // SAFETY: `main` runs this on a thread with 64 MiB of stack.
        let returned = unsafe { work.merge_for(caller, q.image, q.left, q.right, q.budget) };
        if returned.number == 0 {
            // The Rust does not write the first line's last two fields; its checks are counted.
            let ours = &work.output()[..returned.bytes];
            assert!(said.agrees(ours), "the answers differ");
        }
        let kept = returned.number == family.number;
        refused += usize::from(!kept);
        kept
    });
    let count = asked.len();
    let listed = || {
        for (q, _) in &asked {
            black_box(listed::answer(q.frame, false));
        }
    };
    let start = Instant::now();
    listed();
    let passes = (400_000_000 / (start.elapsed().as_nanos() + 1)).clamp(3, 2_000) as usize;
    let times = [
        least(passes, listed),
        least(passes, || {
            for (q, _) in &asked {
                let read = listed::image::read(q.frame).expect("accepted");
                let graph: Graph = EGraph::new(read.image);
                black_box(&AuSnapshot::new(&graph));
            }
        }),
        least(passes, || {
            for (q, _) in &asked {
                // SAFETY: as above.
                black_box(unsafe { work.merge_for(caller, q.image, q.left, q.right, q.budget) });
            }
        }),
        least(passes, || {
            for (q, _) in &asked {
                let _ = black_box(merger.merge_for(caller, q.image, q.left, q.right, q.budget));
            }
        }),
    ]
    .map(|time| time.as_secs_f64() * 1e6 / count as f64);
    let [listed, snapshot, library, safe] = times;
    // two digits that say something
    let ratio = |x: f64| format!("{x:.*}", if x < 0.1 { 3 } else { 2 });
    println!(
        "| {} | {count} | {listed:.1} | {snapshot:.1} | {library:.1} | {safe:.1} | {} | {} |",
        family.name,
        ratio(library / listed),
        ratio(library / (listed - snapshot)),
    );
    if refused > 0 {
        println!("  ({refused} refused by a limit and left out)");
    }
}

fn main() {
    let bench = || {
        println!(
            "| Queries | Count | listed | snapshot | library | Merger | library / listed | library / (listed - snapshot) |"
        );
        println!("|---|---|---|---|---|---|---|---|");
        let (mut work, mut merger) = (Work::new(Merger::OUTPUT), Merger::new());
        for family in families() {
            measure(&family, &mut work, &mut merger);
        }
    };
    let thread = std::thread::Builder::new()
        .stack_size(64 << 20)
        .spawn(bench);
    thread.expect("a thread").join().expect("the bench");
}
