// SPDX-License-Identifier: Apache-2.0
//! The quote page and the account desk on the same queries: `callers SEED COUNT [FAMILY]`.
//!
//! Each query goes through `tariff_quote` and `tariff_merge`, in buffers that are alike and hold garbage before the call,
//! and through the model with 256 and with 4,096 pairs. Some queries have a budget of at most 600 checks, some little room
//! in the output, and now and then one of the work buffers is one number too short. Afterwards:
//!
//! - each answer is the model's, and each buffer as promised; a listing's checks are those that its run spends;
//! - where the page has a listing, the desk has it too, and every buffer is the same;
//! - where the page is refused by another number than 12, so is the desk, and every buffer is the same;
//! - where the page is refused by 12 and the desk has a listing that says how many pairs there are, they are above 256.
//!
//! Without a family, the queries are drawn of all families by weight, a fifth of family `page` (about 256 pairs) and some of
//! each family that is drawn by name only. Behind them come graphs of 255 to 257, 4,096 and 4,097 pairs, and one of 243 pairs
//! with more runs than there may be, at fixed budgets.

use std::collections::BTreeMap;

use bench::buffers::{Buffers, Expected, checks_hold};
use bench::{cycles, runs, seed_count_family};
use harness::rng::Rng;
use harness::{draw, limits};
use tariff_merge::Caller::{Desk, Page};
use tariff_merge::raw::Returned;

const OUTPUT: usize = 65_536;

struct Asked {
    image: Vec<u8>,
    query: [u8; 8],
    short: Option<usize>,
    room: usize,
}

impl Asked {
    /// With all the room there is, and no buffer too short. None where there is no query.
    fn of(mut frame: Vec<u8>) -> Option<Asked> {
        let query = *frame.last_chunk()?;
        frame.truncate(frame.len() - 8);
        Some(Asked {
            image: frame,
            query,
            short: None,
            room: OUTPUT,
        })
    }

    fn budget(&mut self, checks: u32) {
        self.query[4..].copy_from_slice(&checks.to_be_bytes());
    }
}

/// What was met: how often each case came, the most pairs that the page held, and the fewest that were too many for it.
struct Met {
    cases: BTreeMap<String, u64>,
    held: u64,
    beyond: u64,
}

/// The first line's status, and its number of pairs where it says how many there are: a run cut short in building says 1.
fn reported(listing: &[u8]) -> (String, Option<u64>) {
    let line = listing.split(|byte| *byte == b'\n').next().unwrap_or(&[]);
    let words: Vec<String> = String::from_utf8_lossy(line)
        .split(' ')
        .map(str::to_string)
        .collect();
    let pairs = words[2].parse().expect("a number of pairs");
    let known = words[0] == "complete" || pairs > 1;
    (words[0].clone(), known.then_some(pairs))
}

fn said(returned: Returned, buffers: &Buffers) -> (String, Option<u64>) {
    match returned.number {
        0 => {
            let (status, pairs) = reported(&buffers.out[..returned.bytes]);
            let cut = if pairs.is_none() { " of 1 pair" } else { "" };
            (format!("a {status} listing{cut}"), pairs)
        }
        number => (format!("refused {number:2}"), None),
    }
}

/// Both callers on one query.
fn compare(asked: &Asked, of_page: &mut Buffers, of_desk: &mut Buffers, met: &mut Met) {
    let Asked {
        image,
        query,
        short,
        room,
    } = asked;
    let call = |buffers: &mut Buffers, caller| {
        buffers.fill();
        // SAFETY: `main` runs this on a thread with 64 MiB of stack.
        let returned = unsafe { buffers.call(caller, image, *query, *short, *room) };
        let expected = match short {
            Some(_) => Expected::refused(1),
            None => Expected::of(caller, image, *query, *room),
        };
        let checks = returned.number != 0 || checks_hold(&buffers.out[..returned.bytes], *query);
        assert!(
            checks && buffers.hold(returned, &expected, short.is_some()),
            "{caller:?}: {returned:?}, expected {expected:?}; short {short:?} room {room} image {image:02x?} query {query:02x?}"
        );
        returned
    };
    let (page, desk) = (call(of_page, Page), call(of_desk, Desk));
    let ((page_said, held), (desk_said, pairs)) = (said(page, of_page), said(desk, of_desk));
    let case = if page.number == 12 {
        if let Some(pairs) = pairs {
            assert!(
                pairs > 256,
                "12 at {pairs} pairs; image {image:02x?} query {query:02x?}"
            );
            met.beyond = met.beyond.min(pairs);
        }
        format!("page refused 12, desk {desk_said}")
    } else {
        assert!(
            page == desk && of_page == of_desk,
            "{page:?} {desk:?}; short {short:?} room {room} image {image:02x?} query {query:02x?}"
        );
        met.held = met.held.max(held.unwrap_or(0));
        format!("both {page_said}")
    };
    *met.cases.entry(case).or_insert(0) += 1;
}

/// So many queries of one family, or of all.
fn drawn(seed: u64, count: usize, family: Option<&str>) -> Vec<Vec<u8>> {
    if family.is_some() {
        return draw(seed, count, family);
    }
    let mut frames = draw(seed, count / 5, Some("page"));
    for (name, share) in [
        ("doubled", 100),
        ("crowded", 500),
        ("terms", 500),
        ("long", 500),
    ] {
        frames.extend(draw(seed, count / share, Some(name)));
    }
    frames.extend(draw(seed, count - frames.len(), None));
    frames
}

/// A query now and then with a smaller budget, less room or a buffer too short.
fn vary(rng: &mut Rng, asked: &mut Asked) {
    if rng.once_in(4) {
        asked.budget(rng.below(600) as u32);
    }
    if rng.once_in(8) {
        asked.room = *rng.pick(&[0, 50, 100, 200, 1_000]);
    }
    if rng.once_in(200) {
        asked.short = Some(rng.below(6));
    }
}

/// Graphs at the limits of both callers: sums, and cycles with as many rounds as pairs; and one that both may hold, at the
/// limit of runs.
fn at_the_limits() -> Vec<Asked> {
    let mut frames: Vec<Vec<u8>> = limits::callers().into_iter().map(|case| case.1).collect();
    frames.extend([cycles(11, 23), cycles(2, 127), cycles(15, 17), runs()]);
    let budgets = [
        0,
        1,
        2,
        254,
        255,
        256,
        257,
        258,
        511,
        512,
        513,
        600,
        4_096,
        4_097,
        8_192,
        9_000,
        u32::MAX,
    ];
    let mut found = Vec::new();
    for frame in frames {
        for budget in budgets {
            for room in [0, OUTPUT] {
                let mut asked = Asked::of(frame.clone()).expect("a query");
                asked.budget(budget);
                asked.room = room;
                found.push(asked);
            }
        }
    }
    found
}

fn run(seed: u64, count: usize, family: Option<&str>) {
    let mut rng = Rng::new(!seed);
    let mut asked: Vec<Asked> = drawn(seed, count, family)
        .into_iter()
        .filter_map(Asked::of)
        .collect();
    for one in &mut asked {
        vary(&mut rng, one);
    }
    let (drawn, fixed) = (asked.len(), at_the_limits());
    asked.extend(fixed);
    let (mut of_page, mut of_desk) = (Buffers::new(OUTPUT), Buffers::new(OUTPUT));
    let mut met = Met {
        cases: BTreeMap::new(),
        held: 0,
        beyond: u64::MAX,
    };
    for one in &asked {
        compare(one, &mut of_page, &mut of_desk, &mut met);
    }
    for (case, times) in &met.cases {
        println!("{times:>9}  {case}");
    }
    println!("{:>9}  most pairs that the page held", met.held);
    println!("{:>9}  fewest pairs beyond the page", met.beyond);
    println!(
        "{drawn} drawn queries and {} at the limits, each as promised",
        asked.len() - drawn
    );
}

fn main() {
    let Some((seed, count, family)) = seed_count_family() else {
        eprintln!("callers SEED COUNT [FAMILY]");
        std::process::exit(2);
    };
    let thread = std::thread::Builder::new()
        .stack_size(64 << 20)
        .spawn(move || run(seed, count, family));
    thread.expect("a thread").join().expect("no difference");
}
