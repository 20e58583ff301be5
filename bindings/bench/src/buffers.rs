// SPDX-License-Identifier: Apache-2.0
//! Buffers that hold garbage before a call, and what a call is to leave in them; what the model answers.

use harness::judge::Said;
use harness::turned::First;
use model::image::{lowest_doubled, tables};
use model::slip::Slip;
use tariff_merge::{Caller, raw};

pub const GARBAGE: u8 = 0xa5;

/// How many numbers longer than it must be each work buffer is.
const SPARE: usize = 3;

/// The buffers of a call.
#[derive(PartialEq, Eq)]
pub struct Buffers {
    graph: Vec<u16>,
    pairs: Vec<u32>,
    work: Vec<u64>,
    flow: Vec<u64>,
    terms: Vec<u32>,
    runs: Vec<u64>,
    pub out: Vec<u8>,
}

impl Buffers {
    pub fn new(output: usize) -> Buffers {
        Buffers {
            graph: vec![0; raw::GRAPH + SPARE],
            pairs: vec![0; raw::PAIRS + SPARE],
            work: vec![0; raw::WORK + SPARE],
            flow: vec![0; raw::FLOW + SPARE],
            terms: vec![0; raw::TERMS + SPARE],
            runs: vec![0; raw::RUNS + SPARE],
            out: vec![0; output],
        }
    }

    pub fn fill(&mut self) {
        self.graph.fill(0xa5a5);
        self.pairs.fill(0xa5a5_a5a5);
        self.work.fill(0xa5a5_a5a5_a5a5_a5a5);
        self.flow.fill(0xa5a5_a5a5_a5a5_a5a5);
        self.terms.fill(0xa5a5_a5a5);
        self.runs.fill(0xa5a5_a5a5_a5a5_a5a5);
        self.out.fill(GARBAGE);
    }

    /// Whether every number of the work buffers is zero, or garbage as before the call.
    pub fn all(&self, garbage: bool) -> bool {
        let (two, four, eight) = if garbage {
            (0xa5a5, 0xa5a5_a5a5, 0xa5a5_a5a5_a5a5_a5a5)
        } else {
            (0, 0, 0)
        };
        self.graph.iter().all(|x| *x == two)
            && self.pairs.iter().all(|x| *x == four)
            && self.work.iter().all(|x| *x == eight)
            && self.flow.iter().all(|x| *x == eight)
            && self.terms.iter().all(|x| *x == four)
            && self.runs.iter().all(|x| *x == eight)
    }

    /// One call with `room` bytes of the output; `short`: this work buffer is one number too short.
    ///
    /// # Safety
    ///
    /// The calling thread has [`raw::STACK`] bytes of stack left.
    pub unsafe fn call(
        &mut self,
        caller: Caller,
        image: &[u8],
        query: [u8; 8],
        short: Option<usize>,
        room: usize,
    ) -> raw::Returned {
        let [a, b, c, d, e, f, g, h] = query;
        let less = |at: usize| if short == Some(at) { SPARE + 1 } else { 0 };
        let room = room.min(self.out.len());
        // SAFETY: each pointer is a vector's own, no length is above the vector's, no two overlap; the stack is this
        // function's promise.
        unsafe {
            raw::call_of(caller)(
                image.as_ptr(),
                image.len(),
                u16::from_be_bytes([a, b]),
                u16::from_be_bytes([c, d]),
                u32::from_be_bytes([e, f, g, h]),
                self.graph.as_mut_ptr(),
                self.graph.len() - less(0),
                self.pairs.as_mut_ptr(),
                self.pairs.len() - less(1),
                self.work.as_mut_ptr(),
                self.work.len() - less(2),
                self.flow.as_mut_ptr(),
                self.flow.len() - less(3),
                self.terms.as_mut_ptr(),
                self.terms.len() - less(4),
                self.runs.as_mut_ptr(),
                self.runs.len() - less(5),
                self.out.as_mut_ptr(),
                room,
            )
        }
    }

    /// Whether a call returned this and left every buffer as promised.
    pub fn hold(&self, returned: raw::Returned, expected: &Expected, short: bool) -> bool {
        let listing = &expected.listing;
        returned.number == expected.number
            && returned.class == expected.class
            && returned.bytes == listing.len()
            && self.out[..listing.len()] == listing[..]
            && self.out[listing.len()..].iter().all(|x| *x == GARBAGE)
            && self.all(short)
    }
}

/// Whether a listing's first line has the checks that its run spends: 2n + (r + 1)(n + 1) where it is complete, else the
/// budget.
pub fn checks_hold(listing: &[u8], query: [u8; 8]) -> bool {
    let [.., e, f, g, h] = query;
    let first = First::read(&Said::alone(listing));
    first.is_some_and(|first| first.as_promised(u32::from_be_bytes([e, f, g, h])))
}

/// What a call is to answer: the number, the class where it is 10, and the listing where there is one.
#[derive(Debug)]
pub struct Expected {
    pub number: u32,
    pub class: usize,
    pub listing: Vec<u8>,
}

impl Expected {
    pub fn refused(number: u32) -> Expected {
        Expected {
            number,
            class: 0,
            listing: Vec::new(),
        }
    }

    /// The model's answer with so many bytes of output.
    pub fn of(caller: Caller, image: &[u8], query: [u8; 8], room: usize) -> Expected {
        let mut frame = image.to_vec();
        frame.extend_from_slice(&query);
        let limit = match caller {
            Caller::Page => model::PAGE,
            Caller::Desk => model::DESK,
        };
        let answer = model::answer_within(limit, &frame, Slip::None);
        match answer.strip_prefix("refused ") {
            Some("10\n") => {
                let image = tables(image, Slip::None).expect("no rule before 10 is broken");
                Expected {
                    class: lowest_doubled(&image).expect("a class"),
                    ..Expected::refused(10)
                }
            }
            Some(number) => Expected::refused(number.trim().parse().expect("a number")),
            None if answer.len() > room => Expected::refused(14),
            None => Expected {
                number: 0,
                class: 0,
                listing: answer.into_bytes(),
            },
        }
    }
}
