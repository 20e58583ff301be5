// SPDX-License-Identifier: Apache-2.0
//! Buffers for a call on cards that hold garbage before it, and what it is to leave in them; cards and lines at the limits.

use model::card::{card, read_card};
use model::card_slip::CardSlip;
use model::image::Refusal;
use tariff_merge::raw;

pub const GARBAGE: u8 = 0xa5;

/// How many numbers longer than it must be each work buffer is.
const SPARE: usize = 3;

/// Which call.
#[derive(Clone, Copy, Debug, PartialEq, Eq)]
pub enum Way {
    Write,
    Read,
}

/// The buffers of a call.
pub struct CardBuffers {
    frames: Vec<u64>,
    marks: Vec<u16>,
    terms: Vec<u32>,
    runs: Vec<u64>,
    pub out: Vec<u8>,
}

impl CardBuffers {
    pub fn new(output: usize) -> CardBuffers {
        CardBuffers {
            frames: Vec::new(),
            marks: vec![0; raw::CARD_MARKS + SPARE],
            terms: vec![0; raw::CARD_TERMS + SPARE],
            runs: vec![0; raw::CARD_RUNS + SPARE],
            out: vec![0; output],
        }
    }

    /// Garbage in every number, and frames for a call: as many as a text has bytes, or a line may have runs.
    pub fn fill(&mut self, way: Way, text: &[u8]) {
        let frames = match way {
            Way::Write => raw::CARD_FRAMES,
            Way::Read => text.len(),
        };
        self.frames.clear();
        self.frames.resize(frames + SPARE, 0xa5a5_a5a5_a5a5_a5a5);
        self.marks.fill(0xa5a5);
        self.terms.fill(0xa5a5_a5a5);
        self.runs.fill(0xa5a5_a5a5_a5a5_a5a5);
        self.out.fill(GARBAGE);
    }

    /// Whether every number of the work buffers is zero, or garbage as before the call.
    fn all(&self, garbage: bool) -> bool {
        let (two, four, eight) = if garbage {
            (0xa5a5, 0xa5a5_a5a5, 0xa5a5_a5a5_a5a5_a5a5)
        } else {
            (0, 0, 0)
        };
        self.frames.iter().all(|x| *x == eight)
            && self.marks.iter().all(|x| *x == two)
            && self.terms.iter().all(|x| *x == four)
            && self.runs.iter().all(|x| *x == eight)
    }

    /// One call with `room` bytes of the output; `short`: this work buffer is one number too short.
    ///
    /// # Safety
    ///
    /// The calling thread has [`raw::STACK`] bytes of stack left.
    pub unsafe fn call(
        &mut self,
        way: Way,
        table: &[u8],
        text: &[u8],
        short: Option<usize>,
        room: usize,
    ) -> raw::Returned {
        let less = |at: usize| if short == Some(at) { SPARE + 1 } else { 0 };
        let room = room.min(self.out.len());
        let call: raw::CardCall = match way {
            Way::Write => raw::tariff_card,
            Way::Read => raw::tariff_read_card,
        };
        // SAFETY: each pointer is a vector's own, no length is above the vector's, no two overlap; the stack is this
        // function's promise.
        unsafe {
            call(
                table.as_ptr(),
                table.len(),
                text.as_ptr(),
                text.len(),
                self.frames.as_mut_ptr(),
                self.frames.len() - less(0),
                self.marks.as_mut_ptr(),
                self.marks.len() - less(1),
                self.terms.as_mut_ptr(),
                self.terms.len() - less(2),
                self.runs.as_mut_ptr(),
                self.runs.len() - less(3),
                self.out.as_mut_ptr(),
                room,
            )
        }
    }

    /// Whether a call returned this and left every buffer as promised.
    pub fn hold(&self, returned: raw::Returned, expected: &Result<String, u32>) -> bool {
        let (number, text) = match expected {
            Ok(text) => (0, text.as_bytes()),
            Err(number) => (*number, &[][..]),
        };
        returned.number == number
            && returned.class == 0
            && returned.bytes == text.len()
            && self.out[..text.len()] == *text
            && self.out[text.len()..].iter().all(|x| *x == GARBAGE)
            && self.all(number == 1)
    }
}

/// The model's answer with so many bytes of output.
pub fn expected(way: Way, table: &[u8], text: &[u8], room: usize) -> Result<String, u32> {
    let made = match way {
        Way::Write => card(table, text, room, CardSlip::None),
        Way::Read => read_card(table, text, room, CardSlip::None),
    };
    made.map_err(|Refusal(number)| u32::from(number))
}

/// A card and the lines of its term.
pub struct Card {
    pub name: &'static str,
    pub table: Vec<u8>,
    pub text: String,
    pub lines: String,
}

fn made(name: &'static str, table: &[u8], text: String) -> Card {
    let lines = read_card(table, text.as_bytes(), 1 << 24, CardSlip::None).expect("a formula");
    Card {
        name,
        table: table.to_vec(),
        text,
        lines,
    }
}

/// The signs of the cards below: operations 0 `-`, 1 `+` and 2 `<` of the precedences 1, 1 and 2, the latter groups to the
/// right; 3 `abcdefgh`.
pub fn signs() -> Vec<u8> {
    let entries = [("-", 1), ("+", 1), ("<", 2), ("abcdefgh", 9)];
    harness::cards::draw::table_of(&entries, &[2])
}

/// 16,384 terms, one in another: a list, a sign that groups to the left, one that groups to the right, brackets at each, a
/// marked place; the first of them has no more than 65,536 bytes.
pub fn deepest() -> Vec<Card> {
    let deep = |name, from: &str, inner: &str, to: &str| {
        let levels = 16_384 - if inner.ends_with("[]") { 1 } else { 2 };
        let text = from.repeat(levels) + inner + &to.repeat(levels);
        made(name, &signs(), text)
    };
    vec![
        deep("16,384 levels of lists", "-[", "-[]", "]"),
        deep("16,384 levels of a left operand", "", "0#0 + 0#0", " + 0#0"),
        deep(
            "16,384 levels of a right operand",
            "0#0 < ",
            "0#0 < 0#0",
            "",
        ),
        deep("16,384 levels of brackets", "0#0 + (", "0#0 + 0#0", ")"),
        deep(
            "16,384 levels of marked places",
            "{0#0 | ",
            "{0#0 | 0#0}",
            "}",
        ),
    ]
}

/// Cards of 65,536 bytes: one child again and again, two in turn, different literals, a chain of signs, and one literal in
/// brackets, which is read and not written so.
pub fn longest() -> Vec<Card> {
    let signs = signs();
    let exactly = |name, text: String| {
        assert_eq!(text.len(), 65_536, "{name}");
        made(name, &signs, text)
    };
    let list = |items: Vec<String>| format!("abcdefgh[{}]", items.join("; "));
    let mut equal = vec!["0#0".to_string(); 13_104];
    equal.push("1000#0".to_string());
    let mut two = equal.clone();
    two.iter_mut()
        .skip(1)
        .step_by(2)
        .for_each(|one| *one = "1#0".to_string());
    two[13_104] = "1000#0".to_string();
    let mut different: Vec<String> = (0..7_281).map(|n| format!("{}#0", 10_000 + n)).collect();
    different[0] = "9999#0".to_string();
    let chain = "10#0".to_string() + &" + 0#0".repeat(10_922);
    let brackets = "(".repeat(32_766) + "0#10" + &")".repeat(32_766);
    vec![
        exactly("a child 13,104 times and another", list(equal)),
        exactly("two children in turn, and another", list(two)),
        exactly("7,281 different literals", list(different)),
        exactly("a chain of 10,922 signs", chain),
        exactly("a literal in 32,766 pairs of brackets", brackets),
    ]
}
