// SPDX-License-Identifier: Apache-2.0
//! Drawn terms, texts and lines for the static library's calls on cards: `cards SEED COUNT`.
//!
//! COUNT times each:
//!
//! - a drawn term under a drawn sign table, written; where it is, its card read back, read with further brackets, and read
//!   with a bracket pair left out, which is another term or none;
//! - a drawn text, most of them changed cards, read;
//! - drawn lines, most of them changed, written.
//!
//! All buffers hold garbage before a call, and are longer than they must be; some calls have little room in the output, and
//! now and then a work buffer is one number too short. Afterwards the answer is the model's, every work buffer is zero, or as
//! it was where one was too short, and the output is untouched on a refusal and past what was written. Behind the drawn ones
//! come cards and lines at every limit.

use std::collections::BTreeMap;

use bench::cards::{Card, CardBuffers, Way, deepest, expected, longest, signs};
use harness::cards::Kind;
use harness::cards::draw::{draw_table, further, table_and_lines, table_and_term, table_and_text};
use harness::cards::sample::fixed;
use harness::cards::terms::{dressed, lines, walked};
use harness::cards::texts::places;
use harness::rng::Rng;
use model::card::signs::Signs;
use model::card_slip::CardSlip;

const OUTPUT: usize = 4_096;

struct Fuzz {
    rng: Rng,
    buffers: CardBuffers,
    met: BTreeMap<String, u64>,
}

impl Fuzz {
    /// One call, held to the model and to the promises.
    fn call(
        &mut self,
        what: &str,
        way: Way,
        table: &[u8],
        text: &[u8],
        room: usize,
    ) -> Result<String, u32> {
        let short = self.rng.once_in(400).then(|| self.rng.below(4));
        // an empty text needs no frame
        let short = short.filter(|at| way == Way::Write || *at > 0 || !text.is_empty());
        self.buffers.fill(way, text);
        // SAFETY: `main` runs this on a thread with 64 MiB of stack.
        let returned = unsafe { self.buffers.call(way, table, text, short, room) };
        let expected = match short {
            Some(_) => Err(1),
            None => expected(way, table, text, room.min(self.buffers.out.len())),
        };
        let said = String::from_utf8_lossy(text);
        assert!(
            self.buffers.hold(returned, &expected),
            "{way:?}: {returned:?}, expected {expected:?}; short {short:?} room {room} table {table:02x?} text {said:?}"
        );
        let answer = match expected {
            Ok(_) => "answered".to_string(),
            Err(number) => format!("refused {number:2}"),
        };
        *self.met.entry(format!("{what}: {answer}")).or_insert(0) += 1;
        expected
    }

    fn room(&mut self) -> usize {
        match self.rng.below(8) {
            0 => self.rng.below(40),
            _ => OUTPUT,
        }
    }

    /// The same, with room for an answer of this length, and now and then a byte less.
    fn room_for(&mut self, answer: &str) -> usize {
        match self.rng.below(4) {
            0 => answer.len(),
            1 => answer.len() - 1,
            _ => OUTPUT,
        }
    }

    fn term(&mut self) {
        let (terms, written) = *self.rng.pick(&[(8, 12), (20, 40), (60, 150), (200, 300)]);
        let (table, graph) = table_and_term(&mut self.rng, terms, written);
        let room = self.room();
        let card = self.call(
            "term written",
            Way::Write,
            &table,
            lines(&graph).as_bytes(),
            room,
        );
        let Ok(card) = card else {
            return;
        };
        let (signs, back) = (Signs::new(&table, CardSlip::None), walked(&graph));
        let room = self.room_for(&back);
        let read = self.call("card read back", Way::Read, &table, card.as_bytes(), room);
        assert!(read.is_err() || read.as_ref() == Ok(&back), "{card}");
        let room = self.room_for(&card);
        let again = self.call(
            "read back, written",
            Way::Write,
            &table,
            back.as_bytes(),
            room,
        );
        assert!(again.is_err() || again.as_ref() == Ok(&card), "{card}");
        let more = dressed(&signs, &graph, &mut further(&mut self.rng));
        let read = self.call(
            "read with further brackets",
            Way::Read,
            &table,
            more.as_bytes(),
            OUTPUT,
        );
        assert!(read.is_err() || read.as_ref() == Ok(&back), "{more}");
        let opens = places(card.as_bytes(), b'(');
        if opens.is_empty() {
            return;
        }
        let open = *self.rng.pick(&opens);
        let shut = *self.rng.pick(&places(card.as_bytes(), b')'));
        let mut less = card.into_bytes();
        less.remove(open.max(shut));
        less.remove(open.min(shut));
        let read = self.call(
            "read with brackets left out",
            Way::Read,
            &table,
            &less,
            OUTPUT,
        );
        assert!(read != Ok(back), "{}", String::from_utf8_lossy(&less));
    }

    fn text(&mut self) {
        let (mut table, text) = table_and_text(&mut self.rng, 20, 40);
        if self.rng.once_in(20) {
            table = draw_table(&mut self.rng, 8);
        }
        let room = self.room();
        let _ = self.call("text", Way::Read, &table, &text, room);
    }

    fn lines(&mut self) {
        let (table, text) = table_and_lines(&mut self.rng, 20, 40);
        let room = self.room();
        let _ = self.call("lines", Way::Write, &table, &text, room);
        if self.rng.once_in(10) {
            // lines are no card, and a card has no lines
            let _ = self.call("lines as a text", Way::Read, &table, &text, room);
        }
    }

    /// A card and its lines, each with as much room as it needs and a byte less.
    fn both_ways(&mut self, card: &Card) {
        let (table, text, lines) = (&card.table, card.text.as_bytes(), card.lines.as_bytes());
        for room in [lines.len(), lines.len() - 1, 0] {
            let _ = self.call(card.name, Way::Read, table, text, room);
        }
        for room in [text.len(), text.len() - 1, 0] {
            let _ = self.call(card.name, Way::Write, table, lines, room);
        }
    }
}

/// Lines about the limits of terms and runs.
fn full() -> Vec<(&'static str, Way, String)> {
    let nested = |terms: usize| -> String {
        let line = |n: usize| match n {
            0 => "0 op 0\n".to_string(),
            _ => format!("{n} op 0 {}:1\n", n - 1),
        };
        (0..terms).map(line).collect()
    };
    let turn = |runs: usize, last: &str| {
        let runs: String = (0..runs).map(|run| format!(" {}:1", run % 2)).collect();
        format!("0 op 0\n1 op 1\n2 op 0{runs}\n{last}")
    };
    let list = |items: usize| {
        let item = |n: usize| ["-[]", "+[]"][n % 2].to_string();
        format!("-[{}]", (0..items).map(item).collect::<Vec<_>>().join("; "))
    };
    let brackets = |terms: usize| "-[".repeat(terms) + &"]".repeat(terms);
    let most = 16_384;
    vec![
        ("16,384 lines", Way::Write, nested(most)),
        ("16,385 lines", Way::Write, nested(most + 1)),
        (
            "16,385 lines, the last broken",
            Way::Write,
            nested(most) + "16384 op 0 16384:1\n",
        ),
        (
            "16,385 lines, the last there before",
            Way::Write,
            nested(most) + "16384 op 0 16382:1\n",
        ),
        (
            "16,385 lines and a broken one",
            Way::Write,
            nested(most + 1) + "x\n",
        ),
        ("65,536 runs", Way::Write, turn(65_536, "")),
        (
            "65,536 runs and a term without",
            Way::Write,
            turn(65_536, "3 op 2\n"),
        ),
        (
            "65,536 runs and one more",
            Way::Write,
            turn(65_536, "3 op 2 2:1\n"),
        ),
        ("65,537 runs", Way::Write, turn(65_537, "")),
        (
            "65,537 runs and a broken line",
            Way::Write,
            turn(65_537, "x\n"),
        ),
        (
            "65,537 runs and a broken one in the same line",
            Way::Write,
            turn(65_537, "").trim_end().to_string() + " 7:1\n",
        ),
        (
            "65,537 runs, the last broken",
            Way::Write,
            turn(65_536, "").trim_end().to_string() + " 1:1\n",
        ),
        ("a card of 16,384 terms", Way::Read, brackets(most)),
        ("a card of 16,385 terms", Way::Read, brackets(most + 1)),
        (
            "a card of 16,385 terms, and more",
            Way::Read,
            brackets(most + 1) + " ",
        ),
        ("a card of 65,536 runs", Way::Read, list(65_536)),
        ("a card of 65,537 runs", Way::Read, list(65_537)),
        (
            "a card of 65,537 runs, and more",
            Way::Read,
            list(65_537) + "]",
        ),
        ("100,000 brackets", Way::Read, "(".repeat(100_000)),
        (
            "a literal in 100,000 brackets",
            Way::Read,
            "(".repeat(100_000) + "0#0" + &")".repeat(100_000),
        ),
        (
            "9,000 terms twice",
            Way::Read,
            format!("-[{0}; {0}; +[]]", brackets(9_000)),
        ),
    ]
}

fn run(seed: u64, count: usize) {
    let mut fuzz = Fuzz {
        rng: Rng::new(seed),
        buffers: CardBuffers::new(OUTPUT),
        met: BTreeMap::new(),
    };
    for _ in 0..count {
        fuzz.term();
        fuzz.text();
        fuzz.lines();
    }
    // the stored inputs made by hand, where they have a table
    for (_, kind, input) in fixed() {
        let way = match kind {
            Kind::Card => continue,
            Kind::ReadCard => Way::Read,
            Kind::Lines => Way::Write,
        };
        let table_and_text = input
            .split_first_chunk::<4>()
            .and_then(|(length, rest)| rest.split_at_checked(u32::from_be_bytes(*length) as usize));
        if let Some((table, text)) = table_and_text {
            let _ = fuzz.call("made by hand", way, table, text, OUTPUT);
        }
    }
    let mut large = Fuzz {
        rng: Rng::new(!seed),
        buffers: CardBuffers::new(1 << 20),
        met: BTreeMap::new(),
    };
    for card in deepest().iter().chain(&longest()) {
        large.both_ways(card);
    }
    for (what, way, text) in full() {
        let _ = large.call(what, way, &signs(), text.as_bytes(), 1 << 20);
    }
    let calls: u64 = fuzz.met.values().chain(large.met.values()).sum();
    for (what, times) in fuzz.met.iter().chain(&large.met) {
        println!("{times:>9}  {what}");
    }
    println!("{calls} calls, each as promised");
}

fn main() {
    let words: Vec<String> = std::env::args().skip(1).collect();
    let asked = match &words[..] {
        [seed, count] => seed.parse().ok().zip(count.parse().ok()),
        _ => None,
    };
    let Some((seed, count)) = asked else {
        eprintln!("cards SEED COUNT");
        std::process::exit(2);
    };
    let thread = std::thread::Builder::new()
        .stack_size(64 << 20)
        .spawn(move || run(seed, count));
    thread.expect("a thread").join().expect("no difference");
}
