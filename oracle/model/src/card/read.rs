// SPDX-License-Identifier: Apache-2.0
//! "read it back by precedence": by precedence climbing, over the bytes from left to right. "A
//! formula is any text so written, further brackets round any subterm allowed; kinds and arities
//! aren't judged."

use super::lines::number;
use super::signs::{Signs, is_symbol};
use super::{Graph, NO_FORMULA};
use crate::card_slip::CardSlip;
use crate::image::Refusal;
use crate::term::{Head, Runs};

/// The term of a text: 17, and then 13.
pub fn read(signs: &Signs, text: &[u8], slip: CardSlip) -> Result<Graph, Refusal> {
    let mut reader = Reader {
        signs,
        text,
        at: 0,
        made: Vec::new(),
        slip,
    };
    let root = deep(text.len(), || reader.whole());
    let made = reader.made;
    if root.is_none() {
        return match enter(made, slip) {
            Err(full) if slip == CardSlip::FullBeforeFormula => Err(full),
            _ => Err(NO_FORMULA),
        };
    }
    enter(made, slip)
}

/// Where a text may nest deeply: on a thread with as much stack as that may take.
fn deep<T: Send>(bytes: usize, work: impl FnOnce() -> T + Send) -> T {
    if bytes < 500 {
        return work();
    }
    std::thread::scope(|scope| {
        let thread = std::thread::Builder::new().stack_size((1 << 16) + 2_000 * bytes);
        let thread = thread.spawn_scoped(scope, work).expect("a thread");
        thread.join().expect("a reader that ends")
    })
}

/// A subterm as it stands in the text: its children by their places among those made before it.
type Made = (Head, Vec<usize>);

/// The subterms, in the order in which they were made: children first, and from left to right.
fn enter(made: Vec<Made>, slip: CardSlip) -> Result<Graph, Refusal> {
    let mut graph = Graph::default();
    let mut numbers: Vec<usize> = Vec::new();
    for (head, children) in made {
        let mut runs = Runs::new();
        for child in children {
            let child = numbers[child];
            match runs.last_mut() {
                Some((last, count)) if *last == child && slip != CardSlip::UnjoinedRuns => {
                    *count += 1;
                }
                _ => runs.push((child, 1)),
            }
        }
        numbers.push(graph.enter((head, runs), slip)?);
    }
    Ok(graph)
}

struct Reader<'a> {
    signs: &'a Signs,
    text: &'a [u8],
    at: usize,
    made: Vec<Made>,
    slip: CardSlip,
}

impl Reader<'_> {
    fn whole(&mut self) -> Option<usize> {
        let term = self.formula(0)?;
        (self.at == self.text.len() || self.slip == CardSlip::RestIgnored).then_some(term)
    }

    fn make(&mut self, head: Head, children: Vec<usize>) -> usize {
        self.made.push((head, children));
        self.made.len() - 1
    }

    fn eat(&mut self, word: &[u8]) -> Option<()> {
        let stands = self.text[self.at..].starts_with(word);
        self.at += if stands { word.len() } else { 0 };
        stands.then_some(())
    }

    fn need(&mut self, word: &[u8], slip: CardSlip) -> Option<()> {
        match self.eat(word) {
            None if self.slip == slip => Some(()),
            eaten => eaten,
        }
    }

    fn digits(&mut self, most: u64) -> Option<u64> {
        let rest = &self.text[self.at..];
        let end = rest.iter().position(|byte| !byte.is_ascii_digit());
        let digits = &rest[..end.unwrap_or(rest.len())];
        self.at += digits.len();
        number(digits, most, self.slip)
    }

    /// A sign: letters as long as there are some, or one symbol.
    fn sign(&mut self) -> Option<usize> {
        let rest = &self.text[self.at..];
        let letters = rest.iter().take_while(|byte| match self.slip {
            CardSlip::Digits => byte.is_ascii_alphanumeric(),
            _ => byte.is_ascii_alphabetic(),
        });
        let word = match rest.first()? {
            first if is_symbol(*first) && self.slip == CardSlip::ManySymbols => {
                rest.iter().take_while(|byte| is_symbol(**byte)).count()
            }
            first if is_symbol(*first) => 1,
            _ => letters.count(),
        };
        let operation = self.signs.find(&rest[..word])?;
        self.at += word;
        Some(operation)
    }

    /// Operands and signs between them, of this precedence or a higher one.
    fn formula(&mut self, least: u8) -> Option<usize> {
        let mut left = self.operand()?;
        loop {
            let before = self.at;
            let Some((operation, precedence)) = self.infix().filter(|sign| sign.1 >= least) else {
                self.at = before;
                return Some(left);
            };
            let groups_right = match self.slip {
                CardSlip::ReadLeft => false,
                CardSlip::ReadRight => true,
                _ => self.signs.groups_right(precedence),
            };
            // Where it groups to the left, the right operand ends in front of the next such sign.
            let above = match self.slip {
                CardSlip::ReadFlat => 10,
                _ => precedence + u8::from(!groups_right),
            };
            let right = self.formula(above)?;
            left = self.make(Head::Operation(operation), vec![left, right]);
        }
    }

    /// A sign between spaces, and its precedence.
    fn infix(&mut self) -> Option<(usize, u8)> {
        self.need(b" ", CardSlip::SpacesFree)?;
        let operation = self.sign()?;
        self.need(b" ", CardSlip::SpacesFree)?;
        Some((operation, self.signs.of(operation)?.precedence))
    }

    fn operand(&mut self) -> Option<usize> {
        match *self.text.get(self.at)? {
            b'(' => {
                self.at += 1;
                let term = self.formula(0)?;
                self.eat(b")")?;
                Some(term)
            }
            b'{' => self.variants(),
            b'0'..=b'9' => self.literal(),
            _ => self.list(),
        }
    }

    /// "A literal prints as `value#operation` (operation at most 63)."
    fn literal(&mut self) -> Option<usize> {
        let most = match self.slip {
            CardSlip::ValuesAny => u64::MAX,
            CardSlip::ValuesSigned => i32::MAX as u64,
            _ => u64::from(u32::MAX),
        };
        let value = self.digits(most)?;
        self.eat(b"#")?;
        let operation = self.digits(match self.slip {
            CardSlip::Operation64 => 64,
            CardSlip::Operation62 => 62,
            _ => 63,
        })?;
        if self.slip == CardSlip::LiteralsRead && self.signs.of(operation as usize).is_none() {
            return None;
        }
        Some(self.make(Head::Literal(operation as usize, value as u32), Vec::new()))
    }

    /// "Variants print as `{a | b}`."
    fn variants(&mut self) -> Option<usize> {
        self.eat(b"{")?;
        let mut branches = vec![self.formula(0)?];
        while self.eat(b" | ").is_some() {
            branches.push(self.formula(0)?);
        }
        self.eat(b"}")?;
        let most = 2 + usize::from(self.slip == CardSlip::ThreeBranches);
        let least = 2 - usize::from(self.slip == CardSlip::OneBranch);
        let some = (least..=most).contains(&branches.len());
        some.then(|| self.make(Head::Variants, branches))
    }

    /// The sign and a list: of none, one, or three children and more.
    fn list(&mut self) -> Option<usize> {
        let operation = self.sign()?;
        self.eat(b"[")?;
        let mut children = Vec::new();
        if self.eat(b"]").is_none() {
            children.push(self.formula(0)?);
            while self.eat(b"; ").is_some()
                || self.slip == CardSlip::SpacesFree && self.eat(b";").is_some()
            {
                children.push(self.formula(0)?);
            }
            self.eat(b"]")?;
        }
        let two = children.len() == 2 && self.slip != CardSlip::ListOfTwo;
        let one = children.len() == 1 && self.slip == CardSlip::NoListOfOne;
        (!two && !one).then(|| self.make(Head::Operation(operation), children))
    }
}
