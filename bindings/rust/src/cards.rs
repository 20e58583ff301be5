// SPDX-License-Identifier: Apache-2.0
//! Formulas as infix text for a driver's card, and read back.

use std::io;

use crate::formula::Formula;
use crate::raw::{CardWork, Returned};
use crate::refusal::Refusal;
use crate::signs::SignTable;
use crate::worker::Worker;

/// What the thread is asked, and its answer.
#[derive(Default)]
struct Job {
    read: bool,
    table: Vec<u8>,
    text: Vec<u8>,
    answer: Option<(Returned, Vec<u8>)>,
}

/// Writes formulas as cards, and reads cards.
///
/// Cards and lines are written by recursion, as deep as the formula, so that a `Cards` has a thread of its
/// own, as a [`Merger`](crate::Merger) has. The thread lives as long as the `Cards` and owns the work
/// buffers (1.4 MB, more where a text is longer than 65,536 bytes) and the output buffer.
///
/// ```
/// use tariff_merge::{Cards, Refusal, SignTable};
///
/// # fn main() -> Result<(), Box<dyn std::error::Error>> {
/// let table = SignTable::new()
///     .sign(1, "km", 9)?
///     .sign(2, "wait", 9)?
///     .sign(3, "*", 2)?
///     .sign(4, "+", 1)?;
/// let mut cards = Cards::new();
/// let formula = cards.read(&table, "3#0 * ((km[] + wait[]))")?;
/// assert_eq!(formula.text(100), "op3(3, op4(op1(), op2()))");
/// assert_eq!(cards.write(&table, &formula)?, "3#0 * (km[] + wait[])");
/// assert_eq!(cards.read(&table, "3#0 * (km[] + )"), Err(Refusal::Formula));
/// assert_eq!(cards.write(&SignTable::new(), &formula), Err(Refusal::Sign));
/// # Ok(())
/// # }
/// ```
pub struct Cards {
    worker: Worker<Job>,
}

impl Cards {
    /// The output buffer's length of [`Cards::new`], as programs `card` and `read_card` have it.
    pub const OUTPUT: usize = 65_536;

    /// # Panics
    ///
    /// Where the system gives no thread; see [`Cards::try_with_output`].
    pub fn new() -> Cards {
        Cards::with_output(Cards::OUTPUT)
    }

    /// With an output buffer of so many bytes: a longer card, and a card whose lines are longer, is
    /// refused with [`Refusal::Output`].
    ///
    /// # Panics
    ///
    /// Where the system gives no thread; see [`Cards::try_with_output`].
    pub fn with_output(bytes: usize) -> Cards {
        Cards::try_with_output(bytes).expect("a thread for cards")
    }

    pub fn try_with_output(bytes: usize) -> io::Result<Cards> {
        let mut work = CardWork::new(bytes);
        let worker = Worker::start("tariff-cards", move |job| serve(&mut work, job))?;
        Ok(Cards { worker })
    }

    /// The formula's card, with the fewest brackets. Read back with the same table it is the same formula,
    /// and without any one bracket pair it is another one or none.
    ///
    /// # Errors
    ///
    /// [`Refusal::Sign`] where an operation of the formula has no proper sign of its own, then
    /// [`Refusal::Output`].
    pub fn write(&mut self, table: &SignTable, formula: &Formula) -> Result<String, Refusal> {
        self.write_lines(table, formula.bytes())
    }

    /// The card of the last term of listing lines, without a listing's first line: `N lit OPERATION VALUE`,
    /// `N op OPERATION CHILD:COUNT ..` and `N variants CHILD:COUNT ..`.
    ///
    /// # Errors
    ///
    /// [`Refusal::Formula`] where a line breaks its form, names a line that is not above it, or is there
    /// before, or where there is none; [`Refusal::Terms`] where there are too many; then those of
    /// [`Cards::write`].
    pub fn write_lines(&mut self, table: &SignTable, lines: &[u8]) -> Result<String, Refusal> {
        let card = self.call(false, table, lines)?;
        Ok(String::from_utf8(card).expect("a card of libtariff.a"))
    }

    /// The formula of a card, with further brackets round any subterm or without.
    ///
    /// # Errors
    ///
    /// [`Refusal::Formula`] where the text is not a formula, then [`Refusal::Terms`], then
    /// [`Refusal::Output`] where its lines are longer than the output buffer.
    pub fn read(&mut self, table: &SignTable, card: &str) -> Result<Formula, Refusal> {
        self.call(true, table, card.as_bytes()).map(Formula::of)
    }

    fn call(&mut self, read: bool, table: &SignTable, text: &[u8]) -> Result<Vec<u8>, Refusal> {
        let mut job = self.worker.spare();
        job.read = read;
        job.table.clear();
        job.table.extend_from_slice(table.bytes());
        job.text.clear();
        job.text.extend_from_slice(text);
        let answer = self.worker.run(job).answer.take();
        let (returned, bytes) = answer.expect("an answer to a job");
        match Refusal::of(returned) {
            Some(refusal) => Err(refusal),
            None => Ok(bytes),
        }
    }
}

/// A job, on the thread.
fn serve(work: &mut CardWork, job: &mut Job) {
    // SAFETY: this thread has 4 * STACK bytes of stack, and uses little of it above here.
    let returned = unsafe {
        match job.read {
            true => work.read_card(&job.table, &job.text),
            false => work.card(&job.table, &job.text),
        }
    };
    job.answer = Some((returned, work.output()[..returned.bytes].to_vec()));
}

impl std::fmt::Debug for Cards {
    fn fmt(&self, f: &mut std::fmt::Formatter<'_>) -> std::fmt::Result {
        f.debug_struct("Cards").finish_non_exhaustive()
    }
}

impl Default for Cards {
    fn default() -> Self {
        Cards::new()
    }
}
