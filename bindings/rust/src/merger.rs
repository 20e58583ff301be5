// SPDX-License-Identifier: Apache-2.0
//! Merges on a thread with enough stack, its buffers kept between calls.

use std::io;

use crate::caller::Caller;
use crate::listing::Listing;
use crate::raw::{Returned, Work};
use crate::refusal::Refusal;
use crate::worker::Worker;

/// Which classes to merge, with how many checks.
#[derive(Clone, Copy, Debug, PartialEq, Eq, Hash)]
pub struct Query {
    pub left: u16,
    pub right: u16,
    pub budget: u32,
}

/// What the thread is asked, and its answers.
#[derive(Default)]
struct Job {
    caller: Caller,
    image: Vec<u8>,
    queries: Vec<Query>,
    answers: Vec<(Returned, Vec<u8>)>,
}

/// Merges classes of images.
///
/// The library runs large queries in arrays on the stack and writes a listing by recursion, with up
/// to [`raw::STACK`](crate::raw::STACK) bytes in all, and nothing tests the stack. So a `Merger` has
/// a thread of its own, with four times as much, and every call runs there: a caller's thread may be
/// as small as it likes. The thread lives as long as the `Merger` and owns the work buffers (46 KB)
/// and the output buffer.
/// A call costs one hand-over there and back; [`merge_each`](Merger::merge_each) asks many
/// queries with one. Threads that call at the same time have a `Merger` each.
pub struct Merger {
    worker: Worker<Job>,
}

impl Merger {
    /// The output buffer's length of [`Merger::new`], as program `merge` has it.
    pub const OUTPUT: usize = 65_536;

    /// # Panics
    ///
    /// Where the system gives no thread; see [`Merger::try_with_output`].
    pub fn new() -> Merger {
        Merger::with_output(Merger::OUTPUT)
    }

    /// With an output buffer of so many bytes: a longer listing is refused with
    /// [`Refusal::Output`].
    ///
    /// # Panics
    ///
    /// Where the system gives no thread; see [`Merger::try_with_output`].
    pub fn with_output(bytes: usize) -> Merger {
        Merger::try_with_output(bytes).expect("a thread for the merge")
    }

    pub fn try_with_output(bytes: usize) -> io::Result<Merger> {
        let mut work = Work::new(bytes);
        let worker = Worker::start("tariff-merge", move |job| serve(&mut work, job))?;
        Ok(Merger { worker })
    }

    /// The merge of class `left` with class `right` of `image`: a listing, or why there is none.
    /// `budget` is how many checks pass before the run is cut short. It is the account desk's call.
    pub fn merge(
        &mut self,
        image: &[u8],
        left: u16,
        right: u16,
        budget: u32,
    ) -> Result<Listing, Refusal> {
        self.merge_for(Caller::Desk, image, left, right, budget)
    }

    /// The same for the caller named.
    pub fn merge_for(
        &mut self,
        caller: Caller,
        image: &[u8],
        left: u16,
        right: u16,
        budget: u32,
    ) -> Result<Listing, Refusal> {
        let query = Query {
            left,
            right,
            budget,
        };
        let mut answers = self.merge_each_for(caller, image, &[query]);
        answers.pop().expect("an answer to one query")
    }

    /// The merges of one image, in the queries' order, as the account desk asks for them.
    pub fn merge_each(&mut self, image: &[u8], queries: &[Query]) -> Vec<Result<Listing, Refusal>> {
        self.merge_each_for(Caller::Desk, image, queries)
    }

    /// The same for the caller named.
    pub fn merge_each_for(
        &mut self,
        caller: Caller,
        image: &[u8],
        queries: &[Query],
    ) -> Vec<Result<Listing, Refusal>> {
        let mut job = self.worker.spare();
        job.caller = caller;
        job.image.clear();
        job.image.extend_from_slice(image);
        job.queries.clear();
        job.queries.extend_from_slice(queries);
        let answers = self.worker.run(job).answers.drain(..);
        let answers = answers.map(|(returned, bytes)| match Refusal::of(returned) {
            Some(refusal) => Err(refusal),
            None => Ok(Listing::of(bytes)),
        });
        answers.collect()
    }
}

impl std::fmt::Debug for Merger {
    fn fmt(&self, f: &mut std::fmt::Formatter<'_>) -> std::fmt::Result {
        f.debug_struct("Merger").finish_non_exhaustive()
    }
}

impl Default for Merger {
    fn default() -> Self {
        Merger::new()
    }
}

/// A job, on the thread.
fn serve(work: &mut Work, job: &mut Job) {
    job.answers.clear();
    for query in &job.queries {
        // SAFETY: this thread has 4 * STACK bytes of stack, and uses little of it above here.
        let returned = unsafe {
            work.merge_for(
                job.caller,
                &job.image,
                query.left,
                query.right,
                query.budget,
            )
        };
        let listing = work.output()[..returned.bytes].to_vec();
        job.answers.push((returned, listing));
    }
}
