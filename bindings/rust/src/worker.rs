// SPDX-License-Identifier: Apache-2.0
//! A thread with enough stack for the library, which lives as long as its owner.

use std::io;
use std::sync::mpsc::{Receiver, Sender, channel};
use std::thread::{Builder, JoinHandle};

use crate::raw::STACK;

const LIVES: &str = "the thread lives as long as its owner";

/// Jobs travel to the thread and back, so that their room is kept too.
pub(crate) struct Worker<J> {
    jobs: Option<Sender<J>>,
    done: Receiver<J>,
    thread: Option<JoinHandle<()>>,
    spare: Option<J>,
}

impl<J: Default + Send + 'static> Worker<J> {
    /// A thread with four times the stack that a call needs, and what it does with a job.
    pub(crate) fn start(
        name: &str,
        mut work: impl FnMut(&mut J) + Send + 'static,
    ) -> io::Result<Worker<J>> {
        let (jobs, todo) = channel::<J>();
        let (give, done) = channel::<J>();
        let serve = move || {
            for mut job in todo {
                work(&mut job);
                if give.send(job).is_err() {
                    return;
                }
            }
        };
        let thread = Builder::new()
            .name(name.to_string())
            .stack_size(4 * STACK)
            .spawn(serve)?;
        Ok(Worker {
            jobs: Some(jobs),
            done,
            thread: Some(thread),
            spare: None,
        })
    }

    /// The job of the call before, or an empty one.
    pub(crate) fn spare(&mut self) -> J {
        self.spare.take().unwrap_or_default()
    }

    /// Has the job done.
    pub(crate) fn run(&mut self, job: J) -> &mut J {
        let jobs = self.jobs.as_ref().expect(LIVES);
        jobs.send(job).expect(LIVES);
        self.spare.insert(self.done.recv().expect(LIVES))
    }
}

impl<J> Drop for Worker<J> {
    fn drop(&mut self) {
        self.jobs = None;
        if let Some(thread) = self.thread.take() {
            // It only ends, once it has no more jobs.
            let _ = thread.join();
        }
    }
}
