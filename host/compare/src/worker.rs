//! The archive in a process of its own, in which each slice has memory of its own.
//!
//! A worker, with the archive linked in, makes the calls: `worker/worker.c` says
//! how it is spoken to, and where it puts the memory that it lends.

use std::io::{self, Read, Write};
use std::process::{Child, ChildStdin, ChildStdout, Command, Stdio};

use crate::{Answer, Evening, Library};

const SLICES: usize = 4;

/// What the worker saw of a call.
const DONE: u8 = 0;
const MARGIN_CHANGED: u8 = 1;

#[derive(Clone, Copy)]
enum Function {
    Check = 0,
    Post = 1,
    Settle = 2,
}

pub struct Worker {
    process: Child,
    calls: ChildStdin,
    answers: ChildStdout,
}

/// What came of a call: the answer, and the slices as they stood after it.
struct Outcome {
    answer: u8,
    slices: [Vec<u8>; SLICES],
}

impl Worker {
    /// Starts a worker. Panics if that cannot be done: there is nothing to
    /// compare then.
    pub fn start() -> Worker {
        let mut process = Command::new(env!("CLEARING_WORKER"))
            .env_clear()
            .stdin(Stdio::piped())
            .stdout(Stdio::piped())
            .spawn()
            .expect("the worker that scripts/library makes");
        let calls = process.stdin.take().expect("a pipe that was asked for");
        let answers = process.stdout.take().expect("a pipe that was asked for");
        Worker {
            process,
            calls,
            answers,
        }
    }

    fn call(&mut self, function: Function, slices: [&[u8]; SLICES]) -> Result<Outcome, String> {
        let (seen, outcome) = self
            .exchange(function, slices)
            .map_err(|error| self.lost(error))?;
        match seen {
            DONE => Ok(outcome),
            MARGIN_CHANGED => Err("a byte outside the lent memory was written".into()),
            _ => Err("the worker said what it cannot say".into()),
        }
    }

    fn exchange(
        &mut self,
        function: Function,
        slices: [&[u8]; SLICES],
    ) -> io::Result<(u8, Outcome)> {
        let mut call = (function as u32).to_le_bytes().to_vec();
        for slice in slices {
            let length = u32::try_from(slice.len()).map_err(io::Error::other)?;
            call.extend(length.to_le_bytes());
        }
        for slice in slices {
            call.extend(slice);
        }
        self.calls.write_all(&call)?;
        let mut head = [0; 4];
        self.answers.read_exact(&mut head)?;
        let mut after = slices.map(|slice| vec![0; slice.len()]);
        for slice in &mut after {
            self.answers.read_exact(slice)?;
        }
        let outcome = Outcome {
            answer: head[0],
            slices: after,
        };
        Ok((head[1], outcome))
    }

    /// Why a worker could not be spoken to; the next call gets a new one.
    fn lost(&mut self, error: io::Error) -> String {
        let ended = match self.process.wait() {
            Ok(status) => status.to_string(),
            Err(_) => error.to_string(),
        };
        *self = Worker::start();
        format!("the worker ended during the call: {ended}")
    }
}

impl Drop for Worker {
    fn drop(&mut self) {
        // It may have ended by itself.
        let _ = self.process.kill();
        let _ = self.process.wait();
    }
}

/// A slice that the library may only read.
fn unchanged(before: &[u8], after: &[u8], what: &str) -> Result<(), String> {
    if before == after {
        Ok(())
    } else {
        Err(format!("the {what} was written"))
    }
}

impl Library for Worker {
    fn check(&mut self, book: &[u8]) -> Answer {
        let outcome = self.call(Function::Check, [book, &[], &[], &[]])?;
        unchanged(book, &outcome.slices[0], "book")?;
        Ok(outcome.answer)
    }

    fn post(&mut self, book: &mut [u8], record: &[u8]) -> Answer {
        let outcome = self.call(Function::Post, [book, record, &[], &[]])?;
        unchanged(record, &outcome.slices[1], "record")?;
        book.copy_from_slice(&outcome.slices[0]);
        Ok(outcome.answer)
    }

    fn settle(&mut self, lent: Evening) -> Answer {
        let slices = [lent.book, lent.prices, &*lent.next, &*lent.results];
        let outcome = self.call(Function::Settle, slices)?;
        unchanged(lent.book, &outcome.slices[0], "book")?;
        unchanged(lent.prices, &outcome.slices[1], "list of prices")?;
        lent.next.copy_from_slice(&outcome.slices[2]);
        lent.results.copy_from_slice(&outcome.slices[3]);
        Ok(outcome.answer)
    }
}
