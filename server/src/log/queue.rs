use super::lines::Lines;
use super::stderr::Stderr;
use std::io;
use std::mem;
use std::sync::{Condvar, Mutex, MutexGuard, PoisonError};
use std::time::Duration;

/// How long the program's end waits for lines that aren't written yet.
const END_WAITS: Duration = Duration::from_secs(1);

/// Lines that one thread writes. A thread that logs a line never waits: if there is no room, the line is dropped and
/// counted.
#[derive(Debug)]
pub(super) struct Queue {
    state: Mutex<State>,
    /// Tells that there are lines to write, or that all were written.
    changed: Condvar,
}

#[derive(Debug)]
struct State {
    /// The waiting lines. There are none before a thread writes them.
    waiting: Option<Lines>,
    is_writing: bool,
    /// How many lines were dropped, or couldn't be written, so far.
    dropped: u64,
}

impl State {
    fn is_empty(&self) -> bool {
        self.waiting.as_ref().is_none_or(Lines::is_empty)
    }
}

impl Queue {
    /// Makes a queue that isn't open yet: each line is written at once.
    pub(super) const fn new() -> Queue {
        Queue {
            state: Mutex::new(State {
                waiting: None,
                is_writing: false,
                dropped: 0,
            }),
            changed: Condvar::new(),
        }
    }

    fn state(&self) -> MutexGuard<'_, State> {
        self.state.lock().unwrap_or_else(PoisonError::into_inner)
    }

    /// Makes lines wait in this memory from now on. A thread must write them.
    pub(super) fn open(&self, memory: Lines) {
        self.state().waiting = Some(memory);
    }

    /// Takes a line.
    pub(super) fn push(&self, line: &[u8]) {
        let mut state = self.state();
        let is_taken = match &mut state.waiting {
            Some(lines) => lines.push(line),
            None => Stderr.put(line),
        };
        state.dropped += u64::from(!is_taken);
        drop(state);
        self.changed.notify_all();
    }

    /// Returns how many lines were dropped, or couldn't be written, so far.
    pub(super) fn dropped(&self) -> u64 {
        self.state().dropped
    }

    /// Writes the lines as they come, forever. Behind each gap it writes how many lines are missing there.
    pub(super) fn write(&self, mut memory: Lines, say_missing: impl Fn(u64)) {
        loop {
            let idle = self.changed.wait_while(self.state(), |it| it.is_empty());
            let mut state = idle.unwrap_or_else(PoisonError::into_inner);
            state.is_writing = true;
            if let Some(waiting) = &mut state.waiting {
                mem::swap(waiting, &mut memory);
            }
            drop(state);
            let is_written = Stderr.put(memory.bytes());
            if memory.dropped() > 0 {
                say_missing(memory.dropped());
            }
            let mut state = self.state();
            state.is_writing = false;
            state.dropped += if is_written { 0 } else { memory.count() };
            memory.clear();
            drop(state);
            self.changed.notify_all();
        }
    }

    /// Waits until all lines are written, but not for long, because perhaps nobody reads them.
    pub(super) fn end(&self) {
        let busy = |it: &mut State| it.is_writing || !it.is_empty();
        drop(
            self.changed
                .wait_timeout_while(self.state(), END_WAITS, busy),
        );
    }
}

impl io::Write for &Queue {
    fn write(&mut self, line: &[u8]) -> io::Result<usize> {
        self.push(line);
        Ok(line.len())
    }

    fn flush(&mut self) -> io::Result<()> {
        Ok(())
    }
}
