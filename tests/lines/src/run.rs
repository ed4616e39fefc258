//! Running scripts on an engine whose sessions answer each line by itself.

use crate::fakes::FailingReader;
use crate::lines::Echo;
use crate::settings::PLAIN;
use crate::stops::{
    Runs, is_written, is_written_in_two, wrong_stop_of_reader, wrong_stop_of_writer,
};
use sm_lines::{BeginFault, Dialogue, Engine, RunFault, Status, Watched, read_settings, run};
use sm_settings::MAX_SETTINGS;
use std::alloc::{AllocError, Global};
use std::io::{Read, Write};
use std::process::Abort;
use std::test::Fail;

/// Its lines have at most 20 bytes.
#[derive(Drop)]
pub(crate) struct EchoEngine;

impl Engine for EchoEngine {
    ghost use Rattle.std.specs.Prelude.{⊤};

    type Session = Echo;

    const MAX_LINE: usize = 20;

    ghost MAX_LINE = { 20 };

    ghost begins = { λ _ _. ⊤ };

    ghost refuses = { λ _ _. ⊤ };

    fn begin(&mut self, alloc: Global, first: &[u8]) -> Result<Echo, BeginFault> {
        let _settings = read_settings(alloc, first)?;
        Ok(Echo)
    }

    fn end(&mut self, _session: Echo) {}
}

/// The lines after the settings, and what is written for them.
const LINES: &[u8] = b"one\n\na line of 21 letters.\nend\n";

const ANSWERS: &[u8] = b"one\n\nlong a line of 21 letters\nend\n";

/// The settings, and these lines after them.
pub(crate) fn script_of(alloc: Global, lines: &[u8]) -> Result<Vec<u8>, AllocError> {
    let mut script = Vec::from_slice(alloc, PLAIN.as_bytes())?;
    script.push(b'\n')?;
    script.extend_from_slice(lines)?;
    Ok(script)
}

impl Runs for EchoEngine {
    fn run_on<R: Read + Drop, W: Write + Drop>(
        &self,
        alloc: Global,
        reader: R,
        writer: W,
    ) -> Result<Status, RunFault> {
        let mut dialogue = Dialogue::new(alloc, reader, writer)?;
        run(alloc, &mut dialogue, &mut EchoEngine)
    }
}

#[test]
fn answers_the_lines_after_the_settings(rt: HostRuntime) -> Result<(), Fail> {
    // A function of its own, whose early exit has few kinds of values to drop.
    fn answer(rt: &impl Abort, alloc: Global, script: &Vec<u8>) -> Result<(), RunFault> {
        let mut written = Vec::new(alloc);
        let mut dialogue = Dialogue::new(alloc, script.as_slice(), &mut written)?;
        let status = run(alloc, &mut dialogue, &mut EchoEngine)?;
        assert!(rt; status == Status::Ran);
        assert!(rt; written.as_slice() == ANSWERS);
        Ok(())
    }
    let script = script_of(rt.alloc(), LINES)?;
    answer(&rt, rt.alloc(), &script)?;
    Ok(())
}

#[test]
fn answers_refused_settings(rt: HostRuntime) {
    let long = vec![in rt.alloc(); b' '; MAX_SETTINGS + 1];
    let long = long.ok().expect(&rt, "memory");
    let cases: [(&[u8], &[u8]); 4] = [
        (&long, b"settings TooLong\n"),
        (b"{}\none", b"settings BadVersion\n"),
        (b"\n", b"settings BadJson\n"),
        (b"", b"settings BadJson\n"),
    ];
    for (input, want) in cases {
        assert!(rt; is_written(&EchoEngine, rt.alloc(), input, Status::BadSettings, want));
    }
}

#[test]
fn run_stops_where_the_reader_fails(rt: HostRuntime) {
    let input = script_of(rt.alloc(), LINES).ok().expect(&rt, "memory");
    let wrong = wrong_stop_of_reader(&EchoEngine, rt.alloc(), &input, ANSWERS);
    assert_eq!(rt; wrong, None);
}

#[test]
fn run_stops_where_the_writer_fails(rt: HostRuntime) {
    let input = script_of(rt.alloc(), LINES).ok().expect(&rt, "memory");
    let wrong = wrong_stop_of_writer(&EchoEngine, rt.alloc(), &input, ANSWERS);
    assert_eq!(rt; wrong, None);
    let wrong = wrong_stop_of_writer(&EchoEngine, rt.alloc(), b"{}", b"settings BadVersion\n");
    assert_eq!(rt; wrong, None);
}

// Whether the reader was called so often, saw the end, and wasn't called after it.
fn has_ended_after<R: Read>(reader: &Watched<R>, calls: usize) -> bool {
    reader.calls() == calls as u64 && reader.has_ended() && !reader.has_read_past_end()
}

// Whether a run on these bytes, which answers them by this line, makes a call for each byte, one that sees the end, and none after it.
fn reads_each_once(alloc: Global, input: &[u8], line: &[u8]) -> bool {
    let calls = input.len().saturating_add(1);
    let mut written = Vec::new(alloc);
    let reader = FailingReader::new(input, calls);
    let has_ended = match Dialogue::new(alloc, reader, &mut written) {
        Ok(mut dialogue) => {
            let ended = run(alloc, &mut dialogue, &mut EchoEngine);
            ended == Ok(Status::Ran) && has_ended_after(dialogue.reader(), calls)
        }
        Err(_) => false,
    };
    has_ended && written.as_slice() == line
}

// The last line with its line feed, and without it.
#[test]
fn reads_nothing_after_the_end(rt: HostRuntime) {
    let input = script_of(rt.alloc(), b"one").ok().expect(&rt, "memory");
    assert!(rt; reads_each_once(rt.alloc(), &input, b"one\n"));
    let input = script_of(rt.alloc(), b"one\n").ok().expect(&rt, "memory");
    assert!(rt; reads_each_once(rt.alloc(), &input, b"one\n"));
}

// With each allocation refused in turn (`tools/run-tests` does it), those of what reads lines, settings among them, and writes answers.
#[test]
fn refused_memory_stops_between_lines(rt: HostRuntime) {
    let alloc = rt.alloc();
    let script = script_of(alloc, LINES).ok().expect(&rt, "memory");
    let room = Vec::with_capacity(alloc, 200);
    let mut written: Vec<u8> = room.ok().expect(&rt, "memory");
    assert!(rt; is_written_in_two(&EchoEngine, alloc, &script, &mut written, ANSWERS));
}
