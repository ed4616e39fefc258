//! Whole scripts on the model, in memory.

use sm_explain::{Listener, Sentence};
use sm_lines::{Dialogue, RunFault, Status};
use sm_model::{run_model, run_model_explained};
use std::alloc::{AllocError, Global};
use std::cell::Cell;
use std::io::{Read, Write};
use std::process::Abort;
use std::test::Fail;
use test_lines::stops::{
    Runs, is_written, is_written_in_two, wrong_stop_of_reader, wrong_stop_of_writer,
};

/// A line of settings: shard 0 below `m`, shard 1 from `m` on.
const SETTINGS: &[u8] =
    b"{\"version\":1,\"bounds\":[\"\",\"m\"],\"servers\":[{\"id\":1,\"domain\":0,\"capacity\":2},{\"id\":2,\"domain\":1,\"capacity\":2},{\"id\":3,\"domain\":1,\"capacity\":2}],\"groups\":[{\"limit\":2,\"down\":1}],\"shards\":[{\"group\":0,\"load\":1,\"cap\":0},{\"group\":0,\"load\":1,\"cap\":1}],\"ops\":1,\"kept\":100,\"ceiling\":1000,\"workers\":2}\n";

/// What follows the settings on the first path.
const FIRST_PATH: &[u8] = b"assign 1 1\nput m hello\nget m\nlook 1\n";

/// What is written for the first path.
const FIRST_ANSWERS: &[u8] = b"ok\ndone @1#0\ntext 5:hello @1#1\nServing 1 0 idle 5\n";

/// The settings, and these lines after them.
fn script_of(alloc: Global, lines: &[u8]) -> Result<Vec<u8>, AllocError> {
    let mut script = Vec::from_slice(alloc, SETTINGS)?;
    script.extend_from_slice(lines)?;
    Ok(script)
}

/// Runs scripts on the model.
struct Model;

impl Runs for Model {
    fn run_on<R: Read + Drop, W: Write + Drop>(
        &self,
        alloc: Global,
        reader: R,
        writer: W,
    ) -> Result<Status, RunFault> {
        run_model(alloc, &mut Dialogue::new(alloc, reader, writer)?)
    }
}

/// The script of the settings and these lines runs to its end, and this is written for it.
fn check(rt: &impl Abort, alloc: Global, lines: &[u8], output: &[u8]) {
    let script = script_of(alloc, lines).ok().expect(rt, "memory");
    assert!(rt; is_written(&Model, alloc, &script, Status::Ran, output));
}

#[test]
fn documented_example(rt: HostRuntime) -> Result<(), Fail> {
    // A function of its own, whose early exit has few kinds of values to drop.
    fn answer(rt: &impl Abort, alloc: Global, script: &[u8]) -> Result<(), RunFault> {
        let mut written = Vec::new(alloc);
        let mut dialogue = Dialogue::new(alloc, script, &mut written)?;
        let status = run_model(alloc, &mut dialogue)?;
        assert_eq!(rt; status, Status::Ran);
        assert!(rt; written.as_slice() == FIRST_ANSWERS);
        Ok(())
    }
    let script = script_of(rt.alloc(), FIRST_PATH)?;
    answer(&rt, rt.alloc(), &script)?;
    Ok(())
}

/// Keeps of what it hears the number of the last line.
#[derive(Drop)]
struct LastRefused {
    line: Cell<u64>,
}

impl Listener for LastRefused {
    fn hear(&self, line: u64, _answer: &str, _sentence: Sentence) {
        self.line.set(line);
    }
}

#[test]
fn explained_run_writes_the_script(rt: HostRuntime) -> Result<(), Fail> {
    let alloc = rt.alloc();
    let script = script_of(alloc, b"assign 1 1\nfly\nput m hello\n")?;
    let mut written = Vec::new(alloc);
    let refused = LastRefused { line: Cell::new(0) };
    let mut dialogue = Dialogue::new(alloc, script.as_slice(), &mut written)?;
    let status = run_model_explained(alloc, &mut dialogue, &refused)?;
    assert!(rt; status == Status::Ran);
    assert!(rt; refused.line.get() == 3);
    assert!(rt; written.as_slice() == b"ok\nerror UnknownWord\ndone @1#0\n".as_slice());
    Ok(())
}

/// A line of 70,001 bytes, a comment of as many, and a key's text that is as long as a line can have.
fn long_lines(alloc: Global) -> Result<Vec<u8>, AllocError> {
    let long = vec![in alloc; b'x'; 70_001]?;
    let text = vec![in alloc; b'x'; 69_994]?;
    let mut lines = Vec::from_slice(alloc, &long)?;
    lines.extend_from_slice(b"\n#")?;
    lines.extend_from_slice(&long)?;
    lines.extend_from_slice(b"\nassign 0 1\nput a ")?;
    lines.extend_from_slice(&text)?;
    lines.extend_from_slice(b"\nget a\n\n# done\nlook 0")?;
    Ok(lines)
}

#[test]
fn answers_lines_that_are_too_long(rt: HostRuntime) {
    let lines = long_lines(rt.alloc()).ok().expect(&rt, "memory");
    let output = b"error LineTooLong\nok\nreply TooLong @1#0\nnothing @1#1\nServing 1 0 idle 5\n";
    check(&rt, rt.alloc(), &lines, output);
}

#[test]
fn takes_all_bytes_but_a_line_feed(rt: HostRuntime) {
    let lines = b"assign 1 1\nput \xff\x00 \xfe  \r \nget \xff\x00\n";
    let output = b"ok\ndone @1#0\ntext 5:\xfe  \r  @1#1\n";
    check(&rt, rt.alloc(), lines, output);
}

// A scan gives texts and counts of its own shard alone, from its low key on and below its high one.
#[test]
fn scans_a_shard(rt: HostRuntime) {
    let lines =
        b"assign 0 1\nassign 1 2\nput c \xff:\nappend c  d\ninc b -7\nput m x\nput d\nscan b d 9\nscan c z 9\n";
    let output =
        b"ok\nok\ndone @1#0\ndone @1#1\ncount -7 @1#2\ndone @2#0\ndone @1#3\npairs 2 1:b c-7 1:c t4:\xff: d @1#4\npairs 2 1:c t4:\xff: d 1:d t0: @1#5\n";
    check(&rt, rt.alloc(), lines, output);
}

#[test]
fn stops_where_the_reader_fails(rt: HostRuntime) {
    let input = script_of(rt.alloc(), FIRST_PATH).ok().expect(&rt, "memory");
    let wrong = wrong_stop_of_reader(&Model, rt.alloc(), &input, FIRST_ANSWERS);
    assert_eq!(rt; wrong, None);
}

#[test]
fn stops_where_the_writer_fails(rt: HostRuntime) {
    let input = script_of(rt.alloc(), FIRST_PATH).ok().expect(&rt, "memory");
    let wrong = wrong_stop_of_writer(&Model, rt.alloc(), &input, FIRST_ANSWERS);
    assert_eq!(rt; wrong, None);
    let wrong = wrong_stop_of_writer(&Model, rt.alloc(), b"{}", b"settings BadVersion\n");
    assert_eq!(rt; wrong, None);
}

/// Settings of two servers and one shard, and lines that ask for plans and for what is kept.
const SMALL: &[u8] =
    b"{\"version\":1,\"bounds\":[\"\"],\"servers\":[{\"id\":1,\"domain\":0,\"capacity\":1},{\"id\":2,\"domain\":1,\"capacity\":1}],\"groups\":[{\"limit\":1,\"down\":1}],\"shards\":[{\"group\":0,\"load\":1,\"cap\":1}],\"ops\":1,\"kept\":100,\"ceiling\":1000,\"workers\":1}\nplace\nassign 0 1\nput a one\nappend a  two\npublish 0\nclient inc b 7\nscan a c 9\nat 2 get a\ncheckpoint 0 1\ndrain 1\nscan b d\nlook 0\n";

/// What is written for them.
const SMALL_ANSWERS: &[u8] =
    b"plan 0>1 left\nok\ndone @1#0\ndone @1#1\nok\ncount 7 @1#2\npairs 2 1:a t7:one two 1:b c7 @1#3\nrefused NotExecutor\nok\nplan 0>2 left\nerror BadLine\nServing 1 0 idle 11\n";

// With each allocation refused in turn (`tools/run-tests` does it): those of a session, of its world, and of calls and their answers.
#[test]
fn refused_memory_stops_between_lines(rt: HostRuntime) {
    let room = Vec::with_capacity(rt.alloc(), 400);
    let mut written: Vec<u8> = room.ok().expect(&rt, "memory");
    assert!(rt; is_written_in_two(&Model, rt.alloc(), SMALL, &mut written, SMALL_ANSWERS));
}
