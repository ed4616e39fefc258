//! Telling why lines and settings are refused.

// It answers each line by itself, so that a line may say what it is answered.
use crate::run::{EchoEngine as Repeating, script_of};
use sm_explain::{Beginning, Console, Explained, Listener, Sentence};
use sm_lines::{Dialogue, Status, run};
use std::alloc::Global;
use std::cell::Cell;
use std::io::Write;
use std::test::Fail;

/// Keeps of what it hears the number of the last line.
#[derive(Drop)]
struct LastLine {
    number: Cell<u64>,
}

impl Listener for LastLine {
    fn hear(&self, line: u64, _answer: &str, _sentence: Sentence) {
        self.number.set(line);
    }
}

const LINES: &[u8] = b"refused Busy\nplain\n\nerror BadLine\nplain\n";

#[test]
fn explained_run_answers_alike(rt: HostRuntime) -> Result<(), Fail> {
    let alloc = rt.alloc();
    let script = script_of(alloc, LINES)?;
    let mut written = Vec::new(alloc);
    let mut dialogue = Dialogue::new(alloc, script.as_slice(), &mut written)?;
    let console = Console::new(&rt);
    let mut engine = Explained::new(Repeating, &console);
    let status = run(alloc, &mut dialogue, &mut engine)?;
    assert!(rt; status == Status::Ran);
    assert!(rt; console.has_heard_error());
    assert!(rt; written.as_slice() == LINES);
    Ok(())
}

// The number of the last line that a listener heard, where the script ran to its end.
fn last_line_heard(alloc: Global, script: &[u8]) -> Option<u64> {
    let listener = LastLine {
        number: Cell::new(0),
    };
    let mut dialogue = Dialogue::new(alloc, script, Vec::new(alloc)).ok()?;
    let mut engine = Explained::new(Repeating, &listener);
    match run(alloc, &mut dialogue, &mut engine) {
        Ok(_) => Some(listener.number.get()),
        Err(_) => None,
    }
}

#[test]
fn listener_hears_line_numbers(rt: HostRuntime) {
    let script = script_of(rt.alloc(), LINES).ok().expect(&rt, "memory");
    assert!(rt; last_line_heard(rt.alloc(), &script) == Some(5));
}

// What a beginning holds of these bytes says of the settings' fault.
fn is_fault_of(alloc: Global, bytes: &[u8], fault: Option<&str>) -> bool {
    let mut beginning = Beginning::new(alloc, Vec::new(alloc));
    beginning.write(bytes).is_ok() && beginning.settings_fault() == fault
}

#[test]
fn beginning_keeps_the_answer_to_settings(rt: HostRuntime) {
    assert!(rt; is_fault_of(rt.alloc(), b"settings BadOps\n", Some("BadOps")));
    assert!(rt; is_fault_of(rt.alloc(), b"ok\nsettings BadOps\n", None));
}
