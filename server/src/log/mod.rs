//! The log, which goes to standard error. Nobody waits for a slow reader: lines wait in a bounded queue, and one thread
//! writes them.
mod lines;
mod queue;
mod stderr;

use crate::options::{LogFormat, Options};
use crate::run::BoxError;
use lines::Lines;
use queue::Queue;
use std::backtrace::{Backtrace, BacktraceStatus};
use std::io::{self, IsTerminal};
use std::panic::{self, PanicHookInfo};
use std::thread;
use stderr::Stderr;
use tracing::dispatcher::with_default;
use tracing::Dispatch;
use tracing_subscriber::fmt::MakeWriter;
use tracing_subscriber::util::SubscriberInitExt;
use tracing_subscriber::EnvFilter;

/// The waiting lines. A process has one log, because it has one standard error.
static QUEUE: Queue = Queue::new();

/// Returns how many lines were dropped, because earlier ones weren't read or couldn't be written.
pub fn dropped() -> u64 {
    QUEUE.dropped()
}

/// Writes this line, whatever the log's level.
pub fn say(line: &str) {
    QUEUE.push(format!("{line}\n").as_bytes());
}

/// Sends log lines and panic messages to standard error.
///
/// # Errors
///
/// If the filter is malformed, or there is no memory or no thread for the log.
pub fn begin(options: &Options) -> Result<(), BoxError> {
    let (memory, spare) = (Lines::reserved()?, Lines::reserved()?);
    let format = options.log_format;
    thread::Builder::new()
        .name("log".to_owned())
        .spawn(move || QUEUE.write(spare, |lines| say_missing(format, lines)))?;
    QUEUE.open(memory);
    panic::set_hook(Box::new(|it| say(&told_of(it))));
    let filter = EnvFilter::try_new(&options.log)?;
    subscriber(format, filter, || &QUEUE).try_init()?;
    Ok(())
}

/// Writes the waiting lines of the log when it goes out of scope: at the end of the program, however it ends.
#[derive(Debug)]
pub struct WrittenAtEnd;

impl Drop for WrittenAtEnd {
    fn drop(&mut self) {
        QUEUE.end();
    }
}

/// Makes the subscriber that writes lines of this format.
fn subscriber<W>(format: LogFormat, filter: EnvFilter, writer: W) -> Dispatch
where
    W: for<'a> MakeWriter<'a> + Send + Sync + 'static,
{
    let log = tracing_subscriber::fmt()
        .with_env_filter(filter)
        .with_writer(writer)
        .with_ansi(io::stderr().is_terminal())
        .with_target(false);
    match format {
        LogFormat::Text => Dispatch::new(log.finish()),
        LogFormat::Json => Dispatch::new(log.json().finish()),
    }
}

/// Writes that so many lines are missing, whatever the log's level.
fn say_missing(format: LogFormat, lines: u64) {
    let log = subscriber(format, EnvFilter::new("warn"), || Stderr);
    with_default(&log, || {
        tracing::warn!(
            lines,
            "lines of the log were dropped, because nobody read it"
        );
    });
}

/// Returns the text that the standard library writes about a panic.
fn told_of(panic: &PanicHookInfo<'_>) -> String {
    let thread = thread::current();
    let told = format!("thread '{}' {panic}", thread.name().unwrap_or("<unnamed>"));
    let backtrace = Backtrace::capture();
    match backtrace.status() {
        BacktraceStatus::Captured => format!("{told}\n{backtrace}"),
        _ => told,
    }
}

#[cfg(test)]
mod tests {
    use super::*;
    use std::sync::mpsc::channel;

    #[test]
    fn a_panic_is_told_by_its_thread_and_its_words() {
        let (tell, told) = channel();
        let hook = panic::take_hook();
        panic::set_hook(Box::new(move |it| {
            let _ = tell.send(told_of(it));
        }));
        let panics = || panic!("as a test asks");
        let thread = thread::Builder::new().name("fails".to_owned());
        assert!(thread.spawn(panics).unwrap().join().is_err());
        panic::set_hook(hook);
        let line = told.iter().find(|it| it.contains("'fails'")).unwrap();
        let begun = concat!("thread 'fails' panicked at ", file!(), ":");
        assert!(line.starts_with(begun), "{line}");
        assert!(line.contains("as a test asks"), "{line}");
    }
}
