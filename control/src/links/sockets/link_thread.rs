use super::super::link::{Link, LinkNeed, LinkState};
use super::super::links_inner::LinksInner;
use super::super::outbound::{OutboundReader, OutboundWriter};
use super::super::{Host, Identity};
use super::channel::{connect, Channel};
use std::io::{self, Read, Write};
use std::sync::{Arc, MutexGuard, PoisonError};
use std::thread::{self, JoinHandle};
use std::time::Duration;

/// The thread of a link: it waits for work, and moves the bytes of the connection.
struct LinkThread<H: Host> {
    link: Arc<Link<H>>,
    inner: Arc<LinksInner<H>>,
}

/// Starts a thread for the link. It ends once the link is stopped.
///
/// # Errors
///
/// If the system refuses a thread.
pub(in super::super) fn begin_link<H: Host>(
    inner: &Arc<LinksInner<H>>,
    link: &Arc<Link<H>>,
) -> io::Result<()> {
    let (link, inner) = (link.clone(), inner.clone());
    let thread = thread::Builder::new().name(format!("to-{}", link.server));
    thread
        .spawn(move || LinkThread { link, inner }.run())
        .map(drop)
}

impl<H: Host> LinkThread<H> {
    /// Connects to the process whenever there are requests for it, and sends them.
    fn run(self) {
        while self.wait_for_work() {
            let version = self.link.begin();
            let begun = self.reach(version).and_then(|it| self.begin_to_serve(it));
            match begun {
                Ok((writer, reading)) => {
                    self.serve(writer, reading);
                    self.link.end_connection();
                }
                Err(error) => self.link.note_unreached(&error, &self.inner),
            }
        }
        self.link.give_back_all("this process ends", &self.inner);
    }

    /// Waits until the link needs a connection. Returns false once it needs nothing any more.
    fn wait_for_work(&self) -> bool {
        let mut state = self.link.state();
        loop {
            let now = self.inner.now();
            let woken = &self.link.woken;
            state = match state.need(now) {
                LinkNeed::Connection => return true,
                LinkNeed::End => return false,
                LinkNeed::Nothing(None) => unpoisoned(woken.wait(state)),
                LinkNeed::Nothing(Some(until)) => {
                    let waited = woken.wait_timeout(state, until.saturating_duration_since(now));
                    waited.unwrap_or_else(PoisonError::into_inner).0
                }
            };
        }
    }

    /// Connects to the process, and returns its identity, and how long it took to greet.
    fn reach(&self, version: u8) -> io::Result<(Channel, Identity, Duration)> {
        let (server, terms) = (self.link.server, &self.inner.terms());
        let address = self.inner.address_of(server)?;
        let mut channel = connect(terms, &address)?;
        let begun = self.inner.now();
        let identity = channel.greet(terms, server, version)?;
        let round_trip = self.inner.now().saturating_duration_since(begun);
        let Identity { process, table, .. } = identity;
        tracing::info!(server, process, table, address, "reached a process");
        Ok((channel, identity, round_trip))
    }

    /// Starts a reader of the process's answers; without one, the process isn't asked anything. Returns the writer of
    /// requests, and the reader's thread.
    fn begin_to_serve(
        &self,
        (channel, identity, round_trip): (Channel, Identity, Duration),
    ) -> io::Result<(Box<dyn Write + Send>, JoinHandle<()>)> {
        self.link
            .note_reached(identity, channel.closer(), round_trip);
        let Channel { reader, writer, .. } = channel;
        self.begin_to_read(reader).map(|it| (writer, it))
    }

    fn begin_to_read(&self, mut reader: Box<dyn Read + Send>) -> io::Result<JoinHandle<()>> {
        let mut outbound = OutboundReader::new(self.link.clone(), self.inner.clone());
        let thread = thread::Builder::new().name(format!("of-{}", self.link.server));
        thread.spawn(move || loop {
            if let Err(error) = outbound.read(&mut *reader) {
                return outbound.end(&error.to_string());
            }
        })
    }

    /// Sends requests while the connection lasts.
    fn serve(&self, mut writer: Box<dyn Write + Send>, reading: JoinHandle<()>) {
        let mut outbound = OutboundWriter::new(self.link.clone(), self.inner.clone());
        while self.wait_for_requests() {
            if let Err(error) = outbound.write(&mut *writer) {
                outbound.end(&error.to_string());
                break;
            }
        }
        self.link.cut();
        // A thread that panicked has logged that.
        let _ = reading.join();
    }

    /// Waits until there is something to send. Returns false once the connection is over.
    fn wait_for_requests(&self) -> bool {
        let state = self.link.state();
        let idle = |it: &mut LinkState<H>| it.is_idle();
        unpoisoned(self.link.woken.wait_while(state, idle)).goes_on()
    }
}

fn unpoisoned<'a, T>(
    state: Result<MutexGuard<'a, T>, PoisonError<MutexGuard<'a, T>>>,
) -> MutexGuard<'a, T> {
    state.unwrap_or_else(PoisonError::into_inner)
}
