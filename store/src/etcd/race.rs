//! Finds out which of several futures ends first, without a runtime.
use std::future::{poll_fn, Future};
use std::pin::{pin, Pin};
use std::task::Poll;

/// Returns the result of this, unless the other one has ended before.
pub(super) async fn before<T>(
    gives: impl Future<Output = T>,
    end: impl Future<Output = ()>,
) -> Option<T> {
    let (mut gives, mut end) = (pin!(gives), pin!(end));
    poll_fn(|context| match gives.as_mut().poll(context) {
        Poll::Ready(found) => Poll::Ready(Some(found)),
        Poll::Pending => end.as_mut().poll(context).map(|()| None),
    })
    .await
}

/// Calls of members that go on at the same time.
pub(super) struct Calls<F>(Vec<(usize, Pin<Box<F>>)>);

impl<F: Future> Calls<F> {
    pub(super) fn new() -> Calls<F> {
        Calls(Vec::new())
    }

    /// Adds a call of this member.
    pub(super) fn add(&mut self, member: usize, call: F) {
        self.0.push((member, Box::pin(call)));
    }

    /// Waits for the first call that ends, and takes it out. Returns nothing if no call goes on.
    pub(super) async fn next(&mut self) -> Option<(usize, F::Output)> {
        poll_fn(|context| {
            let mut ended =
                self.0.iter_mut().enumerate().filter_map(|(at, (_, call))| {
                    match call.as_mut().poll(context) {
                        Poll::Ready(found) => Some((at, found)),
                        Poll::Pending => None,
                    }
                });
            let first = ended.next();
            match first {
                Some((at, found)) => Poll::Ready(Some((self.0.swap_remove(at).0, found))),
                None if self.0.is_empty() => Poll::Ready(None),
                None => Poll::Pending,
            }
        })
        .await
    }
}
