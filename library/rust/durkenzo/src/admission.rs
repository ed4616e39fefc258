use crate::entry::Entry;
use crate::fault::AdmitFault;
use crate::pass::{Mode, Pass};
use crate::permit::Permit;
use crate::shard_id::ShardId;
use std::fmt;
use std::future::Future;
use std::pin::Pin;
use std::task::{ready, Context, Poll};

/// The future of [`Pass::admit_async`]. If it is dropped, the caller leaves the shard's queue.
#[must_use = "a future does nothing before it is awaited"]
pub struct Admission<'a, T> {
    /// The pass on its way, until the permit takes it.
    entry: Option<Entry<'a, T>>,
}

impl<'a, T> Admission<'a, T> {
    pub(crate) fn new(pass: &'a mut Pass<T>, shard: ShardId, mode: Mode) -> Admission<'a, T> {
        Admission {
            entry: Some(Entry::new(pass, shard, mode)),
        }
    }
}

impl<'a, T> Future for Admission<'a, T> {
    type Output = Result<Permit<'a, T>, AdmitFault>;

    /// # Panics
    ///
    /// Panics if the future has ended.
    fn poll(mut self: Pin<&mut Self>, context: &mut Context<'_>) -> Poll<Self::Output> {
        let entry = self.entry.as_mut().expect("the future has ended");
        let number = ready!(Pin::new(entry).poll(context));
        let entry = self.entry.take().expect("it was polled");
        Poll::Ready(number.map(|number| Permit::of(entry.pass, entry.shard, number)))
    }
}

impl<T> fmt::Debug for Admission<'_, T> {
    fn fmt(&self, f: &mut fmt::Formatter<'_>) -> fmt::Result {
        let entry = self.entry.as_ref();
        f.debug_struct("Admission")
            .field("shard", &entry.map(|it| it.shard))
            .field("mode", &entry.map(|it| it.mode))
            .finish_non_exhaustive()
    }
}
