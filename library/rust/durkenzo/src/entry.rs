use crate::fault::AdmitFault;
use crate::pass::{Mode, Pass};
use crate::record::Record;
use crate::shard_id::ShardId;
use crate::waiters::{Attempt, Wait};
use std::future::Future;
use std::pin::Pin;
use std::task::{Context, Poll};

/// A pass that enters a shard as soon as no other pass is admitted to it. It ends with the number of the shard's body.
pub(crate) struct Entry<'a, T> {
    pub(crate) pass: &'a mut Pass<T>,
    pub(crate) shard: ShardId,
    pub(crate) mode: Mode,
    wait: Wait,
}

impl<'a, T> Entry<'a, T> {
    pub(crate) fn new(pass: &'a mut Pass<T>, shard: ShardId, mode: Mode) -> Entry<'a, T> {
        Entry {
            pass,
            shard,
            mode,
            wait: Wait::default(),
        }
    }
}

impl<T> Future for Entry<'_, T> {
    type Output = Result<u64, AdmitFault>;

    fn poll(self: Pin<&mut Self>, context: &mut Context<'_>) -> Poll<Self::Output> {
        let Entry {
            pass,
            shard,
            mode,
            wait,
        } = self.get_mut();
        let waiters = pass.seat.waiters.clone();
        let attempt = || match pass.enter(*shard, *mode) {
            Ok(number) => Attempt::Ended(Ok(number)),
            Err((code, word)) => match AdmitFault::of(code, Record::of_word(word)) {
                AdmitFault::Raced(_) => Attempt::Raced,
                AdmitFault::Admitted(_) => Attempt::Held,
                fault => Attempt::Ended(Err(fault)),
            },
        };
        wait.poll(context, (&waiters, *shard), attempt, Result::is_ok)
    }
}
