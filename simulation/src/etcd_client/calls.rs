//! The calls of clients to members, and the answers so far.
use durkenzo_store::{AnswerBody, Later, MemberAnswer, MemberCall, NoAnswer};
use std::collections::{BTreeMap, VecDeque};
use std::future::poll_fn;
use std::sync::{Arc, Mutex, MutexGuard};
use std::task::{Poll, Waker};
use std::time::{Duration, Instant};

/// A call to a member.
pub struct Call {
    /// The place of the client that calls.
    pub place: usize,
    /// The member that is called, by its number in the etcd.
    pub member: usize,
    pub path: &'static str,
    pub asked: Vec<u8>,
    pub sent: Duration,
    /// The status of the answer, or the reason why there is no answer. It is missing until the answer begins.
    head: Option<Result<u16, NoAnswer>>,
    pieces: VecDeque<Vec<u8>>,
    /// The end of the answer, once it has ended.
    end: Option<Result<(), NoAnswer>>,
    /// Whether nobody waits for the answer any more.
    is_dropped: bool,
    waker: Option<Waker>,
}

impl Call {
    fn wake(&mut self) {
        self.waker.take().into_iter().for_each(Waker::wake);
    }
}

/// All calls by their numbers, and all tasks that wait for a time.
#[derive(Default)]
pub struct Calls {
    calls: BTreeMap<u64, Call>,
    timers: BTreeMap<u64, (Instant, Waker)>,
    next: u64,
}

/// The calls of all clients.
pub type SharedCalls = Arc<Mutex<Calls>>;

/// Locks the calls. The caller must not hold the lock while a task runs, because tasks lock the calls too.
pub fn locked(shared: &SharedCalls) -> MutexGuard<'_, Calls> {
    shared.lock().expect("no schedule goes on after a panic")
}

impl Calls {
    fn number(&mut self) -> u64 {
        self.next += 1;
        self.next
    }

    /// Returns the numbers of the calls that no member has answered, in their order.
    pub fn unanswered(&self) -> Vec<u64> {
        let calls = self.calls.iter().filter(|it| it.1.head.is_none());
        calls.map(|it| *it.0).collect()
    }

    /// Returns the call of this number, if it goes on.
    pub fn get(&self, number: u64) -> Option<&Call> {
        self.calls.get(&number)
    }

    /// Returns whether anybody waits for the answer to this call.
    pub fn is_awaited(&self, number: u64) -> bool {
        self.get(number).is_some_and(|it| !it.is_dropped)
    }

    /// Begins the answer to a call: with a status, or with the reason why there is no answer.
    pub fn begin(&mut self, number: u64, head: Result<u16, NoAnswer>) {
        self.change(number, |it| it.head = Some(head));
    }

    /// Adds these bytes to the answer to a call.
    pub fn push(&mut self, number: u64, piece: Vec<u8>) {
        self.change(number, |it| it.pieces.push_back(piece));
    }

    /// Ends the answer to a call.
    pub fn end(&mut self, number: u64, end: Result<(), NoAnswer>) {
        self.change(number, |it| it.end = Some(end));
    }

    /// Forgets a call for which nobody waits, because it never reaches a member.
    pub fn forget(&mut self, number: u64) {
        self.calls.remove(&number);
    }

    /// Returns for how many calls and times somebody still waits.
    pub fn awaited(&self) -> usize {
        let awaited = self.calls.values().filter(|it| !it.is_dropped);
        awaited.count() + self.timers.len()
    }

    fn change(&mut self, number: u64, change: impl FnOnce(&mut Call)) {
        let Some(call) = self.calls.get_mut(&number) else {
            return;
        };
        change(call);
        call.wake();
        if call.is_dropped && call.head.is_some() {
            self.calls.remove(&number);
        }
    }

    /// Wakes all tasks whose time has come by now.
    pub fn wake_until(&mut self, now: Instant) {
        let due = self.timers.iter().filter(|it| it.1 .0 <= now);
        let due: Vec<u64> = due.map(|it| *it.0).collect();
        let wakers = due.iter().filter_map(|it| self.timers.remove(it));
        wakers.for_each(|it| it.1.wake());
    }

    fn drop_call(&mut self, number: u64) {
        let Some(call) = self.calls.get_mut(&number) else {
            return;
        };
        call.is_dropped = true;
        // If no member has answered the call, it may still reach one.
        if call.head.is_some() {
            self.calls.remove(&number);
        }
    }
}

/// A call whose answer somebody waits for, until this is dropped.
struct Awaited {
    number: u64,
    shared: SharedCalls,
}

impl Drop for Awaited {
    fn drop(&mut self) {
        locked(&self.shared).drop_call(self.number);
    }
}

/// Sends a call, and returns a future for its answer.
pub fn send(
    shared: &SharedCalls,
    place: usize,
    (call, member): (MemberCall, usize),
    now: Duration,
) -> Later<'static, Result<MemberAnswer, NoAnswer>> {
    let mut calls = locked(shared);
    let number = calls.number();
    let sent = Call {
        place,
        member,
        path: call.path,
        asked: call.asked,
        sent: now,
        head: None,
        pieces: VecDeque::new(),
        end: None,
        is_dropped: false,
        waker: None,
    };
    calls.calls.insert(number, sent);
    drop(calls);
    let awaited = Awaited {
        number,
        shared: shared.clone(),
    };
    Box::pin(async move {
        let status = head(&awaited).await?;
        Ok(MemberAnswer {
            status,
            body: Box::new(awaited),
        })
    })
}

async fn head(awaited: &Awaited) -> Result<u16, NoAnswer> {
    poll_fn(|context| {
        let mut calls = locked(&awaited.shared);
        let call = calls.calls.get_mut(&awaited.number).expect("it is awaited");
        match call.head.clone() {
            Some(head) => Poll::Ready(head),
            None => {
                call.waker = Some(context.waker().clone());
                Poll::Pending
            }
        }
    })
    .await
}

impl AnswerBody for Awaited {
    fn append_next<'a>(&'a mut self, held: &'a mut Vec<u8>) -> Later<'a, Result<bool, NoAnswer>> {
        Box::pin(poll_fn(|context| {
            let mut calls = locked(&self.shared);
            let call = calls.calls.get_mut(&self.number).expect("it is awaited");
            match (call.pieces.pop_front(), &call.end) {
                (Some(piece), _) => {
                    held.extend_from_slice(&piece);
                    Poll::Ready(Ok(true))
                }
                (None, Some(Ok(()))) => Poll::Ready(Ok(false)),
                (None, Some(Err(why))) => Poll::Ready(Err(why.clone())),
                (None, None) => {
                    call.waker = Some(context.waker().clone());
                    Poll::Pending
                }
            }
        }))
    }
}

/// The wait of a task for a time, until this is dropped.
struct Timer {
    number: u64,
    shared: SharedCalls,
}

impl Drop for Timer {
    fn drop(&mut self) {
        locked(&self.shared).timers.remove(&self.number);
    }
}

/// Waits until this time, by the clock that `now` reads.
pub fn wait_until(
    shared: &SharedCalls,
    until: Instant,
    now: impl Fn() -> Instant + Send + 'static,
) -> Later<'static, ()> {
    let number = locked(shared).number();
    let timer = Timer {
        number,
        shared: shared.clone(),
    };
    Box::pin(poll_fn(move |context| {
        if now() >= until {
            return Poll::Ready(());
        }
        let waiting = (until, context.waker().clone());
        locked(&timer.shared).timers.insert(timer.number, waiting);
        Poll::Pending
    }))
}
