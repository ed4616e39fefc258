//! The way of a call through a server: it is executed, forwarded to another server, or waits.
use crate::conversation::LEAVES;
use crate::environment::NotAnswered;
use crate::fleet_inner::FleetInner;
use crate::frame::{CallFrame, Request, Response, MOST};
use crate::place::Place;
use crate::queue::{Turn, LOOK};
use crate::{Destination, Enter, Mode, Permit, Refused, Service};
use durkenzo::{ServerId, MOST_HOPS};
use durkenzo_control::links::NO_SERVER;
use std::borrow::Cow;
use std::sync::atomic::Ordering;
use std::time::{Duration, Instant};

/// The time after which a call is sent again to a server that can't be reached, or the lease is looked at again.
const PAUSE: Duration = Duration::from_millis(5);

/// The reason if a call can't wait.
const FULL: &str = "as many calls wait for the shard as may";

/// The result of one look at a call.
enum Step {
    /// The response is written.
    Done,
    /// Nothing was done yet, for this reason.
    Waits(Cow<'static, str>),
    /// This process hasn't read the record under which the call was sent. The calls behind it may go on.
    Unread,
}

impl<S: Service> FleetInner<S> {
    /// Executes the call, or sends it to another server, and writes the response. `is_awaited` tells whether anybody
    /// still waits for it.
    pub(crate) async fn call(
        &self,
        call: &CallFrame<'_>,
        is_awaited: &dyn Fn() -> bool,
        out: &mut Vec<u8>,
    ) {
        let began = self.environment.now();
        let budget = Duration::from_millis(u64::from(call.budget));
        // The client must hear in time that nothing was done.
        let patience = (budget - budget / 8).min(self.options.patience());
        let (end, waits) = (began + budget, began + patience);
        let (place, mut turn) = match self.arrived(call.shard) {
            Ok(arrived) => arrived,
            Err(why) => return Response::Again(why).write(out),
        };
        let mut why = Cow::Borrowed("calls that came before wait for the shard");
        loop {
            if turn.as_ref().is_none_or(Turn::is_first) {
                match self
                    .look(call, is_awaited, (waits, end), &mut turn, out)
                    .await
                {
                    Step::Done => return,
                    Step::Waits(reason) => why = reason,
                    Step::Unread => {
                        why = "the record by which it was sent isn't read yet".into();
                        drop(turn.take());
                        self.environment.wait(PAUSE, waits).await;
                    }
                }
            }
            if self.environment.is_past(waits) || self.is_stopping() {
                return Response::Again(&why).write(out);
            }
            if let Some(turn) = &turn {
                turn.woken(self.environment.wait(LOOK, waits)).await;
            } else if !self.has_turn(place, &mut turn) {
                return Response::Again(FULL).write(out);
            }
        }
    }

    /// Returns the shard's place, with a turn if other calls wait. Fails with the reason if a call that comes now can't
    /// be made.
    fn arrived(&self, shard: u16) -> Result<(&Place<S::Body>, Option<Turn<'_>>), &'static str> {
        let place = self.places.get(usize::from(shard));
        let place = place.ok_or("there is no such shard")?;
        if self.closing.load(Ordering::Acquire) {
            return Err(LEAVES);
        }
        // A call that comes later waits behind the calls that wait already.
        let mut turn = None;
        match place.queue.is_empty() || self.has_turn(place, &mut turn) {
            true => Ok((place, turn)),
            false => Err(FULL),
        }
    }

    /// Takes a turn behind all other calls that wait. Returns whether there is room.
    fn has_turn<'a>(&self, place: &'a Place<S::Body>, turn: &mut Option<Turn<'a>>) -> bool {
        *turn = place.queue.enter(self.options.waiting);
        turn.is_some()
    }

    /// Looks once whether the call can be executed or must go on. As soon as that is decided, the calls behind it may
    /// look.
    async fn look(
        &self,
        call: &CallFrame<'_>,
        is_awaited: &dyn Fn() -> bool,
        (waits, end): (Instant, Instant),
        turn: &mut Option<Turn<'_>>,
        out: &mut Vec<u8>,
    ) -> Step {
        let place = &self.places[usize::from(call.shard)];
        // If this process executes under the record that it has read, no other process executes under a later record
        // yet. If it doesn't, the later record tells the server to which the call goes.
        let is_unread = place.known().stood < call.revision;
        let (to, from) = match self.try_here(call, waits, turn, out).await {
            Ok(_) | Err(Step::Waits(_)) if is_unread => return Step::Unread,
            Ok(onward) => onward,
            Err(step) => return step,
        };
        if call.hops >= MOST_HOPS {
            return Step::Waits("it was forwarded as often as it may be".into());
        }
        // If this process was paused, the call may have been here for long. If nobody waits for it any more, it must
        // not be made.
        if !is_awaited() {
            return Step::Done;
        }
        drop(turn.take());
        self.send_on(call, (&to, from), end, out).await
    }

    /// Executes the call, if this process may. If not, returns the server to which the call goes and the server that
    /// forwards it, or the result of this look.
    async fn try_here(
        &self,
        call: &CallFrame<'_>,
        waits: Instant,
        turn: &mut Option<Turn<'_>>,
        out: &mut Vec<u8>,
    ) -> Result<(Destination, u16), Step> {
        let entered = match mode_of(call.from) {
            Ok(mode) => self.enter(call.shard, mode).await,
            Err(why) => Enter::Refused(why),
        };
        match entered {
            Enter::Here(permit) => {
                drop(turn.take());
                self.execute(permit, call, waits, out).await;
                Err(Step::Done)
            }
            Enter::Forward(to) => Ok((to, self.server())),
            Enter::Elsewhere(to) => Ok((to, NO_SERVER)),
            Enter::Wait(why) => Err(Step::Waits(why.into())),
            Enter::Refused(why) => {
                Response::Again(&why.to_string()).write(out);
                Err(Step::Done)
            }
        }
    }

    /// Executes the call. Writes the answer only if the permit is seen to hold still, and in time. If a keep of the
    /// lease is on its way, this waits for its answer. The answer can show that the lease hasn't ended since the call
    /// began.
    pub(crate) async fn execute(
        &self,
        mut permit: Permit<'_, S>,
        call: &CallFrame<'_>,
        waits: Instant,
        out: &mut Vec<u8>,
    ) {
        let answer = permit.answer(call.request);
        if answer.len() > MOST {
            let why = format!("it was, and its answer is longer than {MOST} bytes");
            return Response::Unsure(&why).write(out);
        }
        while !permit.holds() {
            if !self.may_hold_again(&permit) || self.environment.is_past(waits) {
                let why = "the server's lease may have ended before it answered";
                return Response::Unsure(why).write(out);
            }
            self.environment.wait(PAUSE, waits).await;
        }
        let answered = Response::Answered {
            server: self.server(),
            hops: call.hops,
            fence: permit.fence(),
            answer: &answer,
        };
        answered.write(out);
    }

    /// Sends the call to another server, with the rest of its budget.
    async fn send_on(
        &self,
        call: &CallFrame<'_>,
        (to, from): (&Destination, u16),
        end: Instant,
        out: &mut Vec<u8>,
    ) -> Step {
        let left = self.environment.left(end);
        let budget = left.as_millis() as u32;
        let Some(address) = to.address.as_deref().filter(|_| budget > 0) else {
            self.environment.wait(PAUSE, end).await;
            return Step::Waits(format!("server {} isn't there", to.server).into());
        };
        let onward = CallFrame {
            from,
            hops: call.hops + 1,
            revision: to.revision,
            budget,
            ..*call
        };
        let asked = Request::Call(onward).written();
        match self.environment.ask(address, asked, end).await {
            Ok(bytes) => {
                let step = returned(&bytes, out);
                if matches!(step, Step::Waits(_)) {
                    self.environment.wait(PAUSE, end).await;
                }
                step
            }
            Err(error @ NotAnswered::Lost(..)) => {
                Response::Unsure(&error.to_string()).write(out);
                Step::Done
            }
            Err(error @ NotAnswered::Unreached(..)) => {
                self.environment.wait(PAUSE, end).await;
                Step::Waits(error.to_string().into())
            }
        }
    }
}

/// Writes the answer of another server, unless nothing was done there.
fn returned(bytes: &[u8], out: &mut Vec<u8>) -> Step {
    match Response::read(bytes) {
        Ok(Response::Again(why)) => return Step::Waits(why.to_owned().into()),
        Ok(response) => response.write(out),
        Err(error) => Response::Unsure(&error.to_string()).write(out),
    }
    Step::Done
}

/// Returns how a call came that this server forwarded, or that a client sent if it is `NO_SERVER`.
fn mode_of(from: u16) -> Result<Mode, Refused> {
    match from {
        NO_SERVER => Ok(Mode::Direct),
        from => ServerId::new(from)
            .map(Mode::Forwarded)
            .map_err(|_| Refused::UnknownServer),
    }
}
