use super::findings::Findings;
use super::query::Query;
use super::shard_walk::{send, Visit, Walk, Walker};
use crate::cluster::Cluster;
use crate::command::found_keys::FoundKeys;
use crate::command::latest::Position;
use crate::command::scan::following;
use crate::command::Fault;
use crate::io::{Caller, ReplyAddress};
use crate::resp::{Protocol, Replies};
use durkenzo_driver::Range;
use std::sync::{Arc, Mutex, MutexGuard, PoisonError};

/// How many shards KEYS asks at once. Each lane asks one shard, and then the next one that no lane has asked.
pub(super) const MOST_LANES: usize = 16;

/// KEYS over shards whose data outlives the process.
#[derive(Clone, Debug)]
pub(super) struct KeysWalk {
    protocol: Protocol,
    caller: Caller,
    state: Arc<Mutex<State>>,
}

#[derive(Debug)]
struct State {
    found: FoundKeys,
    /// The shards that no lane has asked yet.
    shards: std::ops::Range<u16>,
    /// How many lanes haven't reached their end.
    lanes: usize,
    /// Whether all lanes stop, because one was refused.
    is_over: bool,
    /// The client's address, until the client is answered.
    reply_to: Option<ReplyAddress>,
}

impl KeysWalk {
    /// Makes the walk of this search over so many shards, for a client with this version of the protocol.
    pub(super) fn new(
        found: FoundKeys,
        shards: u16,
        protocol: Protocol,
        reply_to: ReplyAddress,
    ) -> KeysWalk {
        let caller = reply_to.caller();
        let state = State {
            found,
            shards: 0..shards,
            lanes: MOST_LANES.min(shards.into()),
            is_over: false,
            reply_to: Some(reply_to),
        };
        KeysWalk {
            protocol,
            caller,
            state: Arc::new(Mutex::new(state)),
        }
    }

    /// Asks the shards.
    pub(super) fn go_on(self, cluster: &Arc<Cluster>) {
        let lanes = self.state().lanes;
        for _ in 0..lanes {
            let list = self.clone();
            let walker = Walker {
                walk: Box::new(self.lane()),
                cluster: cluster.clone(),
                protocol: self.protocol,
                caller: self.caller.clone(),
                end: Box::new(move |told| list.end(told)),
            };
            walker.go_on();
        }
    }

    fn lane(&self) -> Lane {
        Lane {
            list: self.clone(),
            next: None,
            fault: None,
        }
    }

    fn state(&self) -> MutexGuard<'_, State> {
        self.state.lock().unwrap_or_else(PoisonError::into_inner)
    }

    /// Takes the end of a lane. A lane has an answer only if it was refused: then the client gets that answer at once.
    fn end(&self, told: Replies) {
        let mut state = self.state();
        state.lanes -= 1;
        let answer = match told.error_count() {
            0 if state.lanes > 0 => return,
            0 => {
                let mut answer = Replies::new(self.protocol);
                state.found.answer(&mut answer);
                answer
            }
            _ => {
                state.is_over = true;
                told
            }
        };
        let reply_to = state.reply_to.take();
        drop(state);
        if let Some(reply_to) = reply_to {
            send(answer, reply_to);
        }
    }
}

/// A lane: one of several walks that go on at once. It asks shards that no other lane has asked.
#[derive(Debug)]
struct Lane {
    list: KeysWalk,
    /// Where it goes on in its shard. If there is no position, it takes another shard.
    next: Option<Position>,
    /// Why its findings are refused, if they are.
    fault: Option<Fault>,
}

impl Walk for Lane {
    fn next(&mut self) -> Option<(u16, Visit)> {
        let mut state = self.list.state();
        if state.is_over {
            return None;
        }
        if self.next.is_none() {
            let shard = state.shards.next();
            self.next = shard.map(|shard| Position { shard, after: None });
        }
        let position = self.next.as_ref()?;
        let query = Query::keys_behind(position, Range::MOST);
        Some((position.shard, Visit::Query(query)))
    }

    fn take(&mut self, found: Findings) {
        let keys: Vec<_> = found.pairs.into_iter().map(|it| it.0).collect();
        let bytes = keys.iter().map(|it| it.len()).sum();
        let next = self.next.take();
        // If that was the shard's end, the lane takes another shard.
        self.next = next.and_then(|it| following(it, &keys, Range::MOST, 0));
        let mut state = self.list.state();
        if let Err(fault) = state.found.add(keys, bytes) {
            state.is_over = true;
            self.fault = Some(fault);
        }
    }

    fn answer(self: Box<Self>, _cluster: &Cluster, answer: &mut Replies) {
        if let Some(fault) = &self.fault {
            fault.answer(answer);
        }
    }
}

#[cfg(test)]
mod tests {
    use super::*;
    use crate::resp::OwnedCommand;
    use std::sync::mpsc::{channel, Receiver};

    /// Makes a KEYS over so many shards, and returns the receiver of its answer.
    fn list(shards: u16) -> (KeysWalk, Receiver<Vec<u8>>) {
        let (tell, told) = channel();
        let reply_to = ReplyAddress::process(move |bytes| tell.send(bytes).unwrap());
        let command = OwnedCommand::of(&["KEYS", "*"]);
        let found = FoundKeys::new(command.command()).unwrap();
        (KeysWalk::new(found, shards, Protocol::Two, reply_to), told)
    }

    fn keys(shard: u16, count: usize) -> Findings {
        let key = |it| format!("{shard}:{it:03}").into_bytes().into();
        Findings {
            pairs: (0..count).map(|it| (key(it), Box::default())).collect(),
            count: 0,
        }
    }

    fn asked(lane: &mut Lane) -> Option<u16> {
        lane.next().map(|it| it.0)
    }

    fn ended(list: &KeysWalk, lane: Lane) {
        let mut told = Replies::new(Protocol::Two);
        if let Some(fault) = &lane.fault {
            fault.answer(&mut told);
        }
        list.end(told);
    }

    #[test]
    fn several_shards_are_asked_at_once_and_each_to_its_end() {
        let (list, told) = list(20);
        let mut lanes: Vec<Lane> = (0..MOST_LANES).map(|_| list.lane()).collect();
        for (lane, shard) in lanes.iter_mut().zip(0..) {
            assert_eq!(asked(lane), Some(shard));
        }
        // The first shard has more keys than it has told, and the next shard has no more.
        lanes[0].take(keys(0, Range::MOST));
        assert_eq!(asked(&mut lanes[0]), Some(0));
        lanes[0].take(keys(0, 0));
        lanes[1].take(keys(1, 2));
        let next = [0, 1].map(|it| asked(&mut lanes[it]));
        assert_eq!(next, [Some(16), Some(17)]);
        let mut rest = Vec::new();
        for (lane, shard) in lanes.iter_mut().zip([16, 17, 2, 3, 4, 5]) {
            lane.take(keys(shard, 1));
            rest.push(asked(lane));
        }
        assert_eq!(rest, [Some(18), Some(19), None, None, None, None]);
        for (lane, shard) in lanes.iter_mut().zip([18, 19]) {
            lane.take(keys(shard, 0));
            assert_eq!(asked(lane), None);
        }
        for mut lane in lanes {
            assert!(told.try_recv().is_err());
            lane.take(keys(0, 0));
            assert_eq!(asked(&mut lane), None);
            ended(&list, lane);
        }
        let answer = told.recv().unwrap();
        let count = Range::MOST + 2 + 6;
        assert!(answer.starts_with(format!("*{count}\r\n").as_bytes()));
    }

    #[test]
    fn a_refusal_ends_all_lanes() {
        let (list, told) = list(20);
        let (mut first, mut second) = (list.lane(), list.lane());
        assert_eq!([&mut first, &mut second].map(asked), [Some(0), Some(1)]);
        let mut refused = Replies::new(Protocol::Two);
        refused.error("SHARDPAUSED a test");
        list.end(refused);
        assert!(told.recv().unwrap().starts_with(b"-SHARDPAUSED"));
        first.take(keys(0, Range::MOST));
        assert_eq!(asked(&mut first), None);
        ended(&list, first);
        ended(&list, second);
        assert!(told.recv().is_err());
    }
}
