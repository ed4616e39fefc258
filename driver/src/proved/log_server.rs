use super::{refusal, transaction_of, ProvedServer, ServerRequest, LIMITS};
use crate::batch_item::BatchItem;
use crate::decision::{Base, ClientReply, Decision, Passing, ServerTransaction};
use crate::machine_state::MachineState;
use crate::opaque_request::OpaqueRequest;
use crate::recovery::ServerPlace;
use crate::{Key, Machine, MapReply, ServerFault};
use durkenzo_store::Revision;
use durkenzo_store_sys::{self as sys, Code, Head, PlaceAnswer, Relay};
use std::collections::HashMap;

/// A proved server of one shard of a user's own service, and the service's machine after the requests that the server
/// has made. The server orders the requests and says which are made; this applies each of them at its place.
pub(crate) struct LogServer<M> {
    relay: Relay,
    state: MachineState<M>,
    /// The requests of the batches that were added, and the bytes of the snapshot, until they are read.
    added: Vec<BatchItem>,
    snapshot: Vec<u8>,
    /// The requests of the transaction under way.
    sent: Vec<BatchItem>,
    /// The reads that wait, by client and number.
    reads: HashMap<(u64, u64), Vec<u8>>,
}

impl<M: Machine> LogServer<M> {
    /// Makes a server of the shard. It has read nothing yet.
    pub(crate) fn new(place: ServerPlace) -> Result<LogServer<M>, ServerFault> {
        let ServerPlace {
            server,
            shard,
            count,
        } = place;
        Ok(LogServer {
            relay: Relay::new(server, shard, u64::from(count), LIMITS)?,
            state: MachineState::new(),
            added: Vec::new(),
            snapshot: Vec::new(),
            sent: Vec::new(),
            reads: HashMap::new(),
        })
    }

    /// Applies the requests of the batches that were added. Then the machine must be where the server is.
    fn apply_added(&mut self) -> Result<(), ServerFault> {
        for item in std::mem::take(&mut self.added) {
            self.state.apply(item)?;
        }
        let (applied, made) = (self.state.applied(), self.relay.count()?);
        match applied == made {
            true => Ok(()),
            false => Err(ServerFault::OtherCount(applied, made)),
        }
    }

    /// Forgets the requests that must be given again.
    fn forget_waiting(&mut self) {
        self.sent.clear();
        self.reads.clear();
    }

    /// Answers the read by the machine as it is, which must be after as many requests as the server says.
    fn read_answer(&mut self, read: PlaceAnswer) -> Result<ClientReply, ServerFault> {
        self.check_place(read.place)?;
        let request = self.reads.remove(&(read.client, read.number));
        let answer = self.state.read(&request.ok_or(Code::BAD_LOG)?)?;
        Ok(reply_to(read, answer))
    }

    /// Applies the request that the server has made.
    fn made_answer(
        &mut self,
        item: BatchItem,
        made: PlaceAnswer,
    ) -> Result<ClientReply, ServerFault> {
        self.check_place(made.place)?;
        if (item.client, item.number) != (made.client, made.number) {
            return Err(Code::BAD_LOG.into());
        }
        let answer = self.state.apply(item)?;
        Ok(reply_to(made, answer))
    }

    fn check_place(&self, place: u64) -> Result<(), ServerFault> {
        match self.state.applied() == place {
            true => Ok(()),
            false => Err(ServerFault::OtherCount(self.state.applied(), place)),
        }
    }
}

impl<M: Machine> ProvedServer for LogServer<M> {
    fn add_part(&mut self, bytes: &[u8]) -> Result<(), ServerFault> {
        Ok(self.relay.add_part(bytes)?)
    }

    fn add_snapshot(&mut self, bytes: &[u8]) -> Result<(), ServerFault> {
        self.snapshot.extend_from_slice(bytes);
        Ok(())
    }

    fn add_batch(&mut self, bytes: &[u8]) -> Result<(), ServerFault> {
        self.relay.add_batch(bytes)?;
        self.added.extend(BatchItem::all_of(bytes)?);
        Ok(())
    }

    fn read(
        &mut self,
        (record, stood): (&[u8], Revision),
        (head, logged): (&[u8], Revision),
    ) -> Result<(), ServerFault> {
        self.relay.read((record, stood.0), (head, logged.0))?;
        let snapshot = std::mem::take(&mut self.snapshot);
        self.state = match Head::of(head)?.base {
            0 => MachineState::new(),
            _ => MachineState::restore(&snapshot)?,
        };
        self.forget_waiting();
        self.apply_added()
    }

    fn append(
        &mut self,
        (record, stood): (&[u8], Revision),
        (head, logged): (&[u8], Revision),
    ) -> Result<(), ServerFault> {
        self.relay.append((record, stood.0), (head, logged.0))?;
        self.forget_waiting();
        self.apply_added()
    }

    fn batch_count(&mut self) -> Result<u64, ServerFault> {
        Ok(self.relay.batch_count()?)
    }

    fn lost(&mut self) -> Result<(), ServerFault> {
        self.added.clear();
        self.forget_waiting();
        Ok(self.relay.lost()?)
    }

    fn record(&mut self, record: &[u8], stood: Revision) -> Result<(), ServerFault> {
        self.reads.clear();
        Ok(self.relay.record(record, stood.0)?)
    }

    fn take(&mut self, request: &ServerRequest<'_>) -> Result<Decision, ServerFault> {
        let by = (request.client, request.number);
        Ok(match self.relay.take(request)? {
            sys::Decision::Replied(_) => {
                let answer = self.state.answer_to(by.0, by.1);
                Decision::Replied(MapReply::Text(answer.ok_or(Code::BAD_LOG)?))
            }
            sys::Decision::Waits => {
                if OpaqueRequest::is_read(request.request) {
                    self.reads.insert(by, request.request.to_vec());
                }
                Decision::Waits
            }
            sys::Decision::Forwards(server, hops) => Decision::Forwards(server, hops),
            sys::Decision::Passed => Decision::Passed,
            sys::Decision::Forgotten => Decision::Forgotten,
            sys::Decision::Refused(code) => refusal(code)?,
        })
    }

    fn flush(&mut self) -> Result<bool, ServerFault> {
        Ok(self.relay.flush()?)
    }

    fn sending(&mut self) -> Result<ServerTransaction, ServerFault> {
        let sent = transaction_of(self.relay.sending()?);
        self.sent = match sent.number {
            0 => Vec::new(),
            _ => BatchItem::all_of(&sent.batch)?,
        };
        Ok(sent)
    }

    fn made(&mut self, revision: Revision) -> Result<Vec<ClientReply>, ServerFault> {
        let (made, read) = self.relay.made(revision.0)?;
        let sent = std::mem::take(&mut self.sent);
        if sent.len() != made.len() {
            return Err(Code::BAD_LOG.into());
        }
        // Reads see the state before the writes that were sent with them.
        let mut replies = Vec::with_capacity(made.len() + read.len());
        for it in read {
            replies.push(self.read_answer(it)?);
        }
        for (item, it) in sent.into_iter().zip(made) {
            replies.push(self.made_answer(item, it)?);
        }
        Ok(replies)
    }

    fn base(&mut self) -> Result<Option<Base>, ServerFault> {
        // If the machine can't write itself, no base begins.
        let snapshot = self.state.snapshot()?;
        let base = self.relay.base()?;
        Ok(base.map(|sys::Base { number, parts }| Base {
            number,
            parts,
            snapshot: Some(snapshot),
        }))
    }

    fn parts_made(&mut self) -> Result<(), ServerFault> {
        Ok(self.relay.parts_made()?)
    }

    fn is_behind(&mut self, passing: Passing) -> Result<bool, ServerFault> {
        Ok(self.relay.is_behind(passing)?)
    }

    fn clients(&mut self) -> Result<usize, ServerFault> {
        Ok(self.relay.clients()?)
    }

    fn count(&mut self) -> Result<u64, ServerFault> {
        Ok(0)
    }

    fn scan(
        &mut self,
        _low: &[u8],
        _high: Option<&[u8]>,
        _most: usize,
    ) -> Result<Vec<Key>, ServerFault> {
        Ok(Vec::new())
    }
}

fn reply_to(asked: PlaceAnswer, answer: Vec<u8>) -> ClientReply {
    ClientReply {
        client: asked.client,
        number: asked.number,
        reply: MapReply::Text(answer),
    }
}
