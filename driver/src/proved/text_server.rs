use super::{refusal, transaction_of, ProvedServer, ServerRequest, LIMITS};
use crate::decision::{Base, ClientReply, Decision, Passing, ServerTransaction};
use crate::recovery::ServerPlace;
use crate::{Key, MapReply, ServerFault};
use durkenzo_store::Revision;
use durkenzo_store_sys::{self as sys, Server, Told};

/// A proved server of one shard of the sample service.
pub(crate) struct TextServer {
    server: Server,
}

impl TextServer {
    /// Makes a server of the shard. It has read nothing yet.
    pub(crate) fn new(place: ServerPlace) -> Result<TextServer, ServerFault> {
        let ServerPlace {
            server,
            shard,
            count,
        } = place;
        let server = Server::new(server, shard, u64::from(count), LIMITS)?;
        Ok(TextServer { server })
    }
}

impl ProvedServer for TextServer {
    fn add_part(&mut self, bytes: &[u8]) -> Result<(), ServerFault> {
        Ok(self.server.add_part(bytes)?)
    }

    fn add_snapshot(&mut self, _bytes: &[u8]) -> Result<(), ServerFault> {
        Ok(())
    }

    fn add_batch(&mut self, bytes: &[u8]) -> Result<(), ServerFault> {
        Ok(self.server.add_batch(bytes)?)
    }

    fn read(
        &mut self,
        (record, stood): (&[u8], Revision),
        (head, logged): (&[u8], Revision),
    ) -> Result<(), ServerFault> {
        Ok(self.server.read((record, stood.0), (head, logged.0))?)
    }

    fn append(
        &mut self,
        (record, stood): (&[u8], Revision),
        (head, logged): (&[u8], Revision),
    ) -> Result<(), ServerFault> {
        Ok(self.server.append((record, stood.0), (head, logged.0))?)
    }

    fn batch_count(&mut self) -> Result<u64, ServerFault> {
        Ok(self.server.batch_count()?)
    }

    fn lost(&mut self) -> Result<(), ServerFault> {
        Ok(self.server.lost()?)
    }

    fn record(&mut self, record: &[u8], stood: Revision) -> Result<(), ServerFault> {
        Ok(self.server.record(record, stood.0)?)
    }

    fn take(&mut self, request: &ServerRequest<'_>) -> Result<Decision, ServerFault> {
        Ok(match self.server.take(request)? {
            sys::Decision::Replied(reply) => {
                Decision::Replied(MapReply::of(reply.kind, reply.value, &[]))
            }
            sys::Decision::Waits => Decision::Waits,
            sys::Decision::Forwards(server, hops) => Decision::Forwards(server, hops),
            sys::Decision::Passed => Decision::Passed,
            sys::Decision::Forgotten => Decision::Forgotten,
            sys::Decision::Refused(code) => refusal(code)?,
        })
    }

    fn flush(&mut self) -> Result<bool, ServerFault> {
        Ok(self.server.flush()?)
    }

    fn sending(&mut self) -> Result<ServerTransaction, ServerFault> {
        Ok(transaction_of(self.server.sending()?))
    }

    fn made(&mut self, revision: Revision) -> Result<Vec<ClientReply>, ServerFault> {
        let (made, read) = self.server.made(revision.0)?;
        Ok(made.into_iter().chain(read).map(answer).collect())
    }

    fn base(&mut self) -> Result<Option<Base>, ServerFault> {
        Ok(self.server.base()?.map(Base::from))
    }

    fn parts_made(&mut self) -> Result<(), ServerFault> {
        Ok(self.server.parts_made()?)
    }

    fn is_behind(&mut self, passing: Passing) -> Result<bool, ServerFault> {
        Ok(self.server.is_behind(passing)?)
    }

    fn clients(&mut self) -> Result<usize, ServerFault> {
        Ok(self.server.clients()?)
    }

    fn count(&mut self) -> Result<u64, ServerFault> {
        Ok(self.server.count()?)
    }

    fn scan(
        &mut self,
        low: &[u8],
        high: Option<&[u8]>,
        most: usize,
    ) -> Result<Vec<Key>, ServerFault> {
        Ok(self.server.scan(low, high, most)?)
    }
}

fn answer(told: Told) -> ClientReply {
    ClientReply {
        client: told.client,
        number: told.number,
        reply: MapReply::of(told.reply.kind, told.reply.value, &told.text),
    }
}
