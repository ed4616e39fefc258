use super::ServerRequest;
use crate::decision::{Base, ClientReply, Decision, Passing, ServerTransaction};
use crate::{Key, ServerFault};
use durkenzo_store::Revision;

/// A proved server of one shard, with the state that its service keeps beside it. Rounds drive servers of any service
/// by these calls.
pub(crate) trait ProvedServer: Send {
    /// Adds the next part of the base that was read.
    fn add_part(&mut self, bytes: &[u8]) -> Result<(), ServerFault>;

    /// Adds the next part of the snapshot that was read with the base. Only a service with snapshots gets some.
    fn add_snapshot(&mut self, bytes: &[u8]) -> Result<(), ServerFault>;

    /// Adds the next batch that was read.
    fn add_batch(&mut self, bytes: &[u8]) -> Result<(), ServerFault>;

    /// Notes that the shard was read: its record and the head of its log, each with its revision.
    fn read(
        &mut self,
        record: (&[u8], Revision),
        head: (&[u8], Revision),
    ) -> Result<(), ServerFault>;

    /// Notes that the shard was read from the server's position on: its record and the head of its log, each with its
    /// revision, and the batches that were added. Requests that were sent or wait here must be given again.
    fn append(
        &mut self,
        record: (&[u8], Revision),
        head: (&[u8], Revision),
    ) -> Result<(), ServerFault>;

    /// Returns how many batches the server has made.
    fn batch_count(&mut self) -> Result<u64, ServerFault>;

    /// Notes that the transaction on its way wasn't made, or isn't known to be made. The server decides nothing until
    /// it has appended the batches that it hasn't read. Requests that it held must be given again.
    fn lost(&mut self) -> Result<(), ServerFault>;

    /// Notes that the record was seen. Requests that wait here must be given again.
    fn record(&mut self, record: &[u8], stood: Revision) -> Result<(), ServerFault>;

    /// Decides about a request.
    fn take(&mut self, request: &ServerRequest<'_>) -> Result<Decision, ServerFault>;

    /// Makes the waiting requests ready to be sent. Returns whether there is something to send now.
    fn flush(&mut self) -> Result<bool, ServerFault>;

    /// Returns the transaction to send.
    fn sending(&mut self) -> Result<ServerTransaction, ServerFault>;

    /// Notes that the transaction was made at this revision. Returns the answers to requests, and to reads.
    fn made(&mut self, revision: Revision) -> Result<Vec<ClientReply>, ServerFault>;

    /// Begins a base, whose parts must be written now. Returns nothing if none begins.
    fn base(&mut self) -> Result<Option<Base>, ServerFault>;

    /// Notes that each part of the base was written.
    fn parts_made(&mut self) -> Result<(), ServerFault>;

    /// Returns whether the base that the head names has replaced this batch, or this part of another base.
    fn is_behind(&mut self, passing: Passing) -> Result<bool, ServerFault>;

    /// Returns how many clients' last requests are kept.
    fn clients(&mut self) -> Result<usize, ServerFault>;

    /// Returns how many keys there are after all requests that were made: 0 if the service has no keys.
    fn count(&mut self) -> Result<u64, ServerFault>;

    /// Returns the first of the keys from `low` on and below `high`, or up to the last one if there is no `high`; at
    /// most so many. If the service has no keys, there are none.
    fn scan(
        &mut self,
        low: &[u8],
        high: Option<&[u8]>,
        most: usize,
    ) -> Result<Vec<Key>, ServerFault>;
}

/// A server of whichever service the shard has.
pub(crate) type Core = Box<dyn ProvedServer>;
