use crate::calls;
use crate::server_calls::Places;
use crate::{Code, ShardServer};

pub use crate::calls::PlaceAnswer;

/// The proved server of one shard of a caller's own service. Requests are that service's bytes. If the first byte of a
/// request is 1, it only reads. The reply to a request is its place among the shard's requests. The caller applies each
/// request to its own state, in the order of places.
///
/// ```
/// use durkenzo_store_sys::{Decision, Limits, Relay, ServerRequest};
///
/// let mut relay = Relay::new(1, 0, 1, Limits::default())?;
/// // A record that server 1 owns, and the head of a log that was never written.
/// let record = [&[1][..], &(1u64 << 61 | 1 << 48 | 1).to_be_bytes(), &[0; 8]].concat();
/// let head = [&[1][..], &[0; 24]].concat();
/// relay.read((&record, 1), (&head, 0))?;
/// let request = b"\x02deposit 7";
/// let asked = ServerRequest { client: 7, number: 1, request, ..Default::default() };
/// assert_eq!(relay.take(&asked)?, Decision::Waits);
/// assert!(relay.flush()?);
/// let (made, _) = relay.made(2)?;
/// assert_eq!((made[0].client, made[0].place), (7, 0));
/// assert_eq!(relay.take(&asked)?, Decision::Replied(0));
/// # Ok::<(), durkenzo_store_sys::Code>(())
/// ```
pub type Relay = ShardServer<Places>;

// SAFETY, of all calls below: only this value uses the handle, and only the call uses the memory that it writes.
impl Relay {
    /// Tells the server that its transaction was made, at this revision. Returns the places of requests, and for each
    /// read how many requests were made before it.
    pub fn made(&mut self, revision: u64) -> Result<(Vec<PlaceAnswer>, Vec<PlaceAnswer>), Code> {
        let (made, read) = self.made_counts(revision)?;
        let told = (0..made)
            .map(|at| self.answer(at))
            .collect::<Result<_, _>>()?;
        let reads = (0..read)
            .map(|at| self.read_answer(at))
            .collect::<Result<_, _>>()?;
        Ok((told, reads))
    }

    fn answer(&mut self, at: usize) -> Result<PlaceAnswer, Code> {
        let mut answer = PlaceAnswer::default();
        Code::judged(unsafe { calls::durkenzo_relay_answer(&mut self.handle, at, &mut answer) })?;
        Ok(answer)
    }

    fn read_answer(&mut self, at: usize) -> Result<PlaceAnswer, Code> {
        let (handle, mut answer) = (&mut self.handle, PlaceAnswer::default());
        Code::judged(unsafe { calls::durkenzo_relay_read_answer(handle, at, &mut answer) })?;
        Ok(answer)
    }

    /// Returns how many requests were made, which is the place of the next one. If the shard wasn't read yet, that is
    /// 0.
    pub fn count(&mut self) -> Result<u64, Code> {
        let mut count = 0;
        Code::judged(unsafe { calls::durkenzo_relay_count(&mut self.handle, &mut count) })?;
        Ok(count)
    }
}
