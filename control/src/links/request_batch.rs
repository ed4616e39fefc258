use super::fields::put_bytes;
use super::frame::{MAX_FRAME, MAX_REQUEST, MAX_REQUESTS};
use super::{Fields, WireFault};
use durkenzo_driver::Came;
use durkenzo_store::Revision;

/// Requests of one client, in their order, that go to the server that executes their shard.
#[derive(Clone, Debug, PartialEq, Eq)]
pub struct RequestBatch<'a> {
    /// The shard.
    pub shard: u16,
    /// The server that executes it, as the sender believes.
    pub server: u16,
    /// How they get there.
    pub came: Came,
    /// How many milliseconds they have waited.
    pub waited: u32,
    /// The bytes of each, which only hosts read.
    pub requests: Vec<&'a [u8]>,
}

impl<'a> RequestBatch<'a> {
    /// Returns whether requests of these sizes, in bytes, fit into one frame.
    pub fn fits(sizes: impl Iterator<Item = usize> + Clone) -> bool {
        let size: usize = sizes.clone().map(|it| it + 4).sum();
        sizes.clone().count() <= MAX_REQUESTS
            && size <= MAX_FRAME - 64
            && sizes.into_iter().all(|it| it <= MAX_REQUEST)
    }

    /// Writes it into a frame.
    pub(super) fn write(&self, out: &mut Vec<u8>) {
        out.extend(self.shard.to_be_bytes());
        out.extend(self.server.to_be_bytes());
        out.extend(self.came.from.to_be_bytes());
        out.push(self.came.hops);
        out.extend(self.came.revision.0.to_be_bytes());
        out.extend(self.waited.to_be_bytes());
        out.extend((self.requests.len() as u16).to_be_bytes());
        self.requests.iter().for_each(|it| put_bytes(out, it));
    }

    /// Reads it from the rest of a frame.
    pub(super) fn read(mut fields: Fields<'a>) -> Result<RequestBatch<'a>, WireFault> {
        let (shard, server) = (fields.short()?, fields.short()?);
        let came = Came {
            from: fields.short()?,
            hops: fields.byte()?,
            revision: Revision(fields.long()?),
        };
        let (waited, count) = (fields.word()?, usize::from(fields.short()?));
        if count > MAX_REQUESTS {
            return Err(WireFault::TooLong);
        }
        let requests = (0..count).map(|_| fields.bytes(MAX_REQUEST));
        let requests = requests.collect::<Result<_, _>>()?;
        fields.end()?;
        Ok(RequestBatch {
            shard,
            server,
            came,
            waited,
            requests,
        })
    }
}
