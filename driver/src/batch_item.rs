use durkenzo_store_sys::Code;

/// A request in a batch of a log.
#[derive(Clone, Debug, PartialEq, Eq)]
pub(crate) struct BatchItem {
    pub(crate) client: u64,
    pub(crate) number: u64,
    /// The number below which clients are forgotten once the request is made.
    pub(crate) forgets: u64,
    pub(crate) request: Vec<u8>,
}

/// The version of a batch's bytes.
const VERSION: u8 = 1;
/// How many bytes the server of a request, its hops, and the server of a batch have.
const FROM: usize = 4;
const HOPS: usize = 1;
const SERVER: usize = 4;

/// Bytes of which some are read.
struct Unread<'a>(&'a [u8]);

impl<'a> Unread<'a> {
    fn take(&mut self, count: usize) -> Option<&'a [u8]> {
        let (taken, rest) = self.0.split_at_checked(count)?;
        self.0 = rest;
        Some(taken)
    }

    fn long(&mut self) -> Option<u64> {
        Some(u64::from_be_bytes(self.take(8)?.try_into().ok()?))
    }

    fn length(&mut self) -> Option<usize> {
        let length = u32::from_be_bytes(self.take(4)?.try_into().ok()?);
        Some(length as usize)
    }

    fn item(&mut self) -> Option<BatchItem> {
        let (client, number) = (self.long()?, self.long()?);
        self.take(FROM + HOPS)?;
        let (forgets, length) = (self.long()?, self.length()?);
        Some(BatchItem {
            client,
            number,
            forgets,
            request: self.take(length)?.to_vec(),
        })
    }
}

impl BatchItem {
    /// Reads the requests of a batch, in their order.
    ///
    /// # Errors
    ///
    /// [`Code::BAD_BYTES`] if the bytes are no batch.
    pub(crate) fn all_of(bytes: &[u8]) -> Result<Vec<BatchItem>, Code> {
        BatchItem::read(bytes).ok_or(Code::BAD_BYTES)
    }

    fn read(bytes: &[u8]) -> Option<Vec<BatchItem>> {
        let mut unread = Unread(bytes);
        if unread.take(1)? != [VERSION] {
            return None;
        }
        unread.take(SERVER)?;
        let count = unread.length()?;
        let items = (0..count).map(|_| unread.item()).collect::<Option<_>>()?;
        unread.0.is_empty().then_some(items)
    }
}

#[cfg(test)]
mod tests {
    use super::*;
    use durkenzo_store_sys::{Limits, Relay, ServerRequest};

    /// Returns the bytes of a batch of these requests, as a proved server writes it.
    fn written(requests: &[ServerRequest<'_>]) -> Vec<u8> {
        let record = [&[1][..], &(1u64 << 61 | 1 << 48 | 1).to_be_bytes(), &[0; 8]].concat();
        let mut relay = Relay::new(1, 0, 1, Limits::default()).unwrap();
        relay.read((&record, 1), (&crate::keys::EMPTY, 0)).unwrap();
        for request in requests {
            relay.take(request).unwrap();
        }
        assert!(relay.flush().unwrap());
        relay.sending().unwrap().batch
    }

    #[test]
    fn a_batch_is_read_as_a_proved_server_writes_it() {
        let asked = |client, forgets, request| ServerRequest {
            client,
            number: 5,
            forgets,
            request,
            ..ServerRequest::default()
        };
        let bytes = written(&[asked(7, 3, b"\x02first"), asked(9, 0, b"")]);
        let item = |client, forgets, request: &[u8]| BatchItem {
            client,
            number: 5,
            forgets,
            request: request.to_vec(),
        };
        let items = vec![item(7, 3, b"\x02first"), item(9, 0, b"")];
        assert_eq!(BatchItem::all_of(&bytes), Ok(items));
        for wrong in [
            &bytes[..bytes.len() - 1],
            &[&bytes[..], b"x"].concat(),
            b"\x02",
        ] {
            assert_eq!(BatchItem::all_of(wrong), Err(Code::BAD_BYTES));
        }
    }
}
