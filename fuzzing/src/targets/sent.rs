use crate::target::{holds, Target};
use durkenzo::{word, Layout, Request, Sent, ServerId, Service, ServicePass, ShardId};

/// An envelope's plain fields and a request's key, as a process sends them to another, and the word of a record.
pub struct SentBytes {
    pass: Option<ServicePass>,
}

impl Target for SentBytes {
    fn check(&mut self, input: &[u8]) -> Result<(), String> {
        if let Some(Ok(bytes)) = input.get(..8).map(<[u8; 8]>::try_from) {
            of_word(u64::from_be_bytes(bytes))?;
        }
        let (bytes, key) = input.split_at(input.len().min(Sent::BYTES));
        let Ok(sent) = Sent::from_bytes(bytes) else {
            return Ok(());
        };
        holds(sent.to_bytes() == bytes, || {
            format!("{sent:?} has other bytes")
        })?;
        match &mut self.pass {
            Some(pass) => received(pass, sent, key),
            None => Err("there is no service".to_owned()),
        }
    }

    fn seeds(&mut self) -> Vec<Vec<u8>> {
        let forwarded = (1u64 << 61 | 1 << 48 | 3).to_be_bytes();
        vec![
            [&7u64.to_be_bytes()[..], &[0, 1, 0, 0, 0], b"key"].concat(),
            [&forwarded[..], &[0, 0, 0, 2, 1], b"key"].concat(),
        ]
    }
}

impl SentBytes {
    /// Returns the target, over a service whose shards server 1 owns.
    pub fn new() -> SentBytes {
        let pass = Layout::new(["", "g", "n"]).ok().and_then(|layout| {
            let service = Service::builder(layout).servers(2).build().ok()?;
            let server = ServerId::new(1).ok()?;
            for shard in ShardId::all(3) {
                service.control().assign(shard, server).ok()?;
            }
            service.pass(server).ok()
        });
        SentBytes { pass }
    }
}

/// If a record has a word, its word is that word again.
fn of_word(word: u64) -> Result<(), String> {
    let Some(record) = word::record(word) else {
        return Ok(());
    };
    let again = word::of(&record);
    holds(again == Some(word), || {
        format!("{record:?} has {again:?}, not {word}")
    })
}

/// If a pass of a service takes it, the envelope must have the same fields, and is served or given back.
fn received(pass: &mut ServicePass, sent: Sent, key: &[u8]) -> Result<(), String> {
    let Ok(mut envelope) = pass.received(&sent, &Request::Get(key)) else {
        return Ok(());
    };
    let found = envelope.sent();
    holds(found == sent, || format!("{sent:?} came as {found:?}"))?;
    // Any answer will do.
    let _ = pass.serve(envelope);
    Ok(())
}
