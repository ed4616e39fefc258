use super::pieces;
use crate::chance::Chance;
use crate::target::{holds, Target};
use durkenzo_store_sys::{Code, Decision, Head, Limits, Server, ServerRequest, Told};

const LIMITS: Limits = Limits {
    batch_bytes: 4_096,
    batch_requests: 8,
    waiting: 64,
    clients: 64,
};
/// Keys for which both servers are asked.
const KEYS: [&[u8]; 3] = [b"a", b"b", b"n"];
/// A client that no batch mentions.
const READER: u64 = 1 << 50;
/// The faults that a server may report for bytes that it can't follow.
const FAULTS: [Code; 3] = [Code::BAD_BYTES, Code::BAD_LOG, Code::MISSING];

/// The values at the keys of a shard's log: its record, its head, the parts of its base, and batches.
pub struct Log;

impl Target for Log {
    fn check(&mut self, input: &[u8]) -> Result<(), String> {
        let pieces = pieces::of(input);
        let [record, head, ref rest @ ..] = pieces[..] else {
            return Ok(());
        };
        let named = Head::of(head).unwrap_or_default();
        let count = usize::try_from(named.parts)
            .unwrap_or(usize::MAX)
            .min(rest.len());
        let (parts, batches) = rest.split_at(count);
        match server_of(record, head, parts, batches) {
            Ok(server) => followed(server, record, named),
            Err(code) => holds(FAULTS.contains(&code), || format!("it answers {code:?}")),
        }
    }

    fn seeds(&mut self) -> Vec<Vec<u8>> {
        seeds().unwrap_or_default()
    }

    fn spoil(&self, input: &mut Vec<u8>, other: &[u8], chance: &mut Chance) {
        pieces::spoil(input, other, self.words(), chance);
    }
}

fn server_of(
    record: &[u8],
    head: &[u8],
    parts: &[&[u8]],
    batches: &[&[u8]],
) -> Result<Server, Code> {
    let mut server = Server::new(1, 0, 2, LIMITS)?;
    parts.iter().try_for_each(|it| server.add_part(it))?;
    batches.iter().try_for_each(|it| server.add_batch(it))?;
    server.read((record, 1), (head, 2))?;
    Ok(server)
}

/// If a log can be followed, its base can be followed too, to the same state.
fn followed(mut server: Server, record: &[u8], named: Head) -> Result<(), String> {
    let told = |it: Code| format!("a server that follows it answers {it:?}");
    let Some(base) = server.base().map_err(told)? else {
        return Ok(());
    };
    let numbers = [named.batches, base.number, base.parts.len() as u64].map(u64::to_be_bytes);
    let head = [&[1][..], &numbers.concat()].concat();
    let parts: Vec<&[u8]> = base.parts.iter().map(Vec::as_slice).collect();
    let again = server_of(record, &head, &parts, &[]);
    let mut again = again.map_err(|it| format!("its base can't be followed: {it:?}"))?;
    let (one, other) = (
        read(&mut server).map_err(told)?,
        read(&mut again).map_err(told)?,
    );
    holds(one == other, || {
        format!("it holds {one:?}, and by its base {other:?}")
    })
}

/// Returns the values of the keys, if the server may say them.
fn read(server: &mut Server) -> Result<Vec<Told>, Code> {
    for (client, key) in (READER..).zip(KEYS) {
        let request = [&[1, key.len() as u8], key].concat();
        let request = &request[..];
        let asked = ServerRequest {
            client,
            number: 1,
            request,
            ..ServerRequest::default()
        };
        if server.take(&asked)? != Decision::Waits {
            return Ok(Vec::new());
        }
    }
    server.flush()?;
    Ok(server.made(9)?.1)
}

/// Returns logs of a server that wrote some: of two batches, of only a base, and of a base with a batch behind it.
fn seeds() -> Result<Vec<Vec<u8>>, Code> {
    let word: u64 = 1 << 61 | 1 << 48 | 1;
    let record = [&[1][..], &word.to_be_bytes(), &7u64.to_be_bytes()].concat();
    let mut server = server_of(&record, &[&[1][..], &[0; 24]].concat(), &[], &[])?;
    let first = written(
        &mut server,
        1,
        &[b"\x02\x01avalue", b"\x04\x01n\0\0\0\0\0\0\0\x05"],
    )?;
    let second = written(&mut server, 2, &[b"\x03\x01bmore", b"\x05\x01a"])?;
    let base = server.base()?.ok_or(Code::NO_MORE)?;
    server.parts_made()?;
    server.flush()?;
    let named = server.sending()?;
    server.made(8)?;
    let third = written(&mut server, 3, &[b"\x02\x01bagain"])?;
    let mut whole = vec![record.clone(), named.head.clone()];
    whole.extend(base.parts.clone());
    let mut behind = vec![record.clone(), third.0];
    behind.extend(base.parts);
    behind.push(third.1);
    let logged = [record, second.0, first.1, second.1];
    Ok(vec![
        pieces::spelled(&logged),
        pieces::spelled(&whole),
        pieces::spelled(&behind),
    ])
}

/// Returns the head and the batch of these requests, which are made.
fn written(
    server: &mut Server,
    number: u64,
    requests: &[&[u8]],
) -> Result<(Vec<u8>, Vec<u8>), Code> {
    for (client, request) in (1..).zip(requests) {
        let asked = ServerRequest {
            client,
            number,
            request,
            ..ServerRequest::default()
        };
        server.take(&asked)?;
    }
    server.flush()?;
    let sent = server.sending()?;
    server.made(2 + number)?;
    Ok((sent.head, sent.batch))
}
