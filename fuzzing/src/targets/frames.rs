use crate::chance::Chance;
use crate::mutator;
use crate::target::{holds, Target};
use durkenzo_control::links::{Frame, RequestBatch};
use durkenzo_server::cluster::Cluster;
use durkenzo_server::command::step_of_spelled;
use durkenzo_server::configuration::Configuration;
use durkenzo_server::io::ReplyAddress;
use durkenzo_server::keyspace::{Keyspace, Rule};
use durkenzo_server::works::WireReason;
use std::sync::Arc;

/// How many bytes come before those that the length of a frame counts.
const LENGTH: usize = 4;

/// The messages between processes behind their greeting: frames one after another, and the works in them.
pub struct Frames {
    place: Option<(Keyspace, Arc<Cluster>)>,
}

impl Target for Frames {
    fn check(&mut self, input: &[u8]) -> Result<(), String> {
        let mut rest = input;
        while let Ok(Some((number, frame, end))) = Frame::<WireReason>::read(rest) {
            holds(LENGTH < end && end <= rest.len(), || {
                format!("a frame ends at {end}")
            })?;
            let mut spelled = Vec::new();
            frame.write(number, &mut spelled);
            holds(spelled == rest[..end], || {
                format!("spelled anew it has other bytes: {frame:?}")
            })?;
            let short = Frame::<WireReason>::read(&rest[..end - 1]);
            holds(short == Ok(None), || {
                format!("without its last byte it is {short:?}")
            })?;
            if let Frame::Requests(batch) = frame {
                let fits = RequestBatch::fits(batch.requests.iter().map(|it| it.len()));
                holds(fits, || "it is greater than it may be".to_owned())?;
                let mut each = batch.requests.iter();
                each.try_for_each(|it| self.work(it, batch.shard))?;
            }
            rest = &rest[end..];
        }
        Ok(())
    }

    fn words(&self) -> &[&'static [u8]] {
        &[
            b"\x02k*2\r\n$3\r\nGET\r\n$1\r\na\r\n",
            b"\x03k*3\r\n$3\r\nSET\r\n$1\r\na\r\n$1\r\nb\r\n",
            b"\x02n\0\0\0\0\0\0\0\x05\0\0\0\0\0\0\0\x09*2\r\n$4\r\nINCR\r\n$1\r\na\r\n",
            b"\x02t*1\r\n$4\r\nPING\r\n*2\r\n$4\r\nINCR\r\n$1\r\nz\r\n",
            b"\0\0\0\x15",
            b"\0\0\x04\0",
        ]
    }

    fn seeds(&mut self) -> Vec<Vec<u8>> {
        let moved = [&[0, 3, 9][..], &7u64.to_be_bytes()].concat();
        let mut seeds = vec![
            framed(3, b"*2\r\n$2\r\nSM\r\n$5\r\nPLACE\r\n"),
            framed(2, &moved),
            framed(2, b"\0\0\0$1\r\na\r\n"),
            framed(2, b"\0\x01\x06no room"),
            [framed(2, &[0, 1, 1]), framed(2, &[0, 2, 3, 0, 1])].concat(),
        ];
        seeds.extend(self.words()[..4].iter().map(|it| works(&[it])));
        seeds.push(works(&self.words()[..4]));
        seeds
    }

    /// Spoils the input, and then mostly mends its length, because otherwise all inputs would fail there.
    fn spoil(&self, input: &mut Vec<u8>, other: &[u8], chance: &mut Chance) {
        mutator::spoil(input, other, self.words(), chance);
        if chance.below(4) > 0 {
            let length = input.len().saturating_sub(LENGTH) as u32;
            if let Some(first) = input.first_chunk_mut() {
                *first = length.to_be_bytes();
            }
        }
    }
}

impl Frames {
    /// Returns the target, for two shards.
    pub fn new() -> Frames {
        let rule = Rule::Bounds(vec![Vec::new(), b"m".to_vec()]);
        let keyspace = Keyspace::new(&rule).ok();
        let cluster = Cluster::in_memory(Configuration::new(rule)).ok();
        Frames {
            place: keyspace.zip(cluster.map(Arc::new)),
        }
    }

    /// If a work is read and written anew, it must be read again as the same.
    fn work(&self, bytes: &[u8], shard: u16) -> Result<(), String> {
        let Some((keyspace, cluster)) = &self.place else {
            return Err("there is no cluster".to_owned());
        };
        let spelled = |bytes: &[u8]| {
            let reply_to = ReplyAddress::process(|_| {});
            let step = step_of_spelled(bytes, shard, keyspace, cluster, reply_to);
            step.map(|it| it.work.spell())
        };
        let Some(once) = spelled(bytes) else {
            return Ok(());
        };
        let twice = spelled(&once);
        holds(twice.as_ref() == Some(&once), || {
            format!("spelled anew it is {twice:?}, not {once:?}")
        })
    }
}

/// Returns a frame of this kind.
fn framed(kind: u8, rest: &[u8]) -> Vec<u8> {
    let length = (9 + rest.len()) as u32;
    [
        &length.to_be_bytes()[..],
        &1u64.to_be_bytes(),
        &[kind],
        rest,
    ]
    .concat()
}

/// Returns a frame of these works for shard 0, which a client gave to the sender.
fn works(works: &[&[u8]]) -> Vec<u8> {
    let mut rest = vec![0; 2 + 2 + 2 + 1 + 8 + 4];
    rest.extend((works.len() as u16).to_be_bytes());
    for work in works {
        rest.extend((work.len() as u32).to_be_bytes());
        rest.extend_from_slice(work);
    }
    framed(1, &rest)
}
