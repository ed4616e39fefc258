//! The library's board of the sample service, whose server 1 owns all shards, with 16 keys of 16 bytes each and texts
//! of 32: the requests of bench/serve, which come in the same order.
use crate::count_store::SHARDS;
use durkenzo::{
    Layout, Mode, Reply, Request, Sent, Served, ServerId, Service, ServicePass, ShardId, Value,
};

const KEYS: u8 = 16;
const FIRST_STATE: u64 = 88_172_645_463_325_252;

/// Whether who asks knows the request's shard, or has it found by the key.
#[derive(Clone, Copy)]
pub enum Asks {
    AtShard,
    ByKey,
}

/// A client's pass, and a server's.
pub struct ServiceWorker {
    client: ServicePass,
    server: ServicePass,
}

impl ServiceWorker {
    pub fn new() -> ServiceWorker {
        let bound = |shard: u16| match shard {
            0 => Vec::new(),
            _ => shard.to_be_bytes().to_vec(),
        };
        let layout = Layout::new((0..SHARDS as u16).map(bound)).expect("rising bounds");
        let service = Service::builder(layout).build().expect("memory");
        let owner = ServerId::new(1).expect("a server");
        let pass = || service.pass(owner).expect("memory");
        let mut site = ServiceWorker {
            client: pass(),
            server: pass(),
        };
        for shard in ShardId::all(SHARDS) {
            service.control().assign(shard, owner).expect("a vacant shard");
            for key in 0..KEYS {
                site.put(Asks::ByKey, shard.get(), key, key);
            }
        }
        site
    }

    /// Gets a key of a shard, or puts a text, so often, and sums what the replies tell.
    pub fn run(&mut self, asks: Asks, is_put: bool, times: u64) -> u64 {
        let (mut state, mut told) = (FIRST_STATE, 0u64);
        for _ in 0..times {
            state ^= state << 13;
            state ^= state >> 7;
            state ^= state << 17;
            let (shard, key) = ((state >> 40 & 4095) as u16, (state >> 24 & 15) as u8);
            told = told.wrapping_add(match is_put {
                true => self.put(asks, shard, key, (state >> 16 & 255) as u8),
                false => self.asked(asks, shard, &Request::Get(&key_of(shard, key))),
            });
        }
        told
    }

    fn put(&mut self, asks: Asks, shard: u16, key: u8, text: u8) -> u64 {
        let request = Request::Put(&key_of(shard, key), &[text; 32]);
        self.asked(asks, shard, &request)
    }

    /// What the reply tells: the first byte of a text and 1, or 1 where a text was put.
    fn asked(&mut self, asks: Asks, shard: u16, request: &Request<'_>) -> u64 {
        let sent = || Sent {
            number: 0,
            shard: ShardId::new(shard).expect("a shard"),
            mode: Mode::Direct,
            hops: 0,
        };
        let envelope = match asks {
            Asks::AtShard => self.client.received(&sent(), request),
            Asks::ByKey => self.client.envelope(0, request),
        };
        let envelope = envelope.expect("memory");
        let Ok(Served::Answered(answer)) = self.server.serve(envelope) else {
            unreachable!("the owner of all shards executes")
        };
        match answer.reply() {
            Reply::Value(Value::Text(text)) => u64::from(text[0]) + 1,
            Reply::Done => 1,
            _ => 0,
        }
    }
}

fn key_of(shard: u16, key: u8) -> [u8; 16] {
    let mut bytes = [0; 16];
    bytes[..2].copy_from_slice(&shard.to_be_bytes());
    bytes[15] = key;
    bytes
}
