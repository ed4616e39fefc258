//! Texts of the library's sample service. A worker has a pass of each server, and one more to make envelopes.
use crate::keys::{bound_of, key_of};
use crate::shard_store::{server, shard_at, KeyRequest, ShardStore, ShardWorker};
use crate::sizes::Sizes;
use durkenzo::{
    Envelope, Layout, Reply, Request, Served, ServerId, Service, ServicePass, ShardId, Value,
};
use std::thread;

pub struct ServiceTexts {
    service: Service,
    text: Vec<u8>,
}

pub struct Asker<'a> {
    client: ServicePass,
    servers: [ServicePass; 2],
    owners: Vec<ServerId>,
    text: &'a [u8],
}

impl ServiceTexts {
    pub fn new(sizes: &Sizes) -> ServiceTexts {
        let layout = Layout::new((0..sizes.shards).map(bound_of)).expect("rising bounds");
        let service = Service::builder(layout).servers(2).build().expect("memory");
        for shard in ShardId::all(sizes.shards) {
            let first = service.control().assign(shard, server(1));
            first.expect("a vacant shard");
        }
        ServiceTexts {
            service,
            text: vec![7; sizes.text],
        }
    }
}

impl ShardStore for ServiceTexts {
    type Worker<'a> = Asker<'a>;

    fn worker(&self) -> Asker<'_> {
        let pass = |number| self.service.pass(server(number)).expect("memory");
        Asker {
            client: pass(1),
            servers: [1, 2].map(pass),
            owners: vec![server(1); self.service.layout().count()],
            text: &self.text,
        }
    }

    fn migrate(&self, shard: usize, to: u16) {
        self.service
            .control()
            .migrate(shard_at(shard), server(to))
            .expect("a server that is up");
    }
}

impl Asker<'_> {
    fn envelope(&mut self, key: &[u8], is_write: bool) -> Envelope {
        let request = match is_write {
            true => Request::Put(key, self.text),
            false => Request::Get(key),
        };
        self.client.envelope(0, &request).expect("memory")
    }
}

impl ShardWorker for Asker<'_> {
    fn request(&mut self, asked: KeyRequest) -> u64 {
        let key = key_of(asked.shard, asked.key);
        let (mut envelope, mut at) = (
            self.envelope(&key, asked.is_write),
            self.owners[asked.shard],
        );
        loop {
            let pass = &mut self.servers[at.index()];
            match pass.serve(envelope) {
                Ok(Served::Answered(answer)) => {
                    return match answer.reply() {
                        Reply::Value(Value::Text(text)) => text.len() as u64,
                        Reply::Done => 1,
                        other => panic!("the reply is {other:?}"),
                    }
                }
                Ok(Served::Forward(to, back)) => (envelope, at) = (back, to),
                Err(refused) if refused.fault.is_transient() => {
                    thread::yield_now();
                    envelope = refused.envelope;
                }
                // If an envelope was forwarded to a server that doesn't own the shard any more, the request is sent
                // anew.
                Err(_) => {
                    let read = pass.look(shard_at(asked.shard)).expect("a shard");
                    at = server(read.owner().expect("an owner"));
                    self.owners[asked.shard] = at;
                    envelope = self.envelope(&key, asked.is_write);
                }
            }
        }
    }
}
