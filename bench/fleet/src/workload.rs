use durkenzo_fleet::{CallError, Retry, Router};
use std::io::{BufReader, Read, Write};
use std::net::TcpStream;
use std::sync::Arc;
use std::time::Duration;

/// How long a call to a fleet is tried, and how long a client waits for bytes of a bare server.
const PATIENCE: Duration = Duration::from_secs(30);
/// How far apart the pages of two calls in a row of a client are. The client with the next number is one step ahead, so
/// it calls the same pages a call earlier.
const STEP: u64 = 7_919;

/// The work that a client does over and over.
pub(crate) trait Workload: Send {
    /// Makes the call of this number.
    fn call(&mut self, number: u64) -> Result<(), CallError>;
}

/// A client of a fleet that serves pages.
pub(crate) struct Calls {
    router: Arc<Router>,
    keys: Vec<Vec<u8>>,
    name: u64,
}

impl Calls {
    pub(crate) fn new(router: Arc<Router>, name: u64) -> Calls {
        let keys = Calls::keys_of_shards(&router);
        Calls { router, keys, name }
    }

    /// Returns a key of each shard.
    pub(crate) fn keys_of_shards(router: &Router) -> Vec<Vec<u8>> {
        let shards = 0..router.sharding().shards();
        shards.map(|it| Calls::key_of_shard(router, it)).collect()
    }

    /// Returns a key of this shard.
    pub(crate) fn key_of_shard(router: &Router, shard: u16) -> Vec<u8> {
        let keys = (0_u64..).map(|it| it.to_be_bytes().to_vec());
        let mut of_shard = keys.filter(|it| router.sharding().shard_of(it) == shard);
        of_shard.next().unwrap_or_default()
    }
}

impl Workload for Calls {
    fn call(&mut self, number: u64) -> Result<(), CallError> {
        let key = &self.keys[(self.name + number) as usize % self.keys.len()];
        let page = (self.name + number) * STEP % (1 << 18);
        let answer = self
            .router
            .call(key, &page.to_be_bytes(), Retry::Until(PATIENCE));
        answer.map(drop)
    }
}

/// A client of bare servers, which calls each of them in turn.
pub(crate) struct Frames {
    streams: Vec<BufReader<TcpStream>>,
    room: Vec<u8>,
    name: u64,
}

impl Frames {
    /// Connects to the servers at these addresses, which must have commas between them.
    pub(crate) fn connect(addresses: &str, name: u64) -> std::io::Result<Frames> {
        let streams = addresses.split(',').map(connect);
        Ok(Frames {
            streams: streams.collect::<Result<_, _>>()?,
            room: Vec::new(),
            name,
        })
    }
}

fn connect(address: &str) -> std::io::Result<BufReader<TcpStream>> {
    let stream = TcpStream::connect(address)?;
    stream.set_nodelay(true)?;
    stream.set_read_timeout(Some(PATIENCE))?;
    Ok(BufReader::new(stream))
}

impl Workload for Frames {
    fn call(&mut self, number: u64) -> Result<(), CallError> {
        let page = (self.name + number) * STEP;
        let mut frame = [0; 12];
        frame[3] = 8;
        frame[4..].copy_from_slice(&page.to_be_bytes());
        let mut length = [0; 4];
        let turn = (self.name + number) as usize % self.streams.len();
        let stream = &mut self.streams[turn];
        let answered = stream.get_mut().write_all(&frame);
        let answered = answered.and_then(|()| stream.read_exact(&mut length));
        self.room.resize(u32::from_be_bytes(length) as usize, 0);
        let answered = answered.and_then(|()| stream.read_exact(&mut self.room));
        answered.map_err(|error| CallError::Unsure(error.to_string()))
    }
}
