//! Counts on the library's board. A worker has a pass of each server. It begins with the server that owned the shard
//! when it last asked.
use crate::shard_store::{server, shard_at, KeyRequest, ShardStore, ShardWorker};
use durkenzo::{Board, Mode, Pass, ServerId};

pub struct Counts(Board<u64>);

pub struct BoardWorker {
    passes: [Pass<u64>; 2],
    owners: Vec<ServerId>,
}

impl Counts {
    pub fn new(shards: usize) -> Counts {
        let board = Board::builder().servers(2).build(vec![0; shards]);
        let board = board.expect("memory");
        for shard in board.shards() {
            let first = board.control().assign(shard, server(1));
            first.expect("a vacant shard");
        }
        Counts(board)
    }
}

impl ShardStore for Counts {
    type Worker<'a> = BoardWorker;

    fn worker(&self) -> BoardWorker {
        BoardWorker {
            passes: [1, 2].map(|it| self.0.pass(server(it)).expect("memory")),
            owners: vec![server(1); self.0.count()],
        }
    }

    fn migrate(&self, shard: usize, to: u16) {
        self.0
            .control()
            .migrate(shard_at(shard), server(to))
            .expect("a server that is up");
    }
}

impl ShardWorker for BoardWorker {
    fn request(&mut self, asked: KeyRequest) -> u64 {
        let shard = shard_at(asked.shard);
        let (mut at, mut mode) = (self.owners[asked.shard], Mode::Direct);
        loop {
            let fault = match self.passes[at.index()].with(shard, mode, |count| {
                **count += 1;
                **count
            }) {
                Ok(count) => return count,
                Err(fault) => fault,
            };
            (at, mode) = match fault.forward(at) {
                Some(next) => (next, Mode::Forwarded(at)),
                None => (fault.owner().expect("an owner"), Mode::Direct),
            };
            self.owners[asked.shard] = at;
        }
    }
}
