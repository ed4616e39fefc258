//! The library's board, of which server 1 owns all shards. Each thread has a pass of that server.
use crate::count_store::{CountStore, CountWorker, SHARDS};
use durkenzo::{AdmitFault, Board, Mode, Pass, ServerId, ShardId};

pub struct Owned(Board<u64>);

fn server(number: u16) -> ServerId {
    ServerId::new(number).expect("a server's number")
}

fn shard_at(place: usize) -> ShardId {
    ShardId::new(place as u16).expect("a board has few shards")
}

impl Owned {
    /// A pass of a server that owns nothing.
    pub fn stranger(&self) -> Pass<u64> {
        self.0.pass(server(2)).expect("memory")
    }
}

impl CountStore for Owned {
    type Worker<'a> = Pass<u64>;

    fn new() -> Owned {
        let board = Board::builder()
            .servers(2)
            .build(vec![0; SHARDS])
            .expect("memory");
        for shard in board.shards() {
            board.control().assign(shard, server(1)).expect("a vacant shard");
        }
        Owned(board)
    }

    fn worker(&self) -> Pass<u64> {
        self.0.pass(server(1)).expect("memory")
    }
}

impl CountWorker for Pass<u64> {
    fn look(&mut self, shard: usize) -> u64 {
        Pass::look(self, shard_at(shard)).expect("a shard").generation
    }

    fn count(&mut self, shard: usize) -> u64 {
        let counted = self.with(shard_at(shard), Mode::Direct, |count| {
            **count += 1;
            **count
        });
        counted.expect("the owner is admitted")
    }
}

/// The generation by which the pass, of a server that doesn't own the shard, is refused there.
pub fn refused(pass: &mut Pass<u64>, shard: usize) -> u64 {
    match pass.admit(shard_at(shard), Mode::Direct) {
        Err(AdmitFault::NotExecutor(read)) => read.generation,
        _ => 0,
    }
}
