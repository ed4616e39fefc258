use sm_desk::Command;
use sm_ownership::change::Change;
use sm_ranges::key::{Key, KeyFault};
use sm_ranges::server_id::ServerId;
use sm_ranges::shard_id::ShardId;
use sm_service::request::Request;
use sm_table::Step;
use std::alloc::Global;

// A step, in which a request is told by the byte of its key.
#[derive(Clone, Copy, Drop)]
pub enum Act {
    Change(ShardId, Change),
    Restart(Command),
    Look(ShardId),
    Send(ServerId, u64, u8),
    Deliver(usize),
    Finish(ShardId),
    Lose(usize),
    Hold(ShardId, ServerId),
    Free(ShardId),
    Checkpoint(ShardId, ServerId),
    Publish(ShardId),
    RouteOf(u8),
}

impl Act {
    pub fn step(&self, alloc: Global) -> Result<Step<Request>, KeyFault> {
        let step = match self {
            Act::Change(k, change) => Step::Control(Command::Change(*k, *change)),
            Act::Restart(command) => Step::Control(*command),
            Act::Look(k) => Step::Look(*k),
            Act::Send(to, number, key) => {
                let key = Key::new(alloc, &[*key])?;
                Step::Send(*to, *number, Request::Inc(key, 1))
            }
            Act::Deliver(place) => Step::Deliver(*place),
            Act::Finish(k) => Step::Finish(*k),
            Act::Lose(place) => Step::Lose(*place),
            Act::Hold(k, server) => Step::Hold(*k, *server),
            Act::Free(k) => Step::Free(*k),
            Act::Checkpoint(k, server) => Step::Checkpoint(*k, *server),
            Act::Publish(k) => Step::Publish(*k),
            Act::RouteOf(key) => Step::RouteOf(Key::new(alloc, &[*key])?),
        };
        Ok(step)
    }
}
