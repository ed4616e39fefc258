use crate::{RespClient, RespReply};
use std::io;
use std::time::{Duration, Instant};

/// Moves shards and restarts servers while clients call.
pub struct Mover {
    client: RespClient,
    servers: u64,
    shards: u64,
    /// How many shards it moved.
    pub moved: u64,
    /// How many servers it restarted.
    pub restarted: u64,
}

impl Mover {
    /// Returns a mover for a server process with this many servers and shards in it.
    ///
    /// # Errors
    ///
    /// If nobody listens there.
    pub fn connect(address: &str, servers: u64, shards: u64) -> io::Result<Mover> {
        let client = RespClient::connect(address, Duration::from_secs(120))?;
        Ok(Mover {
            client,
            servers,
            shards,
            moved: 0,
            restarted: 0,
        })
    }

    /// Moves each shard to each server in turn until this moment, and restarts a server after each `restart_every`
    /// moves.
    pub fn work(&mut self, restart_every: u64, end: Instant) {
        for turn in 0u64.. {
            if Instant::now() >= end {
                return;
            }
            let shard = (turn % self.shards).to_string();
            let to = (1 + (turn + turn / self.shards) % self.servers).to_string();
            self.moved += u64::from(self.is_done(&["SM", "MIGRATE", &shard, &to]));
            if restart_every > 0 && turn % restart_every == restart_every - 1 {
                let server = (1 + turn / restart_every % self.servers).to_string();
                self.restarted += u64::from(self.is_done(&["SM", "RESTART", &server]));
            }
        }
    }

    fn is_done(&mut self, words: &[&str]) -> bool {
        matches!(self.client.call(words), Ok(reply) if !matches!(reply, RespReply::Error(_)))
    }
}
