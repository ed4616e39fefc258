use super::Opened;
use crate::board_fault::BoardFault;
use crate::body::{new_shard, BoxedBody};
use crate::configuration::Configuration;
use crate::dump::{restore, DumpFault, ShardHead};
use crate::settings;
use durkenzo::Board;
use std::fmt;
use std::sync::atomic::{AtomicU64, Ordering};
use std::sync::{PoisonError, RwLock};

/// Data in the memory of this process: the board with the body of each shard, and some numbers about them.
pub struct InMemory {
    /// The line of settings from which boards are opened.
    line: String,
    board: RwLock<Board<BoxedBody>>,
    version: AtomicU64,
    /// How many keys each shard has.
    keys: Box<[AtomicU64]>,
    /// The generations of the shards when their board was opened.
    bases: Box<[AtomicU64]>,
}

impl InMemory {
    /// Opens a board of shards that are empty and have no owners yet.
    ///
    /// # Errors
    ///
    /// `NoMemory`, or the rule that the settings break.
    pub fn new(configuration: &Configuration) -> Result<InMemory, BoardFault> {
        let shards = configuration.rule.shards();
        let bodies = (0..shards).map(|_| new_shard());
        let bodies: Result<Vec<_>, _> = bodies.collect();
        let bodies = bodies.map_err(|_| BoardFault::NoMemory)?;
        let line = settings::line(configuration);
        let (board, _) = Board::by_settings(&line, bodies)?;
        let zeros = || (0..shards).map(|_| AtomicU64::new(0)).collect();
        Ok(InMemory {
            line,
            board: RwLock::new(board),
            version: AtomicU64::new(0),
            keys: zeros(),
            bases: zeros(),
        })
    }

    /// Returns the board. Its proved code decides who may use which shard.
    pub fn board(&self) -> Board<BoxedBody> {
        let board = self.board.read().unwrap_or_else(PoisonError::into_inner);
        board.clone()
    }

    /// Returns how often a new board has replaced the old one.
    pub fn version(&self) -> u64 {
        self.version.load(Ordering::Acquire)
    }

    /// Opens a board on which shards have the stands in these heads, and these bodies. It isn't in use yet.
    ///
    /// # Errors
    ///
    /// `NoMemory`, or the first shard that can't have its stand.
    pub fn open(
        &self,
        heads: &[ShardHead],
        mut bodies: Vec<BoxedBody>,
    ) -> Result<Opened, DumpFault> {
        let keys = bodies.iter_mut().map(|it| it.keys() as u64).collect();
        // Everything else was accepted when the server began.
        let opened = Board::by_settings(&self.line, bodies);
        let (board, _) = opened.map_err(|_| DumpFault::NoMemory)?;
        restore(&board.control(), heads)?;
        let generations = heads.iter().map(|it| it.generation).collect();
        Ok(Opened {
            board,
            keys,
            generations,
        })
    }

    /// Replaces the old board by this one. No thread may have a pass of the old board, on which shards had these
    /// generations. Each shard's generations continue from there.
    pub fn take(&self, opened: Opened, before: &[u64]) {
        let mut board = self.board.write().unwrap_or_else(PoisonError::into_inner);
        *board = opened.board;
        for (place, keys) in self.keys.iter().zip(opened.keys) {
            place.store(keys, Ordering::Relaxed);
        }
        let generations = opened.generations.iter().zip(before);
        for (place, (dumped, before)) in self.bases.iter().zip(generations) {
            place.store(*dumped.max(before), Ordering::Relaxed);
        }
        self.version.fetch_add(1, Ordering::AcqRel);
    }

    /// Returns how many steps the shard's history had before its board was opened.
    pub fn base(&self, shard: u16) -> u64 {
        self.bases[usize::from(shard)].load(Ordering::Relaxed)
    }

    /// Returns how many keys the shard has, as was noted last under its permit.
    pub fn keys(&self, shard: u16) -> u64 {
        self.keys[usize::from(shard)].load(Ordering::Relaxed)
    }

    /// Returns how many keys all shards have.
    pub fn all_keys(&self) -> u64 {
        self.keys.iter().map(|it| it.load(Ordering::Relaxed)).sum()
    }

    /// Notes how many keys the shard has. The caller must have its permit.
    #[inline]
    pub fn note_keys(&self, shard: u16, keys: usize) {
        let place = &self.keys[usize::from(shard)];
        if place.load(Ordering::Relaxed) != keys as u64 {
            place.store(keys as u64, Ordering::Relaxed);
        }
    }
}

impl fmt::Debug for InMemory {
    fn fmt(&self, f: &mut fmt::Formatter<'_>) -> fmt::Result {
        f.debug_struct("InMemory").finish_non_exhaustive()
    }
}

#[cfg(test)]
mod tests {
    use super::*;
    use crate::domains::Domains;
    use crate::keyspace::Rule;
    use durkenzo::RestartFault;
    use durkenzo::ServerId;

    #[test]
    fn of_each_domain_the_library_lets_one_server_be_away() {
        let configuration = Configuration {
            servers: 4,
            restarts: 4,
            domains: Domains::in_turn(2, 4),
            ..Configuration::new(Rule::Hash(8))
        };
        let memory = InMemory::new(&configuration).unwrap();
        let control = memory.board().control();
        ServerId::all(4).for_each(|server| control.ask(server).unwrap());
        let [one, two, three] = [1, 2, 3].map(|it| ServerId::new(it).unwrap());
        control.approve(one).unwrap();
        assert_eq!(control.approve(three), Err(RestartFault::DomainCap));
        control.approve(two).unwrap();
        control.back(one).unwrap();
        control.approve(three).unwrap();
    }
}
