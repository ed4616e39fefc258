//! The sizes of a run.

/// The sizes of a run, which words `NAME=NUMBER` set.
#[derive(Clone, Copy)]
pub struct Sizes {
    pub port: u16,
    pub clients: usize,
    /// If this isn't 0, the server has its texts already.
    pub filled: u64,
    pub shards: usize,
    pub threads: usize,
    pub keys: u32,
    pub text: usize,
    /// The migrations a second, or 0 if no shard moves.
    pub migrations: u64,
    pub rounds: usize,
    pub milliseconds: u64,
}

impl Sizes {
    /// Returns the sizes that the words name. If no word names a size, it is the one below.
    pub fn of(words: &[String]) -> Sizes {
        let mut sizes = Sizes {
            port: 0,
            clients: 4,
            filled: 0,
            shards: 64,
            threads: 2,
            keys: 100,
            text: 32,
            migrations: 0,
            rounds: 5,
            milliseconds: 200,
        };
        for word in words {
            let (name, number) = word.split_once('=').expect("NAME=NUMBER");
            sizes.set(name, number.parse().expect("a number"));
        }
        sizes
    }

    fn set(&mut self, name: &str, number: u64) {
        match name {
            "port" => self.port = number as u16,
            "filled" => self.filled = number,
            "clients" => self.clients = number as usize,
            "shards" => self.shards = number as usize,
            "threads" => self.threads = number as usize,
            "keys" => self.keys = number as u32,
            "text" => self.text = number as usize,
            "migrations" => self.migrations = number,
            "rounds" => self.rounds = number as usize,
            "milliseconds" => self.milliseconds = number,
            other => panic!("there is no size {other}"),
        }
    }
}
