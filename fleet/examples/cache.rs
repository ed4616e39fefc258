//! A cache in front of a slow store, which is a folder of files here. Each key belongs to one process at a time, so its
//! value is loaded once. If the shard of the key moves, the loaded values move with it.
//!
//! A folder doesn't compare fences. If a process is paused past its lease while it writes a value, that write may come
//! late, over a value that another process has stored since. If a store compares `call.fence()`, as in `counter.rs`, it
//! refuses such a write.
//!
//! ```console
//! $ SLOW=/tmp/slow cache --name 1 --listen 127.0.0.1:7381  # a server; 2 and 3 likewise
//! $ cache 127.0.0.1:7381 page 'set it is so'               # and then: cache 127.0.0.1:7381 page get
//! ```
use durkenzo_fleet::{Call, Came, Fault, Fleet, Options, Retry, Router, Service, Shard};
use serde::{Deserialize, Serialize};
use std::{collections::HashMap, error::Error, fs, io, mem, path::PathBuf, thread, time::Duration};

/// The most bytes of keys and values that are kept of a shard, apart from the last value.
const MOST: usize = 1 << 20;
/// The time that the slow store takes.
const SLOW: Duration = Duration::from_millis(20);
const PATIENCE: Duration = Duration::from_secs(10);

/// The loaded values of a shard, in two halves. If the newer half is full, it becomes the older half. Then the values
/// are dropped that weren't used since the last such change.
#[derive(Default, Serialize, Deserialize)]
pub struct Warm {
    newer: HashMap<String, String>,
    older: HashMap<String, String>,
    /// How many bytes have come into the newer half.
    bytes: usize,
}

impl Warm {
    /// Returns the value of the key, if it is kept.
    pub fn get(&mut self, key: &str) -> Option<String> {
        if let Some(value) = self.older.remove(key) {
            self.put(key, value);
        }
        self.newer.get(key).cloned()
    }

    /// Keeps the value. If there is no room, drops others.
    pub fn put(&mut self, key: &str, value: String) {
        self.forget(key);
        self.bytes += key.len() + value.len();
        if self.bytes > MOST / 2 {
            self.older = mem::take(&mut self.newer);
            self.bytes = key.len() + value.len();
        }
        self.newer.insert(key.to_owned(), value);
    }

    fn forget(&mut self, key: &str) {
        self.newer.remove(key);
        self.older.remove(key);
    }
}

/// The folder of the store.
struct Cache(PathBuf);

impl Cache {
    /// Does this request for the key. Other calls of the shard wait in the meantime, and find the value loaded.
    fn done(&self, warm: &mut Warm, key: &str, asked: &str) -> io::Result<String> {
        let file = self.0.join(key);
        if let Some(value) = asked.strip_prefix("set ") {
            // If the store fails, it may have either value.
            warm.forget(key);
            thread::sleep(SLOW);
            fs::write(file, value)?;
            warm.put(key, value.to_owned());
            return Ok("stored".to_owned());
        }
        if let Some(value) = warm.get(key) {
            return Ok(format!("kept: {value}"));
        }
        thread::sleep(SLOW);
        let value = fs::read_to_string(file)?;
        warm.put(key, value.clone());
        Ok(format!("loaded: {value}"))
    }
}

impl Service for Cache {
    type Body = Warm;

    fn add(&self, _: Shard, came: Came<'_>) -> Result<Warm, Fault> {
        let Came::Handed(bytes) = came else {
            return Ok(Warm::default());
        };
        Ok(serde_json::from_slice(bytes)?)
    }

    fn answer(&self, warm: &mut Warm, call: Call<'_>) -> Vec<u8> {
        let text = String::from_utf8_lossy(call.request());
        let answer = match text.split_once(' ') {
            // The key is the name of a file.
            Some((key, asked)) if !key.contains(['/', '.']) => self.done(warm, key, asked),
            Some(_) | None => Err(io::ErrorKind::InvalidInput.into()),
        };
        let answer = answer.unwrap_or_else(|error| format!("error: {error}"));
        answer.into_bytes()
    }

    fn hand_over(&self, warm: &mut Warm) -> Vec<u8> {
        serde_json::to_vec(warm).unwrap_or_default()
    }
}

fn main() -> Result<(), Box<dyn Error>> {
    let words: Vec<String> = std::env::args().skip(1).collect();
    if let [url, key, asked] = &words[..] {
        let (request, retry) = (format!("{key} {asked}"), Retry::Until(PATIENCE));
        let answer = Router::of(url)?.call(key.as_bytes(), request.as_bytes(), retry)?;
        println!("{}", String::from_utf8_lossy(&answer.bytes));
        return Ok(());
    }
    let folder = std::env::var_os("SLOW").ok_or("SLOW names no folder")?;
    let fleet = Fleet::join(Cache(folder.into()), Options::parse())?;
    println!("server {} at {}", fleet.server(), fleet.address());
    Ok(fleet.serve()?)
}
