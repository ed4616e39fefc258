//! A counter whose state is in a database of SQLite. Each write compares its fence there. So a late process writes
//! nothing, even if its clock is wrong.
//!
//! ```console
//! $ COUNTERS=/tmp/counters.sqlite counter --name 1 --listen 127.0.0.1:7381  # a server; 2 and 3 likewise
//! $ counter add 127.0.0.1:7381 visits 5                                     # counts 5 times
//! ```
use durkenzo_fleet::{Call, CallError, Came, Fault, Fleet, Options, Retry, Router, Service, Shard};
use rusqlite::{params, Connection, Transaction, TransactionBehavior};
use std::error::Error;
use std::path::{Path, PathBuf};
use std::time::Duration;

const TABLES: &str = "
    CREATE TABLE IF NOT EXISTS fences (shard INTEGER PRIMARY KEY, fence INTEGER NOT NULL);
    CREATE TABLE IF NOT EXISTS counters (name BLOB PRIMARY KEY NOT NULL, count INTEGER NOT NULL);
";
/// Writes the fence of a shard, unless the database has a later one.
const FENCE: &str = "
    INSERT INTO fences VALUES (?1, ?2)
    ON CONFLICT (shard) DO UPDATE SET fence = excluded.fence WHERE fence <= excluded.fence
";
const COUNT: &str = "
    INSERT INTO counters VALUES (?1, 1)
    ON CONFLICT (name) DO UPDATE SET count = count + 1
    RETURNING count
";
/// The longest time that a transaction waits for another one.
const BUSY: Duration = Duration::from_secs(5);

/// Opens the database, and makes its tables if they aren't there.
pub fn open(file: &Path) -> rusqlite::Result<Connection> {
    let connection = Connection::open(file)?;
    connection.busy_timeout(BUSY)?;
    connection.pragma_update(None, "journal_mode", "WAL")?;
    connection.execute_batch(TABLES)?;
    Ok(connection)
}

/// Returns whether this fence is the latest of its shard. If it is, notes it for later writes.
pub fn is_latest(transaction: &Transaction<'_>, shard: u16, fence: u64) -> rusqlite::Result<bool> {
    Ok(transaction.execute(FENCE, params![shard, fence])? == 1)
}

/// Counts once, and returns the count. If a later owner of the shard was here, writes nothing and returns nothing.
pub fn count(
    connection: &mut Connection,
    (shard, fence): (u16, u64),
    name: &[u8],
) -> rusqlite::Result<Option<u64>> {
    // The fence must be compared and the count written in one transaction, because a later owner could come between the
    // two.
    let transaction = connection.transaction_with_behavior(TransactionBehavior::Immediate)?;
    if !is_latest(&transaction, shard, fence)? {
        return Ok(None);
    }
    let count = transaction.query_row(COUNT, [name], |row| row.get(0))?;
    transaction.commit()?;
    Ok(Some(count))
}

struct Counter {
    file: PathBuf,
}

impl Service for Counter {
    type Body = Connection;

    /// The whole state is in the database, so this does the same however the shard came.
    fn add(&self, shard: Shard, _: Came<'_>) -> Result<Connection, Fault> {
        let mut connection = open(&self.file)?;
        // After this, the previous owner writes nothing more, even if this one has nothing to write yet.
        let transaction = connection.transaction_with_behavior(TransactionBehavior::Immediate)?;
        if !is_latest(&transaction, shard.number(), shard.fence())? {
            return Err("a later owner was here".into());
        }
        transaction.commit()?;
        Ok(connection)
    }

    fn answer(&self, connection: &mut Connection, call: Call<'_>) -> Vec<u8> {
        let by = (call.shard().number(), call.fence());
        let answer = match count(connection, by, call.request()) {
            Ok(Some(count)) => count.to_string(),
            Ok(None) => "refused: a later owner was here".to_owned(),
            Err(error) => format!("unsure: {error}"),
        };
        answer.into_bytes()
    }

    fn hand_over(&self, _: &mut Connection) -> Vec<u8> {
        Vec::new()
    }
}

/// Counts this many times, and prints the result of each call.
fn add(url: &str, name: &str, times: u32) -> Result<(), Box<dyn Error>> {
    let (router, retry) = (Router::of(url)?, Retry::Until(Duration::from_secs(10)));
    for _ in 0..times {
        match router.call(name.as_bytes(), name.as_bytes(), retry) {
            Ok(answer) => println!("{name}: {}", String::from_utf8_lossy(&answer.bytes)),
            Err(unsure @ CallError::Unsure(_)) => println!("{name}: {unsure}"),
            Err(not_made @ CallError::NotMade(_)) => return Err(not_made.into()),
        }
    }
    Ok(())
}

pub fn main() -> Result<(), Box<dyn Error>> {
    let words: Vec<String> = std::env::args().skip(1).collect();
    if let [command, url, name, times] = &words[..] {
        if command == "add" {
            return add(url, name, times.parse()?);
        }
    }
    let file = std::env::var_os("COUNTERS").ok_or("COUNTERS names no database")?;
    let fleet = Fleet::join(Counter { file: file.into() }, Options::parse())?;
    println!("server {} at {}", fleet.server(), fleet.address());
    Ok(fleet.serve()?)
}
