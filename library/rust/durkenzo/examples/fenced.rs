//! Adds 1 to accounts in a store. No write of an earlier admission or process can land after a later one: `fenced FILE
//! WRITES [AFTER]`.
//!
//! Prints the totals of all accounts at the end. AFTER shows what happens if tokens begin too low: the store refuses
//! the first write, which is an error. The store here is a file. In a database, `claim` and `add` would be one
//! transaction each.
use durkenzo::{Board, Mode, Permit, ServerId, ShardId, MAX_GENERATION};
use std::error::Error;
use std::fs;
use std::io::ErrorKind;
use std::path::PathBuf;

type BoxError = Box<dyn Error + Send + Sync>;

const ACCOUNTS: u16 = 4;

#[derive(Clone, Copy, Default)]
struct Account {
    balance: u64,
    /// The greatest token among its writers.
    token: u64,
}

struct AccountFile {
    file: PathBuf,
    /// The number after which the next process's tokens begin.
    after: u64,
    accounts: [Account; ACCOUNTS as usize],
}

impl AccountFile {
    /// Opens the store in the file. The first line is `after`, and every other line is an account.
    fn open(file: PathBuf) -> Result<AccountFile, BoxError> {
        let kept = match fs::read_to_string(&file) {
            Err(error) if error.kind() == ErrorKind::NotFound => String::new(),
            read => read?,
        };
        let mut numbers = kept.split_whitespace().map(str::parse);
        let after = numbers.next().transpose()?.unwrap_or_default();
        let mut accounts = [Account::default(); ACCOUNTS as usize];
        for account in &mut accounts {
            account.balance = numbers.next().transpose()?.unwrap_or_default();
            account.token = numbers.next().transpose()?.unwrap_or_default();
        }
        Ok(AccountFile {
            file,
            after,
            accounts,
        })
    }

    fn save(&self) -> Result<(), BoxError> {
        let lines = self.accounts.iter();
        let lines = lines.map(|it| format!("{} {}\n", it.balance, it.token));
        let text = format!("{}\n{}", self.after, lines.collect::<String>());
        Ok(fs::write(&self.file, text)?)
    }

    /// Returns the number after which this process's tokens begin. The next process's tokens begin above all of them.
    /// So if this process is cut off and goes on writing, its tokens are lower.
    fn claim(&mut self) -> Result<u64, BoxError> {
        let after = self.after;
        self.after += MAX_GENERATION;
        self.save()?;
        Ok(after)
    }

    /// Adds 1, as `UPDATE .. SET balance = balance + 1, token = ?1 WHERE shard = ?2 AND token <= ?1` does. If the write
    /// changes no row, it is an error.
    fn add(&mut self, shard: ShardId, token: u64) -> Result<(), BoxError> {
        // Another process may have written in the meantime.
        *self = AccountFile::open(self.file.clone())?;
        let account = &mut self.accounts[shard.index()];
        if token < account.token {
            return Err(format!("account {shard} has a later token than {token}").into());
        }
        account.balance += 1;
        account.token = token;
        self.save()
    }
}

fn main() -> Result<(), BoxError> {
    let mut words = std::env::args().skip(1);
    let (Some(file), Some(writes)) = (words.next(), words.next()) else {
        return Err("fenced FILE WRITES [AFTER]".into());
    };
    let mut store = AccountFile::open(file.into())?;
    let after = match words.next() {
        Some(after) => after.parse()?,
        None => store.claim()?,
    };
    let board = Board::builder()
        .servers(1)
        .after(after)
        .build([(); ACCOUNTS as usize])?;
    let server = ServerId::new(1)?;
    for shard in board.shards() {
        board.control().assign(shard, server)?;
    }
    let mut pass = board.pass(server)?;
    for shard in board.shards().cycle().take(writes.parse()?) {
        let mut permit = pass.admit(shard, Mode::Direct)?;
        store.add(Permit::shard(&permit), Permit::token(&mut permit))?;
    }
    let sum: u64 = store.accounts.iter().map(|it| it.balance).sum();
    println!("the accounts have {sum}");
    Ok(())
}
