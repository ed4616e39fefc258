//! Moves sums between accounts while shards migrate. Each account is in a shard of its own, and a transfer holds both
//! shards.
use durkenzo::{AdmitFault, Board, Control, Mode, Pass, ServerId, ShardId};
use std::error::Error;
use std::thread;

type BoxError = Box<dyn Error + Send + Sync>;

const SERVERS: u16 = 3;
const ACCOUNTS: usize = 8;
const FIRST_BALANCE: u64 = 100;
const TRANSFERS: usize = 20_000;

struct Account {
    balance: u64,
}

/// Makes a pass for each server.
fn passes(board: &Board<Account>) -> Result<Vec<Pass<Account>>, BoxError> {
    let passes = ServerId::all(SERVERS).map(|it| board.pass(it));
    Ok(passes.collect::<Result<_, _>>()?)
}

/// Waits until a server executes the account's shard, and runs the work on the account as that server.
fn with<R>(
    passes: &mut [Pass<Account>],
    shard: ShardId,
    mut work: impl FnMut(&mut Account) -> R,
) -> Result<R, AdmitFault> {
    for server in (0..passes.len()).cycle() {
        match passes[server].with(shard, Mode::Direct, |account| work(account)) {
            Err(AdmitFault::NotExecutor(_) | AdmitFault::NotYet(_)) => {}
            done => return done,
        }
    }
    unreachable!("there are servers")
}

/// Moves the sum if the payer has it, and returns whether he had. It takes two passes, because a pass holds one shard
/// at a time.
fn transfer(
    [ones, others]: &mut [Vec<Pass<Account>>; 2],
    (from, to): (ShardId, ShardId),
    sum: u64,
) -> Result<bool, AdmitFault> {
    // Everyone takes the lower shard first, so no two threads wait for each other.
    with(ones, from.min(to), |low| {
        with(others, from.max(to), |high| {
            let (payer, payee) = match from < to {
                true => (&mut *low, high),
                false => (high, &mut *low),
            };
            let has_it = payer.balance >= sum;
            if has_it {
                payer.balance -= sum;
                payee.balance += sum;
            }
            has_it
        })
    })?
}

/// Makes many transfers. Returns how many succeeded.
fn serve(board: &Board<Account>, thread: usize) -> Result<u64, BoxError> {
    let mut passes = [passes(board)?, passes(board)?];
    let (accounts, mut done): (Vec<_>, u64) = (board.shards().collect(), 0);
    for turn in 0..TRANSFERS {
        let from = (turn + thread) % ACCOUNTS;
        let to = (from + 1 + turn % (ACCOUNTS - 1)) % ACCOUNTS;
        let pair = (accounts[from], accounts[to]);
        done += u64::from(transfer(&mut passes, pair, (turn % 9) as u64)?);
    }
    Ok(done)
}

fn migrate(control: &Control<Account>) -> Result<(), BoxError> {
    for round in 1..=125 {
        for shard in ShardId::all(ACCOUNTS) {
            let server = (shard.get() + round) % SERVERS + 1;
            control.migrate(shard, ServerId::new(server)?)?;
        }
    }
    Ok(())
}

fn main() -> Result<(), BoxError> {
    let account = || Account {
        balance: FIRST_BALANCE,
    };
    let board = Board::builder()
        .servers(SERVERS)
        .build((0..ACCOUNTS).map(|_| account()))?;
    let control = board.control();
    for shard in board.shards() {
        control.assign(shard, ServerId::new(shard.get() % SERVERS + 1)?)?;
    }
    let done = thread::scope(|scope| {
        let board = &board;
        let threads: Vec<_> = (0..4)
            .map(|it| scope.spawn(move || serve(board, it)))
            .collect();
        let moved = migrate(&control);
        let done: Result<u64, _> = threads.into_iter().map(|it| it.join().unwrap()).sum();
        moved.and(done)
    })?;
    drop(control);
    let accounts = board.into_bodies().map_err(|_| "the board is in use")?;
    let all: u64 = accounts.iter().map(|it| it.balance).sum();
    assert_eq!(all, ACCOUNTS as u64 * FIRST_BALANCE);
    println!("{done} transfers, and nothing was lost");
    Ok(())
}
