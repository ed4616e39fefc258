use durkenzo::{AdmitFault, Board, Control, Mode, ServerId, ShardId};
use std::error::Error;
use std::sync::atomic::{AtomicBool, Ordering};

#[derive(Default)]
struct Account {
    balance: u64,
}

/// Serves all accounts as this server until it is told to stop. Returns how much it did.
fn serve(
    board: &Board<Account>,
    server: ServerId,
    stop: &AtomicBool,
) -> Result<u64, Box<dyn Error + Send + Sync>> {
    let mut pass = board.pass(server)?;
    let mut done = 0;
    for shard in board.shards().cycle() {
        match pass.admit(shard, Mode::Direct) {
            Ok(mut account) => {
                account.balance += 1;
                done += 1;
            }
            // Another server executes this shard, or has yet to hand it over.
            Err(AdmitFault::NotExecutor(_) | AdmitFault::NotYet(_)) => {}
            Err(fault) if fault.is_transient() => {}
            Err(fault) => return Err(fault.into()),
        }
        if stop.load(Ordering::Relaxed) {
            break;
        }
    }
    Ok(done)
}

fn migrate(control: &Control<Account>, rounds: u16) -> Result<(), Box<dyn Error + Send + Sync>> {
    let shard = ShardId::new(0)?;
    for round in 1..=rounds {
        control.migrate(shard, ServerId::new(round % 4 + 1)?)?;
    }
    Ok(())
}

fn main() -> Result<(), Box<dyn Error + Send + Sync>> {
    let board = Board::builder()
        .servers(4)
        .build((0..8).map(|_| Account::default()))?;
    let control = board.control();
    for (shard, server) in board.shards().zip(ServerId::all(4).cycle()) {
        control.assign(shard, server)?;
    }
    let stop = AtomicBool::new(false);
    let done = std::thread::scope(|scope| {
        let (board, stop) = (&board, &stop);
        let servers: Vec<_> = ServerId::all(4)
            .map(|it| scope.spawn(move || serve(board, it, stop)))
            .collect();
        let moved = migrate(&control, 2_000);
        stop.store(true, Ordering::Relaxed);
        let done: Result<u64, _> = servers.into_iter().map(|it| it.join().unwrap()).sum();
        moved.and(done)
    })?;
    drop(control);
    let accounts = board.into_bodies().map_err(|_| "the board is in use")?;
    assert_eq!(accounts.iter().map(|it| it.balance).sum::<u64>(), done);
    println!("every admission was counted");
    Ok(())
}
