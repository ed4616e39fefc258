//! A control and passes on threads of their own.
ghost use Rattle.std.specs.Arc.{arc_value};
ghost use Rattle.std.specs.Prelude.{◌≡◌, ◌<◌, ◌≤◌, ◌^◌, None};

use crate::common::{idle, new_running, shard};
use crate::running::Running;
use sm_control::Control;
use sm_desk::{Command, CommandFault};
use sm_ownership::change::Change;
use sm_ownership::change_fault::ChangeFault;
use sm_ownership::mode::Mode;
use sm_ownership::record::Record;
use sm_ranges::{ServerId, ShardId, Stand};
use sm_rule::{AdmitRefusal, Board, Pass};
use sm_service::CounterText;
use std::alloc::{AllocError, Global};
use std::process::Abort;
use std::sync::Arc;
use std::thread;
use std::thread::{JoinHandle, Threads};

// The ceiling of the shard's generation.
const CEILING: u64 = 1_000_000_000;

// A server's pass that is sent to a thread with its board.
#[derive(Drop)]
struct Worker {
    board: Arc<Board<CounterText>>,
    server: ServerId,
    pass: Pass<CounterText>,
    ghost tied: { pass.board ≡ arc_value board },
    ghost free: { pass.held ≡ None },
}

impl Worker {
    // Tries so many admissions to the shard, and gives the number of those that were made and ended; none where a refusal isn't that
    // of the record that it carries.
    fn admissions(mut self, k: ShardId, tries: u32) -> Option<u32> {
        let (mut made, mut are_right) = (0u32, true);
        for _ in 0..tries {
            match self.admits(k) {
                Some(true) => made = made.saturating_add(1),
                Some(false) => {}
                None => are_right = false,
            }
        }
        if are_right { Some(made) } else { None }
    }

    // Whether the server was admitted; none where it is refused, and not as the record says.
    fn admits(&mut self, k: ShardId) -> Option<bool> {
        if u32::from(k.number()) >= self.board.count() {
            return None;
        }
        match self.board.admit(&mut self.pass, k, Mode::Direct) {
            Ok(permit) => {
                self.board.finish(&mut self.pass, permit);
                Some(true)
            }
            Err(refusal) => refused_by_record(self.server, &refusal),
        }
    }
}

// Not admitted, where the record that was read says so, or admits the server and is older than the one that was found.
fn refused_by_record(server: ServerId, refusal: &AdmitRefusal) -> Option<bool> {
    let is_right = match refusal {
        AdmitRefusal::Refused(fault, read) => {
            read.admit_fault(server, Mode::Direct, CEILING) == Some(*fault)
        }
        AdmitRefusal::Raced { read, found } => {
            read.admit_fault(server, Mode::Direct, CEILING).is_none()
                && read.generation < found.generation
        }
    };
    if is_right { Some(false) } else { None }
}

fn new_worker(board: &Arc<Board<CounterText>>, server: u16) -> Result<Worker, AllocError>
    requires { (1 ≤ server) × (server ≤ 4095) }
{
    let server = ServerId::of(server);
    let pass = board.pass(Some(server));
    Ok(Worker {
        board: Arc::try_clone(board)?,
        server,
        pass,
    })
}

// A control that is sent to a thread with its board.
#[derive(Drop)]
struct Steward {
    board: Arc<Board<CounterText>>,
    control: Control<CounterText>,
    ghost tied: { control.chair.board ≡ arc_value board },
}

impl Steward {
    // Makes so many migrations of the shard, over servers 1 to 3 in turn, and gives the number of the changes made.
    fn migrate(&mut self, k: ShardId, migrations: u32) -> u64 {
        let mut made = 0u64;
        for turn in 0..migrations {
            made = made.saturating_add(self.migrate_once(k, server_after(turn)));
        }
        made
    }

    // Makes the four changes of a migration, and gives how many of them were made.
    fn migrate_once(&mut self, k: ShardId, next: ServerId) -> u64 {
        let changes = [
            Change::PrepareAddShard(next),
            Change::PrepareDropShard,
            Change::AddShard,
            Change::DropShard,
        ];
        let mut made = 0u64;
        for change in changes {
            if self.make(&Command::Change(k, change)) {
                made = made.saturating_add(1);
            }
        }
        made
    }

    // Tries until the command is made, or is refused for another cause than that a pass was first.
    fn make(&mut self, command: &Command) -> bool {
        for _ in 0..10_000_000u32 {
            if let Some(made) = self.made(command) {
                return made;
            }
        }
        false
    }

    // Whether the command is made; none where a pass was first.
    fn made(&mut self, command: &Command) -> Option<bool> {
        match self.control.command(&self.board, *command) {
            Ok(()) => Some(true),
            Err(fault) => other_cause(fault),
        }
    }
}

// The server to which the shard moves in its turn: 2, 3, 1 and so on.
fn server_after(turn: u32) -> ServerId {
    match turn % 3 {
        0 => ServerId::of(2),
        1 => ServerId::of(3),
        _ => ServerId::of(1),
    }
}

// Not made, where the cause is another than that a pass was first.
fn other_cause(fault: CommandFault) -> Option<bool> {
    if is_overtaken(fault) {
        None
    } else {
        Some(false)
    }
}

// A pass was first: the record read is admitted, or was idle and has a greater generation now.
fn is_overtaken(fault: CommandFault) -> bool {
    match fault {
        CommandFault::Change(ChangeFault::Busy(read)) => read.admitted,
        CommandFault::Raced { read, found } => !read.admitted && read.generation < found.generation,
        _ => false,
    }
}

// A control in front of a board of one shard, which server 1 owns.
fn new_steward<R: Abort>(rt: &R, alloc: Global) -> Steward {
    let mut running = new_running(rt, alloc, 1, CEILING);
    assert!(rt; running.assign(shard(0), ServerId::of(1)).is_ok());
    let Running { board, control } = running;
    Steward {
        board: Arc::new(alloc, board).ok().expect(rt, "memory"),
        control,
    }
}

// Has a pass of the server try 20,000 admissions in a thread of its own.
fn admissions_of<R: Threads + Abort>(
    rt: &R,
    board: &Arc<Board<CounterText>>,
    server: u16,
) -> JoinHandle<Option<u32>>
    requires { (1 ≤ server) × (server ≤ 4095) }
{
    let worker = new_worker(board, server).ok().expect(rt, "memory");
    thread::spawn(rt, move || worker.admissions(shard(0), 20_000))
        .ok()
        .expect(rt, "a thread")
}

// Makes 1,000 migrations beside the admissions of three servers, and tells how many of these were made.
fn migrate_beside<R: Threads + Abort>(rt: &R, steward: &mut Steward) -> u64 {
    let one = admissions_of(rt, &steward.board, 1);
    let two = admissions_of(rt, &steward.board, 2);
    let three = admissions_of(rt, &steward.board, 3);
    assert!(rt; steward.migrate(shard(0), 1_000) == 4_000);
    made_in(rt, one) + made_in(rt, two) + made_in(rt, three)
}

// How many admissions of the thread were made, where each refusal was that of its record.
fn made_in<R: Threads + Abort>(rt: &R, thread: JoinHandle<Option<u32>>) -> u64
    ensures { result < 2 ^ 32 }
{
    u64::from(thread.join(rt).expect(rt, "refusals by their records"))
}

// The record of the board's only shard, where no thread has the board any more.
fn end_of(steward: Steward) -> Option<Record> {
    let Steward { board, control } = steward;
    let Ok(board) = Arc::try_unwrap(board) else {
        return None;
    };
    let (chair, _) = control.into_parts();
    let last = board.pass(None);
    let rows = board.close(chair, last);
    only_record(&rows)
}

// The record of the only row; none where there are more.
fn only_record<T>(rows: &[(Record, T)]) -> Option<Record> {
    match rows {
        [row] => Some(row.0),
        _ => None,
    }
}

#[test]
fn migrates_beside_admissions(rt: HostRuntime) {
    let mut steward = new_steward(&rt, rt.alloc());
    let admissions = migrate_beside(&rt, &mut steward);
    // The last of 1,000 turns moves the shard to server 2.
    let generation = admissions.saturating_mul(2).saturating_add(4_001);
    let end = idle(Stand::Serving(ServerId::of(2)), generation);
    assert!(rt; end_of(steward) == Some(end));
}
