use sm_desk::{Command, CommandFault, Desk};
use sm_lead::{
    AckRead, CommandSending, CommandWrite, Follower, Judged, Leadership, LoadFault, NextStep,
    RecordRead, ResettleFault, SendOutcome, StoreControl,
};
use sm_ownership::{Change, Record};
use sm_place::{Books, ServerState};
use sm_ranges::{ServerId, ShardId, Stand};
use sm_rows::{GroupRow, ServerRow, ShardRow, equal_domains};
use sm_store::ServerRun;
use sm_tasks::{RestartFault, Tasks};
use std::alloc::Global;
use std::process::Abort;

// A store of four shards and three servers, in memory.
#[derive(Drop)]
struct MemoryStore {
    records: [RecordRead; 4],
    runs: [ServerRun; 3],
    // The process that runs each server.
    processes: [u64; 3],
    // Whether servers' keys are there.
    live: [bool; 3],
    elected: u64,
    placed: u64,
    revision: u64,
}

impl MemoryStore {
    fn new() -> MemoryStore {
        let vacant = Record {
            stand: Stand::Vacant,
            admitted: false,
            generation: 0,
        };
        let unwritten = RecordRead {
            state: vacant,
            stood: 0,
        };
        MemoryStore {
            records: [unwritten; 4],
            runs: [in_state(ServerState::Up); 3],
            processes: [1, 2, 3],
            live: [false; 3],
            elected: 0,
            placed: 0,
            revision: 0,
        }
    }

    // Makes what was sent, where all compares hold.
    fn make(&mut self, sending: &CommandSending) -> SendOutcome {
        if sending.elected != self.elected || sending.placed != self.placed {
            return SendOutcome::Lost;
        }
        if let Some(server) = sending.absent {
            if self.live[usize::from(server.number()) - 1] {
                return SendOutcome::Lost;
            }
        }
        self.revision += 1;
        self.placed = self.revision;
        match sending.write {
            CommandWrite::Record { shard, next, .. } => {
                self.records[shard.index()] = RecordRead {
                    state: next,
                    stood: self.revision,
                };
            }
            CommandWrite::State { server, run } => {
                self.runs[usize::from(server.number()) - 1] = run;
            }
        }
        SendOutcome::Made(self.revision)
    }

    // The state of the server of this place.
    fn state(&self, place: usize) -> ServerState {
        self.runs[place].state
    }

    // The process that runs the server that the command names.
    fn process_of(&self, command: &Command) -> u64 {
        match command {
            Command::Change(..) => 0,
            Command::Ask(server)
            | Command::Approve(server)
            | Command::Stopped(server)
            | Command::Back(server)
            | Command::Fail(server) => self.processes[usize::from(server.number()) - 1],
        }
    }

    // A control is elected, and reads.
    fn elect(&mut self, rt: &impl Abort, alloc: Global, process: u64) -> StoreControl {
        self.revision += 1;
        self.elected = self.revision;
        self.read(rt, alloc, process)
    }

    // A control of other settings, with this ceiling, reads the records of all shards of theirs, and these states.
    fn draft(
        &self,
        rt: &impl Abort,
        alloc: Global,
        desk: Desk,
        ceiling: u64,
        runs: &[ServerRun],
    ) -> Result<StoreControl, LoadFault> {
        let lead = Leadership::new(7, self.elected).expect(rt, "a revision");
        let shards = desk.books().shards().len().min(4);
        let records = Vec::from_slice(alloc, &self.records[..shards]).expect(rt, "memory");
        let runs = Vec::from_slice(alloc, runs).expect(rt, "memory");
        StoreControl::read(desk, lead, ceiling, true, records, runs, self.placed)
    }

    // A control that leads reads all records and states.
    fn read(&self, rt: &impl Abort, alloc: Global, process: u64) -> StoreControl {
        let lead = Leadership::new(process, self.elected).expect(rt, "a revision");
        let records = Vec::from_slice(alloc, &self.records).expect(rt, "memory");
        let read = StoreControl::read(
            desk(rt, alloc),
            lead,
            100,
            true,
            records,
            Vec::from_slice(alloc, &self.runs).expect(rt, "memory"),
            self.placed,
        );
        read.ok().expect(rt, "a control")
    }
}

// A server in this state, which names no process.
pub fn in_state(state: ServerState) -> ServerRun {
    ServerRun { state, process: 0 }
}

// The desk of the settings: each server takes three shards, one server may be leaving, and one shard may be down.
pub fn desk(rt: &impl Abort, alloc: Global) -> Desk {
    desk_of(rt, alloc, &[row(1), row(2), row(3)], 4, 1)
}

// The row of a server.
fn row(number: u16) -> ServerRow {
    ServerRow {
        id: ServerId::of(number),
        domain: number,
        capacity: 3,
    }
}

// The desk of settings with these servers, so many shards, of which one may be down, and so many servers that may be
// leaving.
fn desk_of(rt: &impl Abort, alloc: Global, servers: &[ServerRow], shards: usize, ops: u16) -> Desk {
    let group = GroupRow { limit: 4, down: 1 };
    let shard = ShardRow {
        group: 0,
        load: 1,
        cap: 1,
    };
    let rows = [shard; 4];
    let domains = equal_domains(alloc, servers, 1).ok().expect(rt, "memory");
    let books = Books::new(alloc, servers, &[group], &rows[..shards], &domains);
    Desk::new(books.ok().expect(rt, "books"), Tasks::new(ops))
}

fn shard(rt: &impl Abort, number: u16) -> ShardId {
    ShardId::new(number).expect(rt, "a shard")
}

// The control sends the command, which is made.
fn made(
    rt: &impl Abort,
    store: &mut MemoryStore,
    control: StoreControl,
    command: Command,
) -> StoreControl {
    let process = store.process_of(&command);
    let is_named = control.may_name(process, &command);
    assert!(rt; is_named);
    match control.command(process, command) {
        Judged::Sent(sent) => {
            let outcome = store.make(&sent.sending());
            sent.outcome(outcome).expect(rt, "a command that is made")
        }
        Judged::Refused(control, _) => {
            assert!(rt; false);
            control
        }
    }
}

// The control takes the step, which is one.
fn taken(
    rt: &impl Abort,
    store: &mut MemoryStore,
    control: StoreControl,
    step: NextStep,
) -> StoreControl {
    match step {
        NextStep::Takes(command) => made(rt, store, control, command),
        NextStep::Waits | NextStep::Nothing => {
            assert!(rt; false);
            control
        }
    }
}

// All three servers have read up to this revision.
fn followers(revision: u64) -> [Follower; 3] {
    [1, 2, 3].map(|number| Follower {
        server: ServerId::of(number),
        revision,
    })
}

// The example of the crate's documentation.
#[test]
fn sends_a_change(rt: HostRuntime) {
    let (one, shard) = (ServerId::of(1), shard(&rt, 0));
    let store = MemoryStore::new();
    let desk = desk(&rt, rt.alloc());
    let records = Vec::from_slice(rt.alloc(), &store.records).expect(&rt, "memory");
    let runs = Vec::from_slice(rt.alloc(), &store.runs).expect(&rt, "memory");
    let lead = Leadership::new(7, 5).expect(&rt, "a revision");
    let read = StoreControl::read(desk, lead, 100, true, records, runs, 4);
    let control = read.ok().expect(&rt, "a control");
    let assign = Command::Change(shard, Change::Assign(one));
    let Judged::Sent(sent) = control.command(0, assign) else {
        return;
    };
    assert!(rt; sent.sending().elected == 5);
    let control = sent.outcome(SendOutcome::Made(6)).expect(&rt, "made");
    assert!(rt; control.placed == 6);
}

fn ack(shard: ShardId, server: ServerId, generation: u64) -> AckRead {
    AckRead {
        shard,
        server,
        generation,
    }
}

// All servers have acked the shard's record as it is.
fn acks(store: &MemoryStore, shard: ShardId) -> [AckRead; 3] {
    let generation = store.records[shard.index()].state.generation;
    [
        ack(shard, ServerId::of(1), generation),
        ack(shard, ServerId::of(2), generation),
        ack(shard, ServerId::of(3), generation),
    ]
}

// A shard migrates, while the control that began it stops and another one goes on with what it reads.
#[test]
fn migrates_across_leaders(rt: HostRuntime) {
    let (one, two, k) = (ServerId::of(1), ServerId::of(2), shard(&rt, 0));
    let mut store = MemoryStore::new();
    let control = store.elect(&rt, rt.alloc(), 7);
    let control = made(
        &rt,
        &mut store,
        control,
        Command::Change(k, Change::Assign(one)),
    );
    let prepare = Command::Change(k, Change::PrepareAddShard(two));
    let control = made(&rt, &mut store, control, prepare);
    // The next owner isn't prepared yet: it acked another shard, or an earlier record.
    assert!(rt; control.next_of_shard(k, &followers(0), &[]) == NextStep::Waits);
    let other = ack(shard(&rt, 1), two, 9);
    assert!(rt;
        control.next_of_shard(k, &followers(0), &[other, ack(k, two, 1)]) == NextStep::Waits
    );
    assert!(rt; !control.is_prepared(&[other], k));
    let step = control.next_of_shard(k, &followers(0), &acks(&store, k));
    let old = taken(&rt, &mut store, control, step);
    assert!(rt;
        store.records[0].state.stand
            == Stand::Forwarding {
                owner: one,
                next: two,
            }
    );

    // The old leader goes on although another one was elected: its command isn't made, so it reads again.
    let control = store.elect(&rt, rt.alloc(), 8);
    let Judged::Sent(late) = old.command(0, Command::Change(k, Change::AddShard)) else {
        return;
    };
    let outcome = store.make(&late.sending());
    assert!(rt; outcome == SendOutcome::Lost);
    assert!(rt; late.outcome(outcome).is_none());

    // Only the owner's ack lets the shard be taken, and no command goes before it.
    let early = [ack(k, two, 3)];
    assert!(rt; control.next_of_shard(k, &followers(0), &early) == NextStep::Waits);
    assert!(rt; !control.has_waited(&early, &Command::Change(k, Change::AddShard)));
    assert!(rt; !control.has_waited(&[ack(k, one, 3)], &Command::Change(k, Change::Cancel)));
    let step = control.next_of_shard(k, &followers(0), &acks(&store, k));
    let control = taken(&rt, &mut store, control, step);
    let stood = store.records[0].stood;
    assert!(rt; control.next_of_shard(k, &followers(stood - 1), &[]) == NextStep::Waits);
    let step = control.next_of_shard(k, &followers(stood), &[]);
    let control = taken(&rt, &mut store, control, step);
    assert!(rt; store.records[0].state.stand == Stand::Serving(two));
    assert!(rt; control.next_of_shard(k, &followers(0), &acks(&store, k)) == NextStep::Nothing);
}

// An answer that didn't come: the control forgets, and reads whether its command was made.
#[test]
fn reads_after_an_unknown_outcome(rt: HostRuntime) {
    let (one, k) = (ServerId::of(1), shard(&rt, 0));
    let mut store = MemoryStore::new();
    let control = store.elect(&rt, rt.alloc(), 7);
    let assign = Command::Change(k, Change::Assign(one));
    let Judged::Sent(sent) = control.command(0, assign) else {
        return;
    };
    assert!(rt; store.make(&sent.sending()) == SendOutcome::Made(2));
    let late = sent.sending();
    assert!(rt; sent.outcome(SendOutcome::Unknown).is_none());
    assert!(rt; store.make(&late) == SendOutcome::Lost);
    let control = store.read(&rt, rt.alloc(), 7);
    assert!(rt;
        matches!(
            control.command(0, assign),
            Judged::Refused(_, CommandFault::Change(_))
        )
    );
}

// Two servers ask for a restart. The caps let one go at a time, also under another leader.
#[test]
fn restarts_under_caps(rt: HostRuntime) {
    let (one, two) = (ServerId::of(1), ServerId::of(2));
    let mut store = MemoryStore::new();
    let mut control = store.elect(&rt, rt.alloc(), 7);
    for number in 0..4 {
        let owner = if number == 3 { two } else { one };
        let assign = Command::Change(shard(&rt, number), Change::Assign(owner));
        control = made(&rt, &mut store, control, assign);
    }
    control = made(&rt, &mut store, control, Command::Ask(two));
    let step = control.next_of_server(two, &[]);
    control = taken(&rt, &mut store, control, step);
    control = made(&rt, &mut store, control, Command::Ask(one));
    assert!(rt; control.next_of_server(one, &[]) == NextStep::Waits);
    assert!(rt; control.may_name(1, &Command::Approve(one)));
    let Judged::Refused(_, fault) = control.command(1, Command::Approve(one)) else {
        return;
    };
    assert!(rt; fault == CommandFault::Restart(RestartFault::GlobalCap));

    // The next leader drains the server, which then stops and comes back.
    let mut control = store.elect(&rt, rt.alloc(), 8);
    assert!(rt; control.next_of_server(two, &[]) == NextStep::Waits);
    let step = control
        .next_of_drain(rt.alloc(), two)
        .ok()
        .expect(&rt, "memory");
    control = taken(&rt, &mut store, control, step);
    for _ in 0..3 {
        let step = control.next_of_shard(
            shard(&rt, 3),
            &followers(store.revision),
            &acks(&store, shard(&rt, 3)),
        );
        control = taken(&rt, &mut store, control, step);
    }
    assert!(rt; store.records[3].state.stand == Stand::Serving(ServerId::of(3)));
    let step = control.next_of_server(two, &[]);
    control = taken(&rt, &mut store, control, step);
    assert!(rt; store.state(1) == ServerState::Stopped);
    assert!(rt; control.process_of(two) == 2);
    // A leader that has just begun tells the process that was stopped from the one after it.
    let control = store.elect(&rt, rt.alloc(), 9);
    assert!(rt; !control.may_name(2, &Command::Back(two)));
    store.processes[1] = 10;
    let control = made(&rt, &mut store, control, Command::Back(two));
    assert!(rt; control.next_of_server(two, &[]) == NextStep::Nothing);
    assert!(rt; control.process_of(two) == 10);
}

// A server whose lease ended is said to have failed, and what it owned goes to others.
#[test]
fn reassigns_after_a_failure(rt: HostRuntime) {
    let (one, k) = (ServerId::of(1), shard(&rt, 0));
    let mut store = MemoryStore::new();
    let control = store.elect(&rt, rt.alloc(), 7);
    let control = made(
        &rt,
        &mut store,
        control,
        Command::Change(k, Change::Assign(one)),
    );
    let all = followers(0);
    assert!(rt; control.fallen_server(&all) == None);
    assert!(rt; control.fallen_server(&all[1..]) == Some(one));
    let mut control = made(&rt, &mut store, control, Command::Fail(one));
    assert!(rt; control.fallen_server(&all[1..]) == None);
    for _ in 0..2 {
        let step = control.next_of_shard(k, &all[1..], &[]);
        control = taken(&rt, &mut store, control, step);
    }
    assert!(rt; store.records[0].state.stand == Stand::Serving(ServerId::of(2)));
    assert!(rt; control.next_of_shard(k, &all[1..], &[]) == NextStep::Nothing);
}

// A server whose key is back before it is said to have failed stays up; no other step asks for its key.
#[test]
fn fails_no_server_that_is_back(rt: HostRuntime) {
    let one = ServerId::of(1);
    let mut store = MemoryStore::new();
    let control = store.elect(&rt, rt.alloc(), 7);
    assert!(rt; control.fallen_server(&followers(0)[1..]) == Some(one));
    store.live = [true; 3];
    assert!(rt; control.may_name(0, &Command::Fail(one)));
    let Judged::Sent(sent) = control.command(0, Command::Fail(one)) else {
        return;
    };
    assert!(rt; sent.sending().absent == Some(one));
    let outcome = store.make(&sent.sending());
    assert!(rt; sent.outcome(outcome).is_none());
    let control = store.read(&rt, rt.alloc(), 7);
    assert!(rt; control.fallen_server(&followers(0)) == None);
    let control = made(&rt, &mut store, control, Command::Ask(one));
    store.live[0] = false;
    made(&rt, &mut store, control, Command::Fail(one));
    assert!(rt; store.state(0) == ServerState::Failed);
}

// What no commands lead to is a named fault.
#[test]
fn reads_no_unlawful_store(rt: HostRuntime) {
    let store = MemoryStore::new();
    let lead = Leadership::new(7, 5).expect(&rt, "a revision");
    let records = Vec::from_slice(rt.alloc(), &store.records).expect(&rt, "memory");
    let away = [
        ServerState::Approved,
        ServerState::Approved,
        ServerState::Up,
    ];
    let runs = Vec::from_slice(rt.alloc(), &away.map(in_state)).expect(&rt, "memory");
    let read = StoreControl::read(desk(&rt, rt.alloc()), lead, 100, true, records, runs, 4);
    let cap = CommandFault::Restart(RestartFault::GlobalCap);
    assert!(rt; matches!(read, Err(LoadFault::Unreached(fault)) if fault == cap));
    let none = StoreControl::read(
        desk(&rt, rt.alloc()),
        lead,
        100,
        true,
        Vec::new(rt.alloc()),
        Vec::from_slice(rt.alloc(), &store.runs).expect(&rt, "memory"),
        4,
    );
    assert!(rt; matches!(none, Err(LoadFault::Different)));
    assert!(rt; Leadership::new(7, 0).is_none());
}

// What another control's settings come to, in place of the control's: which fault, if any.
fn resettled(control: &StoreControl, other: &StoreControl) -> Option<ResettleFault> {
    control.resettle(other).err()
}

// A server is added, and one that failed is taken out.
#[test]
fn other_settings_take_the_place(rt: HostRuntime) {
    let three = ServerId::of(3);
    let mut store = MemoryStore::new();
    let control = store.elect(&rt, rt.alloc(), 7);
    let more = desk_of(&rt, rt.alloc(), &[row(1), row(2), row(3), row(4)], 4, 2);
    let runs = [in_state(ServerState::Up); 4];
    let other = store.draft(&rt, rt.alloc(), more, 100, &runs);
    let other = other.ok().expect(&rt, "a control");
    assert!(rt; resettled(&control, &other) == None);

    let fewer = |alloc| desk_of(&rt, alloc, &[row(1), row(2)], 4, 1);
    let other = store.draft(&rt, rt.alloc(), fewer(rt.alloc()), 100, &store.runs[..2]);
    let other = other.ok().expect(&rt, "a control");
    assert!(rt; resettled(&control, &other) == Some(ResettleFault::InUse(three)));
    let control = made(&rt, &mut store, control, Command::Fail(three));
    let other = store.draft(&rt, rt.alloc(), fewer(rt.alloc()), 100, &store.runs[..2]);
    let other = other.ok().expect(&rt, "a control");
    assert!(rt; resettled(&control, &other) == None);
}

// The controls are of one moment, and the shards and the ceiling stay.
#[test]
fn other_settings_keep_shards_and_ceiling(rt: HostRuntime) {
    let mut store = MemoryStore::new();
    let control = store.elect(&rt, rt.alloc(), 7);
    let servers = [row(1), row(2), row(3)];
    let desk = desk_of(&rt, rt.alloc(), &servers, 3, 1);
    let other = store.draft(&rt, rt.alloc(), desk, 100, &store.runs);
    let other = other.ok().expect(&rt, "a control");
    assert!(rt; resettled(&control, &other) == Some(ResettleFault::OtherShards));
    let desk = desk_of(&rt, rt.alloc(), &servers, 4, 1);
    let other = store.draft(&rt, rt.alloc(), desk, 99, &store.runs);
    let other = other.ok().expect(&rt, "a control");
    assert!(rt; resettled(&control, &other) == Some(ResettleFault::OtherCeiling));
    let assign = Command::Change(shard(&rt, 0), Change::Assign(ServerId::of(1)));
    let control = made(&rt, &mut store, control, assign);
    assert!(rt; resettled(&control, &other) == Some(ResettleFault::Apart));
}

// A control of settings to which records and states don't keep isn't made.
#[test]
fn other_settings_keep_what_stands(rt: HostRuntime) {
    let (one, two, k) = (ServerId::of(1), ServerId::of(2), shard(&rt, 0));
    let mut store = MemoryStore::new();
    let control = store.elect(&rt, rt.alloc(), 7);
    let control = made(
        &rt,
        &mut store,
        control,
        Command::Change(k, Change::Assign(one)),
    );
    let control = made(&rt, &mut store, control, Command::Ask(two));
    let _ = made(&rt, &mut store, control, Command::Approve(two));
    let servers = [row(1), row(2), row(3)];
    let none_leaves = desk_of(&rt, rt.alloc(), &servers, 4, 0);
    let other = store.draft(&rt, rt.alloc(), none_leaves, 100, &store.runs);
    let cap = CommandFault::Restart(RestartFault::GlobalCap);
    assert!(rt; matches!(other, Err(LoadFault::Unreached(fault)) if fault == cap));
    let without_owner = desk_of(&rt, rt.alloc(), &servers[1..], 4, 1);
    let other = store.draft(&rt, rt.alloc(), without_owner, 100, &store.runs[1..]);
    assert!(rt;
        matches!(other, Err(LoadFault::Unreached(fault)) if fault == CommandFault::UnknownServer)
    );
}
