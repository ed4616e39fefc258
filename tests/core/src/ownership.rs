use sm_ownership::record::MAX_GENERATION;
use sm_ownership::{AdmitFault, Change, ChangeFault, Mode, Record, Table};
use sm_ranges::limits::{MAX_SERVER, MAX_SHARD, MAX_SHARDS};
use sm_ranges::{ServerId, ShardId, Stand};
use std::alloc::Global;
use std::process::Abort;
use std::test::Fail;

// The example of the crate's documentation.
#[test]
fn migrates_a_record(rt: HostRuntime) -> Result<(), Fail> {
    let (one, two) = (ServerId::of(1), ServerId::of(2));
    let serving = Record {
        stand: Stand::Serving(one),
        admitted: false,
        generation: 1,
    };
    let prepared = serving.changed(Change::PrepareAddShard(two), MAX_GENERATION)?;
    let forwarding = prepared.changed(Change::PrepareDropShard, MAX_GENERATION)?;
    assert!(rt; forwarding.executor() == Some(two));
    assert!(rt; forwarding.forward_to(one) == Some(two));
    assert!(rt; forwarding.accepts(two, Mode::Forwarded(one)));
    Ok(())
}

// A call of a table.
#[derive(Clone, Copy, PartialEq, Eq, Drop)]
enum Call {
    Apply(ShardId, Change),
    Admit(ShardId, ServerId),
    Done(ShardId),
    Record(ShardId),
}

// What a table answers.
#[derive(Clone, Copy, PartialEq, Eq, Drop)]
enum Told {
    Made,
    NotChanged(ChangeFault),
    NotAdmitted(AdmitFault),
    Seen(Record),
    // The table may not be called so.
    Uncalled,
}

fn applied(table: &mut Table, k: ShardId, change: Change) -> Told {
    match table.apply(k, change) {
        Ok(()) => Told::Made,
        Err(fault) => Told::NotChanged(fault),
    }
}

fn admitted(table: &mut Table, k: ShardId, server: ServerId) -> Told {
    if k.index() >= table.count() {
        return Told::Uncalled;
    }
    match table.admit(k, server, Mode::Direct) {
        Ok(()) => Told::Made,
        Err(fault) => Told::NotAdmitted(fault),
    }
}

fn done(table: &mut Table, k: ShardId) -> Told {
    if k.index() >= table.count() || !table.record(k).admitted {
        return Told::Uncalled;
    }
    table.done(k);
    Told::Made
}

fn seen(table: &Table, k: ShardId) -> Told {
    if k.index() >= table.count() {
        return Told::Uncalled;
    }
    Told::Seen(table.record(k))
}

fn answer_of(table: &mut Table, call: Call) -> Told {
    match call {
        Call::Apply(k, change) => applied(table, k, change),
        Call::Admit(k, server) => admitted(table, k, server),
        Call::Done(k) => done(table, k),
        Call::Record(k) => seen(table, k),
    }
}

fn serving(owner: ServerId, admitted: bool, generation: u64) -> Record {
    Record {
        stand: Stand::Serving(owner),
        admitted,
        generation,
    }
}

// Makes the calls, each of which is to be answered so.
fn follow(rt: &impl Abort, table: &mut Table, cases: &[(Call, Told)]) {
    for (call, told) in cases {
        assert!(rt; answer_of(table, *call) == *told);
    }
}

#[test]
fn changes_and_admits_up_to_the_ceiling(rt: HostRuntime) {
    let (one, two) = (ServerId::of(1), ServerId::of(2));
    let k = ShardId::new(0).expect(&rt, "shard 0");
    let unknown = ShardId::new(1).expect(&rt, "shard 1");
    let cases = [
        (
            Call::Apply(unknown, Change::Assign(one)),
            Told::NotChanged(ChangeFault::UnknownShard),
        ),
        (
            Call::Apply(k, Change::Pause),
            Told::NotChanged(ChangeFault::WrongPhase),
        ),
        (Call::Apply(k, Change::Assign(one)), Told::Made),
        (
            Call::Admit(k, two),
            Told::NotAdmitted(AdmitFault::NotExecutor),
        ),
        (Call::Admit(k, one), Told::Made),
        (Call::Done(k), Told::Made),
        (Call::Record(k), Told::Seen(serving(one, false, 3))),
        (
            Call::Apply(k, Change::Pause),
            Told::NotChanged(ChangeFault::Spent(serving(one, false, 3))),
        ),
        (Call::Admit(k, one), Told::NotAdmitted(AdmitFault::Spent)),
    ];
    let mut table = Table::new(rt.alloc(), 1, 3).ok().expect(&rt, "memory");
    follow(&rt, &mut table, &cases);
}

// A table of as many shards as there may be.
fn full_table(rt: &impl Abort, alloc: Global) -> Table {
    let table = Table::new(alloc, MAX_SHARDS, MAX_GENERATION);
    table.ok().expect(rt, "memory")
}

// Makes the changes of the shard.
fn make_all(rt: &impl Abort, table: &mut Table, k: ShardId, changes: &[Change]) {
    for change in changes {
        assert!(rt; applied(table, k, *change) == Told::Made);
    }
}

#[test]
fn reaches_the_last_shard_and_the_last_server(rt: HostRuntime) {
    let (first, last) = (ServerId::of(1), ServerId::of(MAX_SERVER));
    let k = ShardId::new(MAX_SHARD).expect(&rt, "shard 4095");
    let changes = [
        Change::Assign(last),
        Change::Pause,
        Change::Reassign(first),
        Change::PrepareAddShard(last),
        Change::Cancel,
        Change::PrepareAddShard(last),
        Change::PrepareDropShard,
        Change::AddShard,
        Change::DropShard,
        Change::Pause,
        Change::Resume,
    ];
    let cases = [
        (Call::Admit(k, last), Told::Made),
        (Call::Record(k), Told::Seen(serving(last, true, 12))),
        (
            Call::Apply(k, Change::Pause),
            Told::NotChanged(ChangeFault::Busy(serving(last, true, 12))),
        ),
    ];
    let mut table = full_table(&rt, rt.alloc());
    make_all(&rt, &mut table, k, &changes);
    follow(&rt, &mut table, &cases);
}

#[test]
fn table_has_as_many_shards_as_may_be(rt: HostRuntime) {
    assert!(rt; full_table(&rt, rt.alloc()).count() == 4096);
}

#[test]
fn spends_the_greatest_generation(rt: HostRuntime) -> Result<(), Fail> {
    let last = ServerId::of(MAX_SERVER);
    let record = Record {
        stand: Stand::Serving(last),
        admitted: false,
        generation: MAX_GENERATION - 2,
    };
    let admitted = record.admitted(last, Mode::Direct, MAX_GENERATION)?;
    assert!(rt; admitted.generation == 68_719_476_734);
    assert!(rt; admitted.admitted && admitted.generation < MAX_GENERATION);
    let ended = admitted.ended();
    assert!(rt; !ended.admitted && ended.generation == MAX_GENERATION);
    let refused = ended.admitted(last, Mode::Direct, MAX_GENERATION);
    assert!(rt; refused.err() == Some(AdmitFault::Spent));
    let refused = ended.changed(Change::Pause, MAX_GENERATION);
    assert!(rt; refused.err() == Some(ChangeFault::Spent(ended)));
    Ok(())
}

// Server 2 is next of server 1, which serves.
fn prepares_the_next(rt: &impl Abort, one: ServerId, two: ServerId) {
    let serving = Stand::Serving(one);
    let (same, prepare) = (Change::PrepareAddShard(one), Change::PrepareAddShard(two));
    let prepared = Stand::Prepared {
        owner: one,
        next: two,
    };
    assert!(rt; prepare.newly_named() == Some(two) && Change::Pause.newly_named() == None);
    assert!(rt; prepare.apply_to(serving) == Ok(prepared));
    assert!(rt; same.apply_to(serving) == Err(ChangeFault::SameServer));
}

// The next server executes what the owner forwards, below the ceiling.
fn executes_forwarded(rt: &impl Abort, record: &Record, one: ServerId, two: ServerId) {
    let forwarded = Mode::Forwarded(one);
    assert!(rt; record.accepts(two, forwarded) && !record.accepts(two, Mode::Direct));
    assert!(rt; record.admit_fault(two, forwarded, 3) == None);
    assert!(rt; record.admit_fault(two, Mode::Direct, 3) == Some(AdmitFault::NotYet));
    assert!(rt; record.admit_fault(two, forwarded, 2) == Some(AdmitFault::Spent));
}

#[test]
fn executes_what_the_owner_forwards(rt: HostRuntime) {
    let (one, two) = (ServerId::of(1), ServerId::of(2));
    prepares_the_next(&rt, one, two);
    let record = Record {
        stand: Stand::Forwarding {
            owner: one,
            next: two,
        },
        admitted: false,
        generation: 1,
    };
    assert!(rt; record.executor() == Some(two));
    assert!(rt; record.forward_to(one) == Some(two) && record.forward_to(two) == None);
    executes_forwarded(&rt, &record, one, two);
}
