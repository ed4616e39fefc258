//! Faults of bodies, boards, envelopes, servers and their control.
use crate::texts::{assert_texts, record};
use sm_body::ApplyFault;
use sm_control::DrainFault;
use sm_ownership::AdmitFault;
use sm_rule::{AdmitRefusal, ChangeRefusal, MakeFault};
use sm_server::CheckpointFault;

const KEPT_FULL: &str = "the shard keeps as many requests as it may";

#[test]
fn faults_of_boards_have_texts(rt: HostRuntime) {
    let made = [
        (MakeFault::NoShard, "a board has at least one shard"),
        (MakeFault::TooMany, "a board has at most 4,096 shards"),
        (
            MakeFault::BadCeiling,
            "the ceiling of generations is 3 to 68,719,476,735",
        ),
        (MakeFault::NoMemory, "out of memory"),
    ];
    assert_texts(&rt, rt.alloc(), &made);
    let raced = AdmitRefusal::Raced {
        read: record(),
        found: record(),
    };
    let admitted = [
        (
            AdmitRefusal::Refused(AdmitFault::Vacant, record()),
            "nobody owns the shard",
        ),
        (raced, "another thread was first"),
    ];
    assert_texts(&rt, rt.alloc(), &admitted);
    let raced = ChangeRefusal::Raced {
        read: record(),
        found: record(),
    };
    let changed = [
        (
            ChangeRefusal::Spent(record()),
            "the shard's generations are spent",
        ),
        (ChangeRefusal::Busy(record()), "the shard is admitted"),
        (raced, "another thread was first"),
    ];
    assert_texts(&rt, rt.alloc(), &changed);
}

#[test]
fn faults_of_bodies_have_texts(rt: HostRuntime) {
    let applied = [
        (ApplyFault::KeptFull, KEPT_FULL),
        (ApplyFault::NoMemory, "out of memory"),
    ];
    assert_texts(&rt, rt.alloc(), &applied);
    let busy = AdmitRefusal::Refused(AdmitFault::Admitted, record());
    let based = [
        (CheckpointFault::Admit(busy), "the shard is admitted"),
        (CheckpointFault::NoMemory, "out of memory"),
    ];
    assert_texts(&rt, rt.alloc(), &based);
    let drained = [
        (DrainFault::UnknownServer, "there is no such server"),
        (DrainFault::NoMemory, "out of memory"),
    ];
    assert_texts(&rt, rt.alloc(), &drained);
}

#[test]
fn refusals_of_servers_have_texts(rt: HostRuntime) {
    let hops = "the request was forwarded too often";
    let sent = [
        (sm_envelope::Refusal::TooManyHops, hops),
        (
            sm_envelope::Refusal::Admit(AdmitFault::Paused),
            "the shard is paused",
        ),
        (sm_envelope::Refusal::KeptFull, KEPT_FULL),
        (
            sm_envelope::Refusal::Unreachable,
            "the server isn't reached",
        ),
        (sm_envelope::Refusal::NoMemory, "out of memory"),
    ];
    assert_texts(&rt, rt.alloc(), &sent);
    let spent = AdmitRefusal::Refused(AdmitFault::Spent, record());
    let served = [
        (
            sm_server::Refusal::WrongShard,
            "the request is not for this shard",
        ),
        (sm_server::Refusal::TooManyHops, hops),
        (
            sm_server::Refusal::Admit(spent),
            "the shard's generations are spent",
        ),
        (sm_server::Refusal::KeptFull, KEPT_FULL),
        (sm_server::Refusal::NoMemory, "out of memory"),
    ];
    assert_texts(&rt, rt.alloc(), &served);
}
