//! Faults of clusters and of the way to a server.
use crate::texts::{assert_texts, record};
use sm_cluster::{AdmitRefusal, CallFault, CallRefused, HoldFault, Refusal, StartFault, StopFault};
use sm_inbox::{SendFault, Unsent};
use sm_ownership::AdmitFault;

#[test]
fn faults_of_calls_have_texts(rt: HostRuntime) {
    let calls = [
        (CallFault::NoRoute, "no route is known"),
        (CallFault::Unreachable, "the server is out of reach"),
        (
            CallFault::Refused(Refusal::WrongShard),
            "the request is not for this shard",
        ),
        (CallFault::NoMemory, "out of memory"),
        (CallFault::Closed, "no reply will come"),
    ];
    assert_texts(&rt, rt.alloc(), &calls);
    let sent = [
        (SendFault::Unreachable, "the server is out of reach"),
        (SendFault::NoMemory, "out of memory"),
    ];
    assert_texts(&rt, rt.alloc(), &sent);
}

// What hands a request back prints only why.
#[test]
fn requests_come_back_with_texts(rt: HostRuntime) {
    let call = CallRefused {
        fault: CallFault::NoRoute,
        back: Some(7_u8),
    };
    let shown = format!(in rt.alloc(); "{call:?}")
        .ok()
        .expect(&rt, "memory");
    assert_eq!(rt; shown.as_str(), "CallRefused { fault: NoRoute, .. }");
    assert_texts(&rt, rt.alloc(), &[(call, "no route is known")]);
    let unsent = Unsent {
        fault: SendFault::Unreachable,
        message: 7_u8,
    };
    let shown = format!(in rt.alloc(); "{unsent:?}")
        .ok()
        .expect(&rt, "memory");
    assert_eq!(rt; shown.as_str(), "Unsent { fault: Unreachable, .. }");
    assert_texts(&rt, rt.alloc(), &[(unsent, "the server is out of reach")]);
}

#[test]
fn faults_of_clusters_have_texts(rt: HostRuntime) {
    let started = [
        (
            StartFault::TooManyWorkers,
            "a cluster has at most 64 workers",
        ),
        (StartFault::NoMemory, "out of memory"),
        (StartFault::NoThread, "no thread was to be had"),
    ];
    assert_texts(&rt, rt.alloc(), &started);
    assert_texts(
        &rt,
        rt.alloc(),
        &[(StopFault::ClientOut, "a client is out")],
    );
    let paused = AdmitRefusal::Refused(AdmitFault::Paused, record());
    let held = [
        (HoldFault::UnknownShard, "there is no such shard"),
        (HoldFault::UnknownServer, "there is no such server"),
        (HoldFault::Admit(paused), "the shard is paused"),
        (HoldFault::NotHeld, "the shard is not held"),
        (HoldFault::NoMemory, "out of memory"),
    ];
    assert_texts(&rt, rt.alloc(), &held);
}
