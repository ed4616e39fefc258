//! Faults of what lies in a shared store, and of what is made of it.
use crate::texts::assert_texts;
use sm_codec::{Fault, ReadError};
use sm_desk::CommandFault;
use sm_lead::{LoadFault, ResettleFault};
use sm_ranges::ServerId;
use sm_shard::ReplayFault;

#[test]
fn faults_of_bytes_have_texts(rt: HostRuntime) {
    let bytes = [
        (Fault::Short, "a field passes the end"),
        (Fault::Version, "the first byte is no known version"),
        (Fault::Server, "a server's number isn't 1 to 4,095"),
        (Fault::Word, "no record has the word"),
        (Fault::State, "no state of a server has the number"),
        (Fault::Trailing, "bytes stand after the last field"),
    ];
    assert_texts(&rt, rt.alloc(), &bytes);
    let read = [
        (ReadError::Memory, "out of memory"),
        (ReadError::Fault(Fault::Short), "a field passes the end"),
    ];
    assert_texts(&rt, rt.alloc(), &read);
}

#[test]
fn faults_of_replays_have_texts(rt: HostRuntime) {
    let loaded = [
        (
            LoadFault::Unreached(CommandFault::UnknownServer),
            "no commands lead to what was read: there is no such server",
        ),
        (
            LoadFault::Different,
            "the records or states aren't those to which commands lead",
        ),
    ];
    assert_texts(&rt, rt.alloc(), &loaded);
    let resettled = [
        (
            ResettleFault::Apart,
            "the two controls weren't read by the same records and states",
        ),
        (
            ResettleFault::OtherShards,
            "the settings have another number of shards",
        ),
        (
            ResettleFault::OtherCeiling,
            "the settings have another ceiling",
        ),
        (
            ResettleFault::InUse(ServerId::of(3)),
            "server 3 has neither stopped nor failed, and the settings have no row for it",
        ),
    ];
    assert_texts(&rt, rt.alloc(), &resettled);
    let replayed = [
        (ReplayFault::Memory, "out of memory"),
        (
            ReplayFault::OutOfOrder,
            "a request's number isn't above those of its client, or the client is forgotten",
        ),
        (
            ReplayFault::TooMany,
            "there are as many batches as a head can count",
        ),
        (
            ReplayFault::Missing,
            "a batch, or a part of the base, isn't there",
        ),
        (
            ReplayFault::Unreadable,
            "the bytes of a base stand for no machine",
        ),
        (ReplayFault::UnknownShard, "there is no such shard"),
    ];
    assert_texts(&rt, rt.alloc(), &replayed);
}
