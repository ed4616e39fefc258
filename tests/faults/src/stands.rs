//! Faults of keys, layouts, ownership, books and commands.
use crate::texts::{assert_texts, record};
use sm_desk::CommandFault;
use sm_ownership::{AdmitFault, ChangeFault, RouteFault};
use sm_place::{BooksFault, PlaceFault};
use sm_ranges::{KeyFault, LayoutFault};
use sm_table::WorldFault;
use sm_tasks::RestartFault;

#[test]
fn faults_of_keys_and_layouts_have_texts(rt: HostRuntime) {
    let keys = [
        (KeyFault::Empty, "a key has at least one byte"),
        (KeyFault::TooLong, "a key has at most 255 bytes"),
        (KeyFault::NoMemory, "out of memory"),
    ];
    assert_texts(&rt, rt.alloc(), &keys);
    let rising = LayoutFault::NotRising { at: 2 };
    let long = LayoutFault::KeyTooLong { at: 4095 };
    let layouts = [
        (LayoutFault::Empty, "a layout has at least one bound"),
        (LayoutFault::FirstNotEmpty, "the first bound is not empty"),
        (rising, "bound 2 is not above the one before it"),
        (long, "bound 4095 has more than 255 bytes"),
        (LayoutFault::TooMany, "a layout has at most 4096 bounds"),
        (LayoutFault::NoMemory, "out of memory"),
    ];
    assert_texts(&rt, rt.alloc(), &layouts);
}

#[test]
fn faults_of_ownership_have_texts(rt: HostRuntime) {
    let admissions = [
        (AdmitFault::Vacant, "nobody owns the shard"),
        (AdmitFault::Paused, "the shard is paused"),
        (
            AdmitFault::NotExecutor,
            "another server executes the shard's requests",
        ),
        (
            AdmitFault::NotYet,
            "the server executes only what the owner forwards",
        ),
        (AdmitFault::Admitted, "the shard is admitted"),
        (AdmitFault::Spent, "the shard's generations are spent"),
    ];
    assert_texts(&rt, rt.alloc(), &admissions);
    let changes = [
        (ChangeFault::UnknownShard, "there is no such shard"),
        (
            ChangeFault::WrongPhase,
            "the change doesn't begin from the shard's stand",
        ),
        (
            ChangeFault::SameServer,
            "the change names the shard's owner as its new server",
        ),
        (
            ChangeFault::Spent(record()),
            "the shard's generations are spent",
        ),
        (ChangeFault::Busy(record()), "the shard is admitted"),
    ];
    assert_texts(&rt, rt.alloc(), &changes);
    let routes = [
        (RouteFault::UnknownShard, "there is no such shard"),
        (RouteFault::WrongPhase, "the shard is vacant"),
        (
            RouteFault::OldRoute,
            "the route is not newer than the published one",
        ),
        (RouteFault::NoMemory, "out of memory"),
    ];
    assert_texts(&rt, rt.alloc(), &routes);
}

#[test]
fn faults_of_places_have_texts(rt: HostRuntime) {
    let places = [
        (PlaceFault::Leaving, "the server is leaving"),
        (
            PlaceFault::NoCapacity,
            "the server has no capacity for the shard",
        ),
        (
            PlaceFault::DomainLimit,
            "the shard's group is at its limit in the server's domain",
        ),
    ];
    assert_texts(&rt, rt.alloc(), &places);
    let books = [
        (BooksFault::BadServers, "the servers break their rules"),
        (BooksFault::BadGroups, "the groups break their rules"),
        (BooksFault::BadShards, "the shards break their rules"),
        (BooksFault::BadDomains, "the domains break their rules"),
        (BooksFault::NoMemory, "out of memory"),
    ];
    assert_texts(&rt, rt.alloc(), &books);
}

#[test]
fn faults_of_commands_have_texts(rt: HostRuntime) {
    let raced = CommandFault::Raced {
        read: record(),
        found: record(),
    };
    let commands = [
        (CommandFault::UnknownServer, "there is no such server"),
        (
            CommandFault::Change(ChangeFault::UnknownShard),
            "there is no such shard",
        ),
        (
            CommandFault::Place(PlaceFault::Leaving),
            "the server is leaving",
        ),
        (
            CommandFault::Restart(RestartFault::GroupCap(7)),
            "too many shards of group 7 would be down",
        ),
        (raced, "another thread was first"),
    ];
    assert_texts(&rt, rt.alloc(), &commands);
}

#[test]
fn faults_of_a_world_have_texts(rt: HostRuntime) {
    let steps = [
        (
            WorldFault::Command(CommandFault::UnknownServer),
            "there is no such server",
        ),
        (WorldFault::Admit(AdmitFault::Paused), "the shard is paused"),
        (WorldFault::UnknownShard, "there is no such shard"),
        (WorldFault::UnknownServer, "there is no such server"),
        (WorldFault::Unreachable, "the server isn't reached"),
        (WorldFault::NoEnvelope, "there is no envelope at this place"),
        (WorldFault::NotHeld, "no server has the shard in hand so"),
        (
            WorldFault::OldRoute,
            "the route is not newer than the published one",
        ),
        (WorldFault::WrongPhase, "the shard is vacant"),
        (WorldFault::NoMemory, "out of memory"),
    ];
    assert_texts(&rt, rt.alloc(), &steps);
}
