//! Faults of what the library for other languages is made of.
use crate::texts::assert_texts;
use sm_desk::CommandFault;
use sm_foreign::{Chief, Fence, Foreign, ForeignChief, ForeignPass, OpenFault, PassFault};
use sm_handle::{ActFault, CutFault, PublishFault, SettingsOpenFault};
use sm_ownership::Mode;
use sm_ownership::route_fault::RouteFault;
use sm_place::BooksFault;
use sm_ranges::{LayoutFault, ServerId, ShardId};
use sm_rule::{MakeFault, ToldRefusal};
use sm_server::CheckpointFault;
use sm_settings::SettingsFault;
use std::process::Abort;
use std::test::Fail;

#[test]
fn faults_of_opening_have_texts(rt: HostRuntime) {
    let opened = [
        (
            OpenFault::Board(MakeFault::NoShard),
            "a board has at least one shard",
        ),
        (
            OpenFault::Books(BooksFault::BadGroups),
            "the groups break their rules",
        ),
        (
            OpenFault::Bodies,
            "the number of bodies isn't the number of shards in the settings",
        ),
        (OpenFault::Servers, "a board has at most 4,095 servers"),
        (
            OpenFault::Restarts,
            "a board has at most 4,095 restarts at once",
        ),
        (OpenFault::NoMemory, "out of memory"),
    ];
    assert_texts(&rt, rt.alloc(), &opened);
    let of_settings = [
        (
            SettingsOpenFault::Settings(SettingsFault::BadJson),
            "the settings are refused: BadJson",
        ),
        (
            SettingsOpenFault::Open(OpenFault::NoMemory),
            "out of memory",
        ),
    ];
    assert_texts(&rt, rt.alloc(), &of_settings);
    let cut = [
        (CutFault::Outside, "a part isn't within the text"),
        (
            CutFault::Layout(LayoutFault::FirstNotEmpty),
            "the first bound is not empty",
        ),
    ];
    assert_texts(&rt, rt.alloc(), &cut);
}

#[test]
fn faults_of_acts_have_texts(rt: HostRuntime) {
    let acts = [
        (
            ActFault::WrongHandle,
            "the handle keeps nothing that the call is for",
        ),
        (ActFault::UnknownShard, "there is no such shard"),
        (ActFault::UnknownServer, "there is no such server"),
        (ActFault::NoMemory, "out of memory"),
        (
            ActFault::TooShort,
            "what would be written is longer than the room for it",
        ),
        (
            ActFault::NotSent,
            "no envelope has this mode with this many hops",
        ),
        (
            ActFault::NoMore,
            "the plan has no such line, or the reply no such pair",
        ),
        (
            ActFault::Checkpoint(CheckpointFault::NoMemory),
            "out of memory",
        ),
        (
            ActFault::Command(CommandFault::UnknownServer),
            "there is no such server",
        ),
    ];
    assert_texts(&rt, rt.alloc(), &acts);
    let passes = [
        (PassFault::UnknownServer, "the board has no such server"),
        (PassFault::NoMemory, "out of memory"),
    ];
    assert_texts(&rt, rt.alloc(), &passes);
}

#[test]
fn faults_of_publishing_have_texts(rt: HostRuntime) {
    let publishing = [
        (PublishFault::WrongHandle, "the handle keeps no publisher"),
        (
            PublishFault::Refused(RouteFault::OldRoute),
            "the route is not newer than the published one",
        ),
    ];
    assert_texts(&rt, rt.alloc(), &publishing);
}

// The refusal of who asks to be admitted to the first shard.
fn refusal(rt: &impl Abort, pass: &mut ForeignPass) -> Option<ToldRefusal> {
    let first = ShardId::new(0).expect(rt, "a shard");
    assert!(*rt; pass.held.is_free() && (first.number() as u32) < pass.held.count());
    pass.held.admit(first, Mode::Direct).err()
}

#[test]
fn told_refusals_have_texts(rt: HostRuntime) -> Result<(), Fail> {
    let (alloc, one) = (rt.alloc(), ServerId::of(1));
    let bodies = Foreign::all(alloc, &[70, 80])?;
    let Ok(held) = Chief::make(alloc, bodies, 2, 1, 100) else {
        return Err("no board".into());
    };
    let fence = Fence::first();
    let chief = ForeignChief { held, fence };
    let mut pass = chief.pass(Some(one))?;
    let (told, other) = (refusal(&rt, &mut pass), refusal(&rt, &mut pass));
    let told = told.ok_or("admitted")?;
    let shown = format!(in alloc; "{told:?}")?;
    assert!(rt; shown.as_str().starts_with("Refused(Vacant, "));
    assert_texts(&rt, alloc, &[(told, "nobody owns the shard")]);
    let act = ActFault::Admit(other.ok_or("admitted")?);
    assert_texts(&rt, alloc, &[(act, "nobody owns the shard")]);
    Ok(())
}
