//! Faults of lines, settings, runs and scripts. A script's `fault NAME` and `error NAME` are such texts.
use crate::texts::assert_texts;
use sm_desk::CommandFault;
use sm_lines::{AnswerFault, BeginFault, ReadFault, RunFault, WriteFault};
use sm_ownership::AdmitFault;
use sm_script::{LineFault, ParseFault, Refused};
use sm_settings::SettingsFault;

#[test]
fn faults_of_lines_have_texts(rt: HostRuntime) {
    let answered = [
        (AnswerFault::Read, "Read"),
        (AnswerFault::Write, "Write"),
        (AnswerFault::NoMemory, "NoMemory"),
    ];
    assert_texts(&rt, rt.alloc(), &answered);
    let read = [
        (
            ReadFault::Read,
            "the reader failed, or was called as often as it may be",
        ),
        (ReadFault::NoMemory, "out of memory"),
    ];
    assert_texts(&rt, rt.alloc(), &read);
    let written = [(WriteFault, "the writer failed, or took none of the bytes")];
    assert_texts(&rt, rt.alloc(), &written);
}

#[test]
fn faults_of_runs_have_texts(rt: HostRuntime) {
    let ended = [
        (RunFault::Read, "Read"),
        (RunFault::Write, "Write"),
        (RunFault::NoMemory, "NoMemory"),
        (RunFault::NoThread, "NoThread"),
    ];
    assert_texts(&rt, rt.alloc(), &ended);
    let begun = [
        (
            BeginFault::Settings(SettingsFault::BadOps),
            "the settings are refused: BadOps",
        ),
        (BeginFault::NoMemory, "out of memory"),
        (BeginFault::NoThread, "no thread was to be had"),
    ];
    assert_texts(&rt, rt.alloc(), &begun);
}

#[test]
fn faults_of_settings_have_texts(rt: HostRuntime) {
    let settings = [
        (SettingsFault::TooLong, "TooLong"),
        (SettingsFault::BadJson, "BadJson"),
        (SettingsFault::BadVersion, "BadVersion"),
        (SettingsFault::BadShape, "BadShape"),
        (SettingsFault::BadLayout, "BadLayout"),
        (SettingsFault::BadServers, "BadServers"),
        (SettingsFault::BadGroups, "BadGroups"),
        (SettingsFault::BadShards, "BadShards"),
        (SettingsFault::BadOps, "BadOps"),
        (SettingsFault::BadKept, "BadKept"),
        (SettingsFault::BadCeiling, "BadCeiling"),
        (SettingsFault::BadWorkers, "BadWorkers"),
        (SettingsFault::BadDomains, "BadDomains"),
        (SettingsFault::TooManyWorkers, "TooManyWorkers"),
        (SettingsFault::NoMemory, "NoMemory"),
    ];
    assert_texts(&rt, rt.alloc(), &settings);
}

#[test]
fn faults_of_scripts_have_texts(rt: HostRuntime) {
    let lines = [
        (LineFault::LineTooLong, "LineTooLong"),
        (LineFault::UnknownWord, "UnknownWord"),
        (LineFault::BadLine, "BadLine"),
        (LineFault::BadNumber, "BadNumber"),
        (LineFault::BadKey, "BadKey"),
        (LineFault::NotHere, "NotHere"),
    ];
    assert_texts(&rt, rt.alloc(), &lines);
    let parsed = [
        (ParseFault::Line(LineFault::BadKey), "BadKey"),
        (ParseFault::NoMemory, "out of memory"),
    ];
    assert_texts(&rt, rt.alloc(), &parsed);
}

#[test]
fn refusals_of_scripts_have_texts(rt: HostRuntime) {
    let refused = [
        (Refused::UnknownShard, "there is no such shard"),
        (Refused::UnknownServer, "there is no such server"),
        (Refused::Unreachable, "the server isn't reached"),
        (
            Refused::NotHeld,
            "no server holds the shard without a request",
        ),
        (
            Refused::OldRoute,
            "the route is not newer than the published one",
        ),
        (Refused::WrongPhase, "the shard is vacant"),
        (Refused::NoRoute, "no route is known"),
        (Refused::WrongShard, "the request is not for this shard"),
        (Refused::Raced, "another thread was first"),
        (Refused::Closed, "no reply will come"),
        (
            Refused::Command(CommandFault::UnknownServer),
            "there is no such server",
        ),
        (Refused::Admit(AdmitFault::Vacant), "nobody owns the shard"),
        (Refused::TooManyHops, "the request was forwarded too often"),
        (
            Refused::KeptFull,
            "the shard keeps as many requests as it may",
        ),
    ];
    assert_texts(&rt, rt.alloc(), &refused);
}
