use crate::target::{holds, Target};
use durkenzo::{Board, SettingsFault};
use durkenzo_server::settings::Settings;
use durkenzo_store_sys::Director;

/// The library's names of the codes from 70 on.
const NAMES: [&str; 13] = [
    "TooLong",
    "BadJson",
    "BadVersion",
    "BadShape",
    "BadLayout",
    "BadServers",
    "BadGroups",
    "BadShards",
    "BadOps",
    "BadKept",
    "BadCeiling",
    "BadWorkers",
    "BadDomains",
];
/// Keys whose shards are asked for.
const KEYS: [&[u8]; 5] = [b"", b"a", b"m", b"zebra", b"\xff\x00"];

/// A line of settings, as a board reads it, as a store's control does, and as the server does for itself.
pub struct SettingsLine;

impl Target for SettingsLine {
    fn check(&mut self, input: &[u8]) -> Result<(), String> {
        match Director::of(input, 1, 1) {
            Ok(director) => accepted(input, director),
            Err(code) => {
                let told = code.0.checked_sub(70).and_then(|it| NAMES.get(it as usize));
                let found = Board::by_settings(input, [(); 0]).err();
                let is_same = told.is_some_and(|it| Some(*it) == found.map(name).as_deref());
                holds(is_same, || {
                    format!("the control says {told:?}, a board {found:?}")
                })?;
                Settings::of(&String::from_utf8_lossy(input)).ok();
                Ok(())
            }
        }
    }

    fn words(&self) -> &[&'static [u8]] {
        &[
            b"\"bounds\":[\"\",\"m\"]",
            b"{\"id\":2,\"domain\":1,\"capacity\":1}",
            b"{\"group\":0,\"load\":1,\"cap\":1}",
            b"{\"limit\":2,\"down\":2}",
            b"\"ceiling\":1000",
            b"\"version\":1",
            b"\"domains\":[{\"domain\":0,\"down\":1}]",
            b"\\u0000",
            b"[",
            b"]",
            b"{",
            b"}",
            b",",
            b"\"",
        ]
    }
}

fn name(fault: SettingsFault) -> String {
    format!("{fault:?}")
}

/// If a control accepted settings, the others must accept them too, as the same.
fn accepted(input: &[u8], mut director: Director) -> Result<(), String> {
    let shards = director.shards();
    let opened = Board::by_settings(input, vec![(); usize::from(shards)]);
    let (_, layout) = opened.map_err(|it| format!("a board refuses it: {it}"))?;
    for key in KEYS {
        let shard = director.shard_of(key).map_err(|it| it.to_string())?;
        let found = layout.shard_of(key);
        holds(shard == found.get(), || {
            format!("{key:?} is of {shard} and {found}")
        })?;
    }
    let text = std::str::from_utf8(input).map_err(|it| format!("it is accepted: {it}"))?;
    let settings = match Settings::of(text) {
        Ok(settings) => settings,
        // The server's own are numbered from 1 on.
        Err(fault) => {
            let is_own = fault.to_string().starts_with("BadServers");
            return holds(is_own, || format!("the server refuses it: {fault}"));
        }
    };
    let has = (usize::from(settings.servers()), settings.bounds().len());
    let wanted = (director.servers().len(), usize::from(shards));
    holds(has == wanted, || {
        format!("servers and bounds {has:?} and {wanted:?}")
    })
}
