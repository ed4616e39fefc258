//! Commands to a control: the next step of its work, or a random command.
use crate::chance::Chance;
use durkenzo_driver::{ControlCommand, DurableControl, Next, Refused};

/// Returns the store's first settings, with three servers of this capacity. One server at a time may be away. There
/// must be 1 to 15 shards, because each needs a bound of its own.
pub fn settings(shards: u16, capacity: u16) -> String {
    settings_of(shards, capacity, 3, 1)
}

/// Returns settings with `servers` servers of this capacity. Up to `ops` servers at a time may be away. There must be 1
/// to 15 shards.
pub fn settings_of(shards: u16, capacity: u16, servers: u16, ops: u16) -> String {
    let bounds = (b'm'..=b'z').take(usize::from(shards) - 1);
    let bounds: String = bounds
        .map(|it| format!(r#","{}""#, char::from(it)))
        .collect();
    let servers = (1..=servers).map(|it| {
        let domain = it - 1;
        format!(r#"{{"id":{it},"domain":{domain},"capacity":{capacity}}}"#)
    });
    let servers: Vec<_> = servers.collect();
    let shards = vec![r#"{"group":0,"load":1,"cap":1}"#; usize::from(shards)];
    format!(
        concat!(
            r#"{{"version":1,"bounds":[""{}],"servers":[{}],"groups":[{{"limit":9,"down":9}}],"#,
            r#""shards":[{}],"ops":{},"kept":1,"ceiling":100000,"workers":1}}"#
        ),
        bounds,
        servers.join(","),
        shards.join(","),
        ops
    )
}

/// Gives the control a random command. `shards` is the number of shards.
pub fn command(
    control: &mut DurableControl,
    chance: &mut Chance,
    shards: u16,
) -> Result<(), Refused> {
    let shard = chance.below(u64::from(shards)) as u16;
    let server = 1 + chance.below(u64::from(control.servers())) as u16;
    let next = match chance.below(17) {
        0..=7 => control.next_of_shard(shard)?,
        8 | 9 => control.next_of_server(server)?,
        10 => control.next_of_drain(server)?,
        11 => control.next_of_drain(0)?,
        12 => match control.fallen()? {
            Some(fallen) => Next::Command(ControlCommand::Fail(fallen)),
            None => asked(control, chance, shard, server)?,
        },
        13 if !control.state_of(server)?.is_reached() => {
            Next::Command(ControlCommand::Back(server))
        }
        16 => return resettle(control, chance, shards),
        _ => asked(control, chance, shard, server)?,
    };
    match next {
        Next::Command(command) => control.command(command),
        Next::Nothing | Next::Waits => Ok(()),
    }
}

/// Replaces the settings. The new ones may have more capacity or less, a server that no process runs, or allow that two
/// servers are away. The control may refuse them, because a server is in use or because the present state breaks them.
fn resettle(control: &mut DurableControl, chance: &mut Chance, shards: u16) -> Result<(), Refused> {
    let capacity = [shards.div_ceil(2), shards, 9][chance.below(3) as usize];
    let (servers, ops) = (3 + chance.below(2) as u16, 1 + chance.below(2) as u16);
    match control.resettle(&settings_of(shards, capacity, servers, ops)) {
        Err(Refused::InUse(_) | Refused::Unkept) => Ok(()),
        settled => settled,
    }
}

/// Returns a random command about this shard or this server.
fn asked(
    control: &mut DurableControl,
    chance: &mut Chance,
    shard: u16,
    server: u16,
) -> Result<Next, Refused> {
    let record = control.record(shard)?;
    let is_paused = record.is_some_and(|it| it.owner().is_some() && it.executor().is_none());
    let is_moving = record.is_some_and(|it| it.other().is_some());
    Ok(Next::Command(match chance.below(6) {
        0 | 1 if is_paused => ControlCommand::Resume(shard),
        2 if is_paused => ControlCommand::Reassign(shard, server),
        0 if is_moving => ControlCommand::Cancel(shard),
        1 if is_moving => ControlCommand::DropShard(shard),
        0 => ControlCommand::Pause(shard),
        1 | 2 => ControlCommand::Ask(server),
        _ => ControlCommand::PrepareAddShard(shard, server),
    }))
}
