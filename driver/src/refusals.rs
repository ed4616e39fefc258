//! The texts about the control's refusals, by the names that scripts and `SM` have for them.

/// Returns why the control refuses with this name. Returns `None` if there is no such refusal.
pub fn sentence_of(name: &str) -> Option<&'static str> {
    row(name).map(|it| it.0)
}

/// Returns the advice about a refusal with this name, for `SM`, if the command named this server. Returns `None` if
/// there is no such refusal.
pub fn advice_on(name: &str, server: u16) -> Option<String> {
    row(name).map(|it| it.1.replace("{A}", &server.to_string()))
}

// By tools/library-codes, the advice of library/refusals.txt:
/// The names of the refusals.
pub const NAMES: [&str; 20] = [
    "UnknownShard",
    "UnknownServer",
    "WrongPhase",
    "SameServer",
    "Spent",
    "Busy",
    "Leaving",
    "NoCapacity",
    "DomainLimit",
    "NotUp",
    "NotAsked",
    "GlobalCap",
    "ShardCap",
    "GroupCap",
    "DomainCap",
    "NotApproved",
    "StillServing",
    "AlreadyUp",
    "AlreadyFailed",
    "Raced",
];

#[rustfmt::skip]
fn row(name: &str) -> Option<(&'static str, &'static str)> {
    Some(match name {
        "UnknownShard" => (
            "there is no such shard",
            "SM SHARDS lists them",
        ),
        "UnknownServer" => (
            "there is no such server",
            "SM SERVERS lists them",
        ),
        "WrongPhase" => (
            "the change doesn't begin from the shard's stand",
            "a migration goes PREPARE_ADD k b, PREPARE_DROP k, ADD k, DROP k, and CANCEL k gives \
             it up before ADD; REASSIGN and RESUME begin from Paused, ASSIGN from Vacant",
        ),
        "SameServer" => (
            "the server owns the shard",
            "name another server",
        ),
        "Spent" => (
            "the shard's generations are spent",
            "the shard takes no change any more: start anew with a greater ceiling",
        ),
        "Busy" => (
            "the shard is admitted",
            "try again",
        ),
        "Leaving" => (
            "the server is leaving",
            "name another server, or SM BACK it first",
        ),
        "NoCapacity" => (
            "the server has no room",
            "name another server",
        ),
        "DomainLimit" => (
            "the server's domain has as many shards of the group as its limit allows",
            "name another server",
        ),
        "NotUp" => (
            "the server isn't up",
            "SM BACK {A} first",
        ),
        "NotAsked" => (
            "no restart of the server is asked for",
            "SM ASK {A} first",
        ),
        "GlobalCap" => (
            "too many servers would be leaving",
            "wait until another server is back: SM SERVERS tells which are away",
        ),
        "ShardCap" => (
            "a shard may not be down",
            "move the shard to another server by SM MIGRATE k b",
        ),
        "GroupCap" => (
            "too many shards of a group would be down",
            "wait until another server is back: SM SERVERS tells which are away",
        ),
        "DomainCap" => (
            "too many servers of a domain would be down",
            "wait until another server is back: SM SERVERS tells which are away",
        ),
        "NotApproved" => (
            "the server's restart isn't approved",
            "SM APPROVE {A} first",
        ),
        "StillServing" => (
            "a shard that names the server isn't paused",
            "SM DRAIN {A} moves its shards",
        ),
        "AlreadyUp" => (
            "the server is up already",
            "nothing is to be done",
        ),
        "AlreadyFailed" => (
            "the server has failed already",
            "nothing is to be done",
        ),
        "Raced" => (
            "another thread was first",
            "try again",
        ),
        _ => return None,
    })
}
// End of them.

#[cfg(test)]
mod tests {
    use super::*;
    use crate::CommandFault;

    #[test]
    fn a_refused_command_is_told_by_its_sentence() {
        let mut told = 0;
        for fault in (10..50).map(CommandFault::of) {
            let name = format!("{fault:?}").replace("Change", "");
            // About a record that has changed, the store's control says more.
            if !matches!(fault, CommandFault::Other(_) | CommandFault::Busy) {
                assert_eq!(sentence_of(&name), Some(&*fault.to_string()), "{name}");
                told += 1;
            }
        }
        assert_eq!(told, 18);
    }

    #[test]
    fn advice_names_the_server() {
        let advice = advice_on("NotAsked", 7);
        assert_eq!(advice.as_deref(), Some("SM ASK 7 first"));
        assert_eq!(
            (advice_on("NoName", 7), sentence_of("NoName")),
            (None, None)
        );
    }
}
