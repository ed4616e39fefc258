use super::backend::BackendFault;
use durkenzo::{ChangeFault, PassFault, PlanFault, RestartFault, UnknownShard};
use durkenzo_driver::refusals::advice_on;
use durkenzo_driver::{CommandFault, ControlCommand, Refused, Subject};
use durkenzo_store::{ReadError, WriteError};
use std::error::Error;
use std::fmt;

/// The name of a refusal of a command that may succeed later.
const NOT_NOW: &str = "NotNow";
/// The name of a refusal because another process leads, or none does.
const NOT_LEADER: &str = "NotLeader";
/// The name of a refusal because a server is there that was declared failed.
const STILL_THERE: &str = "StillThere";
/// The name of a refusal because a server's process is still the one that was stopped.
const STILL_STOPPED: &str = "StillStopped";
/// The name of a refusal because a shard has no generations left.
const SPENT: &str = "Spent";
/// The name of a refusal because settings break a rule.
const BAD_SETTINGS: &str = "BadSettings";
/// The most shards that a refusal names.
const MOST_NAMED: usize = 8;

/// Why the control does nothing, and the advice.
#[derive(Clone, Debug, PartialEq, Eq)]
pub struct Refusal {
    /// The name, as in scripts.
    name: String,
    reason: String,
    advice: String,
}

impl Refusal {
    /// Makes a refusal with this name, reason and advice.
    pub fn new(name: &str, reason: impl Into<String>, advice: impl Into<String>) -> Refusal {
        let (name, reason, advice) = (name.into(), reason.into(), advice.into());
        Refusal {
            name,
            reason,
            advice,
        }
    }

    /// Returns the refusal that there is no such word, or that its arguments are wrong. `wanted` is the right form.
    pub fn usage(wanted: Option<&str>) -> Refusal {
        let advice = "SM HELP lists all words";
        let Some(wanted) = wanted else {
            return Refusal::new("UnknownWord", "SM has no such word", advice);
        };
        // Shards, servers, clients and their requests have names of one letter.
        let numbers: Vec<&str> = wanted.split(' ').filter(|it| it.len() == 1).collect();
        let of = match numbers.is_empty() {
            true => String::new(),
            false => format!(", with numbers for {}", numbers.join(" and ")),
        };
        Refusal::new("BadLine", format!("it is written SM {wanted}{of}"), advice)
    }

    /// Returns the refusal that SM has neither such a word nor such a name.
    pub fn no_meaning() -> Refusal {
        let reason = "SM has no such word, and no refusal or error has this name";
        Refusal::new(
            "UnknownWord",
            reason,
            "./sm help NAME knows those of scripts too",
        )
    }

    /// Returns the refusal that the word exists only in this case.
    pub fn there_alone(word: &str, case: &str) -> Refusal {
        let reason = format!("SM {word} exists only {case}");
        Refusal::new("NotThere", reason, "SM HELP lists all words")
    }

    /// Returns the refusal that servers in several processes aren't restarted all at once, because somebody must start
    /// each process again.
    pub fn one_by_one() -> Refusal {
        let reason = "each process of a cluster must be ended and started again by hand";
        let advice = "SM RESTART a, and once that says that server a is stopped end its process and start it again; \
                      then do so with the next one";
        Refusal::new("OneByOne", reason, advice)
    }

    /// Returns the refusal that there is no such server.
    pub fn unknown_server() -> Refusal {
        Refusal::new(
            "UnknownServer",
            "there is no such server",
            "SM SERVERS lists them",
        )
    }

    /// Returns the refusal that the shard isn't at its destination.
    pub fn not_moved(shard: u16, server: u16) -> Refusal {
        let reason = format!(
            "shard {shard} isn't at server {server}: that one failed, or somebody made it stay or go elsewhere"
        );
        let advice = format!("SM LOOK {shard} tells where it is");
        Refusal::new("NotMoved", reason, advice)
    }

    /// Returns the refusal that a shard fits on no other server.
    pub fn no_room(shard: u16) -> Refusal {
        let reason = format!("shard {shard} fits no other server");
        Refusal::new("NoCapacity", reason, "SM BACK a server that is away")
    }

    /// Returns the refusal that too many commands wait for the control.
    pub fn crowded() -> Refusal {
        let reason = "too many commands wait for the control";
        Refusal::new("Crowded", reason, "try again")
    }

    /// Returns the refusal that other work is under way.
    pub fn under_way() -> Refusal {
        let reason = "a migration, a restart, a drain or a dump is under way";
        Refusal::new(
            "UnderWay",
            reason,
            "wait for its end: SM SERVERS shows its progress",
        )
    }

    /// Returns the refusal that no process leads.
    pub fn no_leader() -> Refusal {
        let reason = "no process of the cluster leads for now";
        Refusal::new(NOT_LEADER, reason, "try again")
    }

    /// Returns the refusal that another process leads from now on.
    pub fn led_elsewhere() -> Refusal {
        let reason = "another process leads from now on, and goes on with the work under way";
        Refusal::new(NOT_LEADER, reason, "SM SERVERS shows its progress")
    }

    /// Returns the refusal that the process ends.
    pub fn stopping() -> Refusal {
        Refusal::new("Stopping", "the process ends", "start it again")
    }

    /// Returns why a shard isn't changed, with its state, if it is known.
    fn of_change(fault: ChangeFault, stands: Option<&str>) -> Refusal {
        let stands = stands.map_or(String::new(), |it| format!("; {it}"));
        let name = name_of(&fault);
        let advice =
            advice_on(&name, 0).unwrap_or_else(|| "SM SHARDS tells how all stand".to_owned());
        Refusal::new(&name, format!("{fault}{stands}"), advice)
    }

    /// Returns the refusal that the word exists only in memory mode.
    pub fn not_durable(word: &str) -> Refusal {
        let reason = format!("SM {word} doesn't exist if data outlives the process");
        Refusal::new("NotDurable", reason, "SM HELP lists all words")
    }

    /// Returns why the command isn't made. If it is about a shard, `stands` is a line with its state.
    pub(super) fn of_command(
        fault: &BackendFault,
        command: ControlCommand,
        line: Option<String>,
    ) -> Refusal {
        match (fault, command.subject()) {
            (BackendFault::Refused(refused), Subject::Server(server)) => {
                Refusal::of_refused_step(refused, server)
            }
            (BackendFault::Restart(fault), Subject::Server(server)) => {
                Refusal::of_restart(*fault, server)
            }
            (fault, Subject::Shard(shard)) => {
                let stands = line.map(|it| format!("shard {shard} is {it}"));
                Refusal::of(fault, stands.as_deref())
            }
            (fault, Subject::Server(_)) => Refusal::of(fault, None),
        }
    }

    fn of(fault: &BackendFault, stands: Option<&str>) -> Refusal {
        match fault {
            BackendFault::Change(fault) => Refusal::of_change(*fault, stands),
            BackendFault::Restart(fault) => Refusal::of_restart(*fault, 0),
            BackendFault::Plan(fault) => (*fault).into(),
            BackendFault::Refused(refused) => Refusal::of_refused(refused, stands),
        }
    }

    /// Returns why the proved control doesn't change a shard with this state.
    fn of_refused(refused: &Refused, stands: Option<&str>) -> Refusal {
        match refused {
            Refused::Judged(why) => match why.as_change() {
                Some(fault) => Refusal::of_change(fault, stands),
                // No record was read with it.
                None if *why == CommandFault::ChangeSpent => {
                    let advice = advice_on(SPENT, 0).unwrap_or_default();
                    Refusal::new(SPENT, why.to_string(), advice)
                }
                None => Refusal::for_now(*why),
            },
            other => Refusal::of_store(other),
        }
    }

    /// Returns why the proved control doesn't make a step of the server's restart.
    fn of_refused_step(refused: &Refused, server: u16) -> Refusal {
        match refused {
            Refused::Judged(why) => match why.as_restart() {
                Some(fault) => Refusal::of_restart(fault, server),
                None if *why == CommandFault::EarlierProcess => {
                    let advice = "end the server's process, and start it again";
                    Refusal::new(STILL_STOPPED, why.to_string(), advice)
                }
                None => Refusal::for_now(*why),
            },
            other => Refusal::of_store(other),
        }
    }

    /// Returns the refusal for a reason of the store's control that may pass.
    fn for_now(why: CommandFault) -> Refusal {
        let (reason, advice) = match why {
            CommandFault::NotFollowed => (
                "a process hasn't read yet that the shard was taken".to_owned(),
                "try again",
            ),
            CommandFault::NotAcked => (
                "the server that executes, or is to be ready, hasn't acked the shard's record yet"
                    .to_owned(),
                "try again; if that server is gone, SM FAIL a",
            ),
            why => (
                format!("the control refuses it for now: {why}"),
                "try again",
            ),
        };
        Refusal::new(NOT_NOW, reason, advice)
    }

    /// Returns the refusal that the settings in force can't be changed to so many servers.
    pub(super) fn not_resized(servers: u16) -> Refusal {
        let reason = match servers {
            0 => "a cluster has at least one server",
            _ => "the settings in force aren't read",
        };
        Refusal::new(BAD_SETTINGS, reason.to_owned(), "SM CONFIGURE tells them")
    }

    /// Returns the refusal that the processes can't adopt other settings than those with which they began.
    pub(super) fn settings_stay() -> Refusal {
        let reason = "its processes keep the settings with which they began".to_owned();
        Refusal::new("NotThere", reason, "start another one with other settings")
    }

    /// Returns the refusal that settings aren't text.
    pub(super) fn not_text() -> Refusal {
        let advice = "docs/SETTINGS.md tells the rule";
        Refusal::new(
            BAD_SETTINGS,
            "settings are a line of JSON".to_owned(),
            advice,
        )
    }

    /// Returns why the store doesn't let the control go on.
    fn of_store(refused: &Refused) -> Refusal {
        let (name, advice) = match refused {
            Refused::Write(WriteError::Full(_)) => {
                ("StoreFull", "make room by SM COMPACT, and in a folder by DEL before")
            }
            Refused::NotLeader => (NOT_LEADER, "ask the other process"),
            Refused::OtherSettings => ("OtherSettings", "look at the log"),
            Refused::BadSettings(_) => (BAD_SETTINGS, "docs/SETTINGS.md tells the rule"),
            Refused::OtherShards | Refused::OtherCeiling => (
                "OtherSettings",
                "take the line that SM CONFIGURE tells, and change servers, capacities and caps in it",
            ),
            Refused::InUse(_) => ("InUse", "SM DRAIN it, and end its process: it has failed once its lease ends"),
            Refused::Unkept => (
                "Unkept",
                "SM SHARDS and SM SERVERS tell how they stand; before a server goes, end its process",
            ),
            Refused::StillThere(_) => (
                STILL_THERE,
                "SM RESTART it, or end its process: it has failed once its lease has ended",
            ),
            Refused::Damaged(_)
            | Refused::Read(ReadError::Damaged(_))
            | Refused::Write(WriteError::Damaged(_)) => ("StoreDamaged", "restore the folder"),
            _ => ("StoreDown", "look at the log"),
        };
        Refusal::new(name, refused.to_string(), advice)
    }

    /// Returns whether it may succeed later, because a process must first read something that is there already.
    pub fn is_for_now(&self) -> bool {
        self.name == NOT_NOW
    }

    /// Returns whether the server's process is the one that was stopped, or none was seen.
    pub(super) fn is_of_process(&self) -> bool {
        self.name == STILL_STOPPED
    }

    /// Returns whether another process leads, so that this one's control makes nothing more.
    pub(super) fn is_of_leader(&self) -> bool {
        self.name == NOT_LEADER
    }

    /// Returns whether a server was declared failed although it is there.
    pub fn is_still_there(&self) -> bool {
        self.name == STILL_THERE
    }

    /// Returns whether the command may succeed at once when it is tried again, because another thread has the shard, or
    /// was first.
    pub fn is_passing(&self) -> bool {
        matches!(&*self.name, "Busy" | "Raced")
    }

    /// Returns whether it may succeed later, whatever the reason is.
    pub(super) fn may_pass(&self) -> bool {
        self.is_of_store() || self.is_passing() || self.is_for_now()
    }

    /// Returns whether the shard's change would be refused each time.
    pub fn is_for_good(&self) -> bool {
        self.name == SPENT
    }

    /// Returns whether the shard doesn't have the stand that the command needs. Another task may have the shard, or may
    /// have moved it.
    pub fn is_of_phase(&self) -> bool {
        matches!(&*self.name, "WrongPhase" | "SameServer" | "NotMoved")
    }

    /// Returns whether the reason is the shard that moves, and surely not the server that was to get it, which may have
    /// failed if the shard wasn't moved (`NotMoved`).
    pub(super) fn is_of_shard(&self) -> bool {
        let is_of_stand = matches!(&*self.name, "WrongPhase" | "SameServer");
        is_of_stand || self.is_passing() || self.is_for_good()
    }

    /// Returns whether the store doesn't let the control go on for now.
    pub fn is_of_store(&self) -> bool {
        matches!(&*self.name, "StoreDown" | "StoreFull")
    }

    /// Returns the refusal of this shard's move, with the shards that are left at the server when its drain ends.
    pub(super) fn with_left(mut self, shard: u16, server: u16, left: &[u16]) -> Refusal {
        let are = match left.len() {
            1 => "shard is",
            _ => "shards are",
        };
        let named: Vec<String> = left.iter().take(MOST_NAMED).map(u16::to_string).collect();
        let more = match left.len().saturating_sub(MOST_NAMED) {
            0 => String::new(),
            more => format!(" and {more} more"),
        };
        let (reason, count, named) = (&self.reason, left.len(), named.join(", "));
        self.reason = format!(
            "shard {shard}: {reason}; {count} {are} left at server {server}: {named}{more}"
        );
        self
    }

    /// Returns why a step of the server's restart isn't made.
    pub fn of_restart(fault: RestartFault, server: u16) -> Refusal {
        let name = name_of(&fault);
        let advice = advice_on(&name, server);
        let advice = advice.unwrap_or_else(|| "SM SERVERS tells how all are".to_owned());
        Refusal::new(&name, fault.to_string(), advice)
    }

    /// If a cap counts servers that have failed, adds these servers, and how they come back: with their processes, or
    /// within this one.
    pub fn of_failed(mut self, failed: &[u16], are_processes: bool) -> Refusal {
        let is_of_caps = matches!(&*self.name, "GlobalCap" | "GroupCap" | "DomainCap");
        let (Some(first), true) = (failed.first(), is_of_caps) else {
            return self;
        };
        let named: Vec<String> = failed.iter().map(u16::to_string).collect();
        let have = match failed.len() {
            1 => format!("server {first} has"),
            _ => format!("servers {} have", named.join(", ")),
        };
        self.reason = format!("{}, because {have} failed", self.reason);
        self.advice = match are_processes {
            true => format!("start the process of server {first} again, and then this"),
            false => format!("SM BACK {first}, and then this again"),
        };
        self
    }
}

impl From<BackendFault> for Refusal {
    fn from(fault: BackendFault) -> Refusal {
        Refusal::of(&fault, None)
    }
}

impl From<PlanFault> for Refusal {
    fn from(fault: PlanFault) -> Refusal {
        let advice = match fault {
            PlanFault::UnknownServer => "SM SERVERS lists them",
            _ => "try again",
        };
        Refusal::new(&name_of(&fault), fault.to_string(), advice)
    }
}

impl From<UnknownShard> for Refusal {
    fn from(fault: UnknownShard) -> Refusal {
        Refusal::new("UnknownShard", fault.to_string(), "SM SHARDS lists them")
    }
}

impl From<PassFault> for Refusal {
    fn from(fault: PassFault) -> Refusal {
        Refusal::new(&name_of(&fault), fault.to_string(), "try again")
    }
}

/// Returns the name of a fault, without the fields that follow it.
fn name_of(fault: &impl fmt::Debug) -> String {
    let shown = format!("{fault:?}");
    shown.split('(').next().unwrap_or_default().to_owned()
}

impl fmt::Display for Refusal {
    fn fmt(&self, f: &mut fmt::Formatter<'_>) -> fmt::Result {
        write!(
            f,
            "REFUSED {}: {}; try: {}",
            self.name, self.reason, self.advice
        )
    }
}

impl Error for Refusal {}

#[cfg(test)]
mod tests {
    use super::*;

    #[test]
    fn the_first_shards_that_are_left_are_named() {
        let told = |left: &[u16]| Refusal::crowded().with_left(7, 2, left).reason;
        let reason = Refusal::crowded().reason;
        assert_eq!(
            told(&[7]),
            format!("shard 7: {reason}; 1 shard is left at server 2: 7")
        );
        let all: Vec<u16> = (0..10).collect();
        let wanted = "; 10 shards are left at server 2: 0, 1, 2, 3, 4, 5, 6, 7 and 2 more";
        assert_eq!(told(&all), format!("shard 7: {reason}{wanted}"));
    }

    #[test]
    fn who_has_failed_is_named_where_a_cap_counts_him() {
        let of = |fault, failed: &[u16]| Refusal::of_restart(fault, 1).of_failed(failed, true);
        let told = of(RestartFault::GlobalCap, &[2]).to_string();
        assert_eq!(
            told,
            "REFUSED GlobalCap: too many servers would be leaving, because server 2 has failed; \
             try: start the process of server 2 again, and then this"
        );
        let told = of(RestartFault::DomainCap, &[2, 4]).to_string();
        assert!(
            told.contains("because servers 2, 4 have failed; "),
            "{told}"
        );
        let without = Refusal::of_restart(RestartFault::GlobalCap, 1);
        assert_eq!(of(RestartFault::GlobalCap, &[]), without);
        let without = Refusal::of_restart(RestartFault::ShardCap, 1);
        assert_eq!(of(RestartFault::ShardCap, &[2]), without);
    }

    #[test]
    fn a_stopped_process_is_to_end_before_its_server_is_up() {
        let earlier = Refused::Judged(CommandFault::EarlierProcess);
        assert_eq!(
            Refusal::of_refused_step(&earlier, 1).to_string(),
            "REFUSED StillStopped: the server's process is the one that was stopped, or isn't known; \
             try: end the server's process, and start it again"
        );
    }

    #[test]
    fn what_a_process_has_not_read_is_refused_for_now_alone() {
        let of = |why| Refusal::of_refused(&Refused::Judged(why), None);
        let unread = of(CommandFault::NotFollowed);
        assert!(unread.is_for_now() && !of(CommandFault::WrongPhase).is_for_now());
        assert_eq!(
            unread.to_string(),
            "REFUSED NotNow: a process hasn't read yet that the shard was taken; try: try again"
        );
        let gone = of(CommandFault::NotAcked);
        assert!(gone.is_for_now() && gone.advice.ends_with("SM FAIL a"));
        let wrong = of(CommandFault::WrongPhase).to_string();
        assert!(wrong.starts_with("REFUSED WrongPhase: "));
        let spent = of(CommandFault::ChangeSpent);
        assert_eq!(
            (spent.is_for_now(), &*spent.name, &*spent.advice),
            (
                false,
                "Spent",
                "the shard takes no change any more: start anew with a greater ceiling"
            )
        );
        assert_eq!(
            of(CommandFault::Busy).to_string(),
            "REFUSED NotNow: the control refuses it for now: the record has an admission, or has changed: it must be \
             read again; try: try again"
        );
    }
}
