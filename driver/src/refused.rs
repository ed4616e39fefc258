use crate::core_fault::CoreFault;
use crate::{CommandFault, OpenFault};
use durkenzo::SettingsFault;
use durkenzo_store::{ReadError, WriteError};
use durkenzo_store_sys::Code;
use thiserror::Error;

/// Why the control doesn't make a command.
#[derive(Debug, Error)]
pub enum Refused {
    /// The proved control refuses it.
    #[error("the control refuses it: {0}")]
    Judged(CommandFault),
    /// The store's content isn't a result of commands.
    #[error("what lies in the store is wrong: {0}")]
    Damaged(String),
    /// The store has other settings.
    #[error("the store is of other settings")]
    OtherSettings,
    /// The new settings break a rule.
    #[error("the settings break a rule: {0}")]
    BadSettings(SettingsFault),
    /// The new settings have other shards. Their number and bounds must stay.
    #[error("the number and the bounds of shards stay as they are")]
    OtherShards,
    /// The new settings have another ceiling of generations, which must stay.
    #[error("the ceiling stays as it is")]
    OtherCeiling,
    /// The new settings lack this server, which has neither stopped nor failed.
    #[error("server {0} is in use: drain it, and end its process, before it is taken out")]
    InUse(u16),
    /// A shard is at a server that the new settings lack, or exceeds their limits, or they allow fewer servers to be
    /// away than are.
    #[error("shards and servers stand beyond what these settings allow: move shards, or wait for restarts")]
    Unkept,
    /// Another process leads.
    #[error("another process leads")]
    NotLeader,
    /// This server hasn't failed, because its key is there, under its lease.
    #[error("server {0} is there, under its lease")]
    StillThere(u16),
    /// The store can't be read.
    #[error("{0}")]
    Read(#[from] ReadError),
    /// The store doesn't make it.
    #[error("{0}")]
    Write(#[from] WriteError),
}

impl From<OpenFault> for Refused {
    fn from(fault: OpenFault) -> Refused {
        match fault {
            OpenFault::Read(error) => Refused::Read(error),
            OpenFault::Write(error) => Refused::Write(error),
            OpenFault::BadProcess | OpenFault::Thread(_) => Refused::Damaged(fault.to_string()),
        }
    }
}

impl Refused {
    pub(crate) fn of(fault: CoreFault) -> Refused {
        match fault.0 {
            code if code.is_of_settings() => Refused::OtherSettings,
            Code::DIRECTOR_BAD_BYTES | Code::DIRECTOR_UNREACHED | Code::DIRECTOR_DIFFERENT => {
                Refused::Damaged("records and states don't go together".to_owned())
            }
            code => match CommandFault::of(code.0) {
                CommandFault::Other(code) => {
                    Refused::Damaged(format!("the proved control answered code {code}"))
                }
                fault => Refused::Judged(fault),
            },
        }
    }

    /// Returns the fault that the outcome isn't known, though the command was tried again.
    pub(crate) fn in_vain() -> Refused {
        let why = "it was sent as often as may be";
        WriteError::Unknown(why.to_owned()).into()
    }
}

#[cfg(test)]
mod tests {
    use super::*;

    #[test]
    fn a_refusal_is_told_by_its_reason() {
        let told = |code| Refused::of(CoreFault(code)).to_string();
        assert_eq!(
            told(Code::DIRECTOR_SAME_SERVER),
            "the control refuses it: the server owns the shard"
        );
        let unread = "the control refuses it: a follower hasn't read that the shard is taken";
        assert_eq!(told(Code::DIRECTOR_NOT_FOLLOWED), unread);
        for code in [Code::FIRST_OF_SETTINGS, Code::LAST_OF_SETTINGS] {
            assert_eq!(told(code), "the store is of other settings");
        }
        let apart = "what lies in the store is wrong: records and states don't go together";
        assert_eq!(told(Code::DIRECTOR_DIFFERENT), apart);
        // No command is refused with these codes.
        for code in [3, 15, 27, 50, 92] {
            let wrong =
                format!("what lies in the store is wrong: the proved control answered code {code}");
            assert_eq!(told(Code(code)), wrong);
        }
    }
}
