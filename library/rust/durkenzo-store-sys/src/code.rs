use std::error::Error;
use std::fmt;

/// The code of a call that failed. `library/codes.txt` explains each code.
#[derive(Clone, Copy, Debug, PartialEq, Eq)]
pub struct Code(pub u32);

// By tools/library-codes, the codes of library/codes.txt:

impl Code {
    /// The handle keeps no server.
    pub const WRONG_HANDLE: Code = Code(1);
    /// A server is out of range.
    pub const BAD_ARGUMENT: Code = Code(2);
    /// Out of memory.
    pub const NO_MEMORY: Code = Code(3);
    /// There is no such shard.
    pub const UNKNOWN_SHARD: Code = Code(10);
    /// What would be written is longer than the room for it.
    pub const TOO_SHORT: Code = Code(55);
    /// There is no such answer or part.
    pub const NO_MORE: Code = Code(56);
    /// The request waits for the next transaction, or is in one.
    pub const WAITS: Code = Code(70);
    /// A later request of its client was made, so this one won't be made.
    pub const PASSED: Code = Code(71);
    /// Another server executes the request.
    pub const FORWARDS: Code = Code(72);
    /// It isn't executed here now, or its client waits with another number, or will be forgotten.
    pub const REFUSED: Code = Code(73);
    /// The request takes more bytes than a batch may have.
    pub const REQUEST_TOO_LARGE: Code = Code(74);
    /// As many requests wait as allowed.
    pub const CROWDED: Code = Code(75);
    /// Another server executes the request, but it may not be forwarded again.
    pub const TOO_FAR: Code = Code(76);
    /// The server has forgotten its client, so the request won't be made any more.
    pub const FORGOTTEN: Code = Code(77);
    /// As many clients are kept as allowed, and its client isn't among them.
    pub const TOO_MANY_CLIENTS: Code = Code(78);
    /// The server hasn't read the shard.
    pub const NOT_READ: Code = Code(79);
    /// The server has read nothing yet.
    pub const UNREAD: Code = Code(80);
    /// What lies at a key is wrong.
    pub const BAD_BYTES: Code = Code(81);
    /// The log can't be followed.
    pub const BAD_LOG: Code = Code(82);
    /// A batch, or a part of the base, is missing: the log must be read again.
    pub const MISSING: Code = Code(83);
    /// A batch or a part has too many bytes.
    pub const TOO_LARGE: Code = Code(84);
    /// The change doesn't begin from the shard's stand.
    pub const DIRECTOR_WRONG_PHASE: Code = Code(11);
    /// The server owns the shard.
    pub const DIRECTOR_SAME_SERVER: Code = Code(12);
    /// The shard's generations are spent.
    pub const DIRECTOR_CHANGE_SPENT: Code = Code(13);
    /// The record has an admission, or has changed: it must be read again.
    pub const DIRECTOR_BUSY: Code = Code(14);
    /// There is no such server.
    pub const DIRECTOR_UNKNOWN_SERVER: Code = Code(30);
    /// The server is leaving.
    pub const DIRECTOR_LEAVING: Code = Code(31);
    /// The server has no room.
    pub const DIRECTOR_NO_CAPACITY: Code = Code(32);
    /// The server's domain has as many shards of the group as its limit allows.
    pub const DIRECTOR_DOMAIN_LIMIT: Code = Code(33);
    /// The server isn't up.
    pub const DIRECTOR_NOT_UP: Code = Code(40);
    /// No restart of the server is asked for.
    pub const DIRECTOR_NOT_ASKED: Code = Code(41);
    /// Too many servers would be leaving.
    pub const DIRECTOR_GLOBAL_CAP: Code = Code(42);
    /// A shard may not be down.
    pub const DIRECTOR_SHARD_CAP: Code = Code(43);
    /// Too many shards of a group would be down.
    pub const DIRECTOR_GROUP_CAP: Code = Code(44);
    /// Too many servers of a domain would be down.
    pub const DIRECTOR_DOMAIN_CAP: Code = Code(45);
    /// The server's restart isn't approved.
    pub const DIRECTOR_NOT_APPROVED: Code = Code(46);
    /// A shard that names the server isn't paused.
    pub const DIRECTOR_STILL_SERVING: Code = Code(47);
    /// The server is up already.
    pub const DIRECTOR_ALREADY_UP: Code = Code(48);
    /// The server has failed already.
    pub const DIRECTOR_ALREADY_FAILED: Code = Code(49);
    /// Nothing was read yet, or all is to be read again.
    pub const DIRECTOR_UNREAD: Code = Code(90);
    /// A command was sent, and its outcome isn't known yet.
    pub const DIRECTOR_UNDER_WAY: Code = Code(91);
    /// No command was sent.
    pub const DIRECTOR_NOT_SENT: Code = Code(92);
    /// What lies at a key is wrong.
    pub const DIRECTOR_BAD_BYTES: Code = Code(93);
    /// No commands lead to the records and states that were read.
    pub const DIRECTOR_UNREACHED: Code = Code(94);
    /// The records or states, or their number, differ from those that commands lead to.
    pub const DIRECTOR_DIFFERENT: Code = Code(95);
    /// A follower hasn't read that the shard is taken.
    pub const DIRECTOR_NOT_FOLLOWED: Code = Code(96);
    /// A server that the command waits for hasn't acked the shard's record.
    pub const DIRECTOR_NOT_ACKED: Code = Code(97);
    /// The server's process is the one that was stopped, or isn't known.
    pub const DIRECTOR_EARLIER_PROCESS: Code = Code(98);
    /// The two directors didn't read the same records and states.
    pub const DIRECTOR_READ_APART: Code = Code(99);
    /// The new settings have other shards.
    pub const DIRECTOR_OTHER_SHARDS: Code = Code(100);
    /// The new settings have another ceiling.
    pub const DIRECTOR_OTHER_CEILING: Code = Code(101);
    /// A server without a row in the new settings has neither stopped nor failed.
    pub const DIRECTOR_IN_USE: Code = Code(102);
    /// No record has the word.
    pub const PERMIT_BAD_WORD: Code = Code(4);
    /// The first of the control's codes of a line of settings.
    pub const FIRST_OF_SETTINGS: Code = Code(70);
    /// The last of them.
    pub const LAST_OF_SETTINGS: Code = Code(83);
}
// End of them.

impl Code {
    /// Returns whether the code is the control's for a line of settings that breaks a rule.
    pub fn is_of_settings(self) -> bool {
        (Code::FIRST_OF_SETTINGS.0..=Code::LAST_OF_SETTINGS.0).contains(&self.0)
    }

    /// Returns no error if a call answered 0.
    pub(crate) fn judged(code: u32) -> Result<(), Code> {
        match code {
            0 => Ok(()),
            code => Err(Code(code)),
        }
    }
}

impl fmt::Display for Code {
    fn fmt(&self, f: &mut fmt::Formatter<'_>) -> fmt::Result {
        match *self {
            Code::NO_MEMORY => f.write_str("out of memory"),
            Code::BAD_BYTES => f.write_str("what lies at a key of it is wrong"),
            Code::BAD_LOG => f.write_str("its log can't be followed"),
            Code::MISSING => f.write_str("a batch of its log, or a part of its base, isn't there"),
            Code(other) => write!(f, "the proved library answered code {other}"),
        }
    }
}

impl Error for Code {}
