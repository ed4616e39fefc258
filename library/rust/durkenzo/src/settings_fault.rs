//! Why a line of settings makes no board.
use std::error::Error;
use std::fmt;

// By tools/library-codes, the settings of library/codes.txt:

/// Why a line of settings can't open a board: the first rule that it breaks.
#[derive(Clone, Copy, Debug, PartialEq, Eq)]
#[non_exhaustive]
pub enum SettingsFault {
    /// Fencing tokens begin after a number of at most 9,223,371,968,135,299,072.
    BadAfter,
    /// The line has more than 1,048,576 bytes.
    TooLong,
    /// The line isn't JSON in UTF-8, nests too deep, or has too large a number.
    BadJson,
    /// The value isn't an object whose `version` is the number 1 or 2.
    BadVersion,
    /// A member is missing, unknown or of another type.
    BadShape,
    /// The bounds don't make a layout.
    BadLayout,
    /// The servers break a rule.
    BadServers,
    /// The groups break a rule.
    BadGroups,
    /// The shards break a rule.
    BadShards,
    /// `ops` isn't 0 to 4,095.
    BadOps,
    /// `kept` isn't 1 to 1,048,576.
    BadKept,
    /// `ceiling` isn't 3 to 68,719,476,735.
    BadCeiling,
    /// `workers` isn't 1 to 8.
    BadWorkers,
    /// The domains break a rule.
    BadDomains,
    /// The number of bodies isn't the number of the line's shards.
    BadCount,
    /// Out of memory.
    NoMemory,
    /// The library answered this code, which this version doesn't know.
    Other(u32),
}

impl SettingsFault {
    #[inline]
    pub(crate) fn of(code: u32) -> SettingsFault {
        match code {
            16 => SettingsFault::BadAfter,
            70 => SettingsFault::TooLong,
            71 => SettingsFault::BadJson,
            72 => SettingsFault::BadVersion,
            73 => SettingsFault::BadShape,
            74 => SettingsFault::BadLayout,
            75 => SettingsFault::BadServers,
            76 => SettingsFault::BadGroups,
            77 => SettingsFault::BadShards,
            78 => SettingsFault::BadOps,
            79 => SettingsFault::BadKept,
            80 => SettingsFault::BadCeiling,
            81 => SettingsFault::BadWorkers,
            82 => SettingsFault::BadDomains,
            9 => SettingsFault::BadCount,
            3 => SettingsFault::NoMemory,
            code => SettingsFault::Other(code),
        }
    }
}
// End of them.

impl SettingsFault {
    /// Returns the fault that has this code in the library's other parts, such as the control of a store.
    pub fn of_code(code: u32) -> SettingsFault {
        SettingsFault::of(code)
    }
}

impl fmt::Display for SettingsFault {
    /// Writes the fault's name. Where scripts have the fault, it is the same name as theirs.
    fn fmt(&self, f: &mut fmt::Formatter<'_>) -> fmt::Result {
        fmt::Debug::fmt(self, f)
    }
}

impl Error for SettingsFault {}
