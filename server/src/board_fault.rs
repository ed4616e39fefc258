//! Why a cluster can't be opened.
use durkenzo::SettingsFault;
use std::error::Error;
use std::fmt;

/// Why there is no board.
#[derive(Clone, Copy, Debug, PartialEq, Eq)]
pub enum BoardFault {
    /// Memory for the shards' contents was refused.
    NoMemory,
    /// The settings aren't accepted.
    Settings(SettingsFault),
}

impl From<SettingsFault> for BoardFault {
    fn from(fault: SettingsFault) -> BoardFault {
        BoardFault::Settings(fault)
    }
}

impl fmt::Display for BoardFault {
    fn fmt(&self, f: &mut fmt::Formatter<'_>) -> fmt::Result {
        match self {
            BoardFault::NoMemory => f.write_str("NoMemory"),
            BoardFault::Settings(fault) => write!(f, "the settings: {fault}"),
        }
    }
}

impl Error for BoardFault {
    fn source(&self) -> Option<&(dyn Error + 'static)> {
        match self {
            BoardFault::NoMemory => None,
            BoardFault::Settings(fault) => Some(fault),
        }
    }
}
