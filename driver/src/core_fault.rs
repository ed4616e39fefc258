use durkenzo_store_sys::Code;
use std::error::Error;
use std::fmt;

/// Why a call on the proved control failed.
#[derive(Clone, Copy, Debug, PartialEq, Eq)]
pub(crate) struct CoreFault(pub(crate) Code);

impl From<Code> for CoreFault {
    fn from(code: Code) -> CoreFault {
        CoreFault(code)
    }
}

impl fmt::Display for CoreFault {
    fn fmt(&self, f: &mut fmt::Formatter<'_>) -> fmt::Result {
        self.0.fmt(f)
    }
}

impl Error for CoreFault {}
