//! Any refusal of the library.
use crate::fault::{
    AdmitFault, BuildFault, ChangeFault, CheckpointFault, LayoutFault, MapFault, NoteFault,
    PassFault, PlanFault, PublishFault, RestartFault, RoutesFault, SendFault, ServeFault,
    UnknownShard,
};
use crate::id_fault::IdFault;
use crate::restore_fault::RestoreFault;
use crate::sent::SentFault;
use crate::settings_fault::SettingsFault;
use std::fmt;

/// Makes the error of these faults.
macro_rules! error_of {
    ($($fault:ident => $name:ident,)+) => {
        /// Any refusal of the library, for functions that make several kinds of calls. It shows the words of the
        /// refusal.
        ///
        /// ```
        /// use durkenzo::{Board, Error, Mode, ServerId, ShardId};
        ///
        /// fn count(board: &Board<u64>, shard: u16) -> Result<u64, Error> {
        ///     let mut pass = board.pass(ServerId::FIRST)?;
        ///     let mut count = pass.admit(ShardId::new(shard)?, Mode::Direct)?;
        ///     *count += 1;
        ///     Ok(*count)
        /// }
        ///
        /// let board = Board::builder().build([0])?;
        /// let refused = count(&board, 0).unwrap_err();
        /// assert_eq!(refused.to_string(), "nobody owns the shard");
        /// assert!(!refused.is_transient());
        /// assert!(matches!(count(&board, 4096), Err(Error::Id(_))));
        /// # Ok::<(), Error>(())
        /// ```
        #[derive(Clone, Copy, Debug, PartialEq, Eq)]
        #[non_exhaustive]
        pub enum Error {
            $(
                #[doc = concat!("A [`", stringify!($fault), "`].")]
                $name($fault),
            )+
        }

        $(
            impl From<$fault> for Error {
                fn from(fault: $fault) -> Error {
                    Error::$name(fault)
                }
            }
        )+

        impl fmt::Display for Error {
            fn fmt(&self, f: &mut fmt::Formatter<'_>) -> fmt::Result {
                match self {
                    $(Error::$name(fault) => fault.fmt(f),)+
                }
            }
        }

        impl std::error::Error for Error {
            fn source(&self) -> Option<&(dyn std::error::Error + 'static)> {
                match self {
                    $(Error::$name(fault) => std::error::Error::source(fault),)+
                }
            }
        }
    };
}

error_of! {
    AdmitFault => Admit,
    BuildFault => Build,
    ChangeFault => Change,
    CheckpointFault => Checkpoint,
    IdFault => Id,
    LayoutFault => Layout,
    MapFault => Map,
    NoteFault => Note,
    PassFault => Pass,
    PlanFault => Plan,
    PublishFault => Publish,
    RestartFault => Restart,
    RestoreFault => Restore,
    RoutesFault => Routes,
    SendFault => Send,
    SentFault => Sent,
    ServeFault => Serve,
    SettingsFault => Settings,
    UnknownShard => Shard,
}

impl Error {
    /// Returns whether the same call may succeed if you make it again at once, because another thread had the shard or
    /// was first.
    #[must_use]
    pub fn is_transient(&self) -> bool {
        match self {
            Error::Serve(fault) => fault.is_transient(),
            Error::Admit(fault) | Error::Checkpoint(CheckpointFault::Admit(fault)) => {
                fault.is_transient()
            }
            Error::Change(fault) | Error::Restore(RestoreFault::Change(fault)) => {
                fault.is_transient()
            }
            Error::Checkpoint(_) | Error::Restore(_) => false,
            Error::Build(_) | Error::Settings(_) | Error::Layout(_) | Error::Pass(_) => false,
            Error::Id(_) | Error::Shard(_) | Error::Map(_) | Error::Note(_) => false,
            Error::Plan(_) | Error::Restart(_) | Error::Publish(_) | Error::Routes(_) => false,
            Error::Send(_) | Error::Sent(_) => false,
        }
    }
}
