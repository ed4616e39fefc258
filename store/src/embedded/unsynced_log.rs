use super::disk::FileLength;
use super::tables::TableFailure;
use rusqlite::ffi::SQLITE_IOERR_FSYNC;
use rusqlite::Error;

/// SQLite's log, if SQLite doesn't sync each commit.
///
/// If SQLite moved this log to the tables by itself, it wouldn't tell that a sync failed. So the store moves it, and
/// learns of each failure. After a failed sync the log must not be moved again: the system may have dropped what it
/// couldn't write, and the tables would get other bytes than those that were committed.
pub(super) struct UnsyncedLog {
    length: FileLength,
    /// How many bytes it may have before it goes to the tables.
    most: u64,
    /// Why a sync failed, if one did.
    failure: Option<String>,
}

impl UnsyncedLog {
    /// Makes the log whose length this tells, and which goes to the tables once it has so many bytes.
    pub(super) fn new(length: FileLength, most: u64) -> UnsyncedLog {
        UnsyncedLog {
            length,
            most,
            failure: None,
        }
    }

    /// Returns whether the log must go to the tables now. It must if its length isn't known.
    pub(super) fn is_long(&self) -> bool {
        (self.length)().map_or(true, |it| it >= self.most)
    }

    /// Notes the result of a move to the tables.
    pub(super) fn note(&mut self, moved: &Result<(), Error>) {
        if let Err(error) = moved {
            if is_sync_failure(error) {
                self.failure = Some(error.to_string());
            }
        }
    }

    /// Fails if a sync has failed.
    pub(super) fn check(&self) -> Result<(), TableFailure> {
        match &self.failure {
            Some(reason) => Err(TableFailure::Broken(reason.clone())),
            None => Ok(()),
        }
    }
}

fn is_sync_failure(error: &Error) -> bool {
    matches!(error, Error::SqliteFailure(it, _) if it.extended_code == SQLITE_IOERR_FSYNC)
}

#[cfg(test)]
mod tests {
    use super::*;
    use rusqlite::ffi;
    use std::io;

    fn log(length: impl Fn() -> io::Result<u64> + Send + 'static) -> UnsyncedLog {
        UnsyncedLog::new(Box::new(length), 10)
    }

    fn failed(code: i32) -> Result<(), Error> {
        Err(Error::SqliteFailure(ffi::Error::new(code), None))
    }

    #[test]
    fn a_log_is_long_from_its_bound_on_and_if_its_length_isnt_known() {
        assert!(!log(|| Ok(9)).is_long());
        assert!(log(|| Ok(10)).is_long());
        assert!(log(|| Err(io::ErrorKind::Other.into())).is_long());
    }

    #[test]
    fn only_a_failed_sync_makes_a_log_useless() {
        let mut log = log(|| Ok(0));
        for code in [ffi::SQLITE_FULL, ffi::SQLITE_IOERR_READ, ffi::SQLITE_BUSY] {
            log.note(&failed(code));
            assert!(log.check().is_ok(), "{code}");
        }
        log.note(&failed(SQLITE_IOERR_FSYNC));
        log.note(&Ok(()));
        assert!(matches!(log.check(), Err(TableFailure::Broken(_))));
    }
}
