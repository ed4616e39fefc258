//! The numbers of processes. No two processes have the same one.
use crate::{keys, OpenFault};
use durkenzo_store::{Outcome, Revision, Store, Transaction, WriteError};

/// How often it tries again if the outcome isn't known.
const TRIES: usize = 8;

/// Takes the next number of a process.
pub(crate) fn begin(store: &dyn Store) -> Result<u64, OpenFault> {
    let mut left = TRIES;
    loop {
        let reading = store.read(&[keys::PROCESS])?;
        let (last, revision) = match reading.get(keys::PROCESS) {
            None => (0, Revision::NEVER),
            Some(pair) => (number_of(&pair.value)?, pair.revision),
        };
        let next = last + 1;
        let transaction = Transaction::new()
            .compare(keys::PROCESS, revision)
            .put(keys::PROCESS, next.to_string())
            .with_kept_room();
        match store.make(transaction) {
            Ok(Outcome::Made(_)) => return Ok(next),
            Ok(Outcome::Lost(_)) => {}
            // The number may be taken. If it is, nobody has it.
            Err(WriteError::Unknown(_)) if left > 0 => left -= 1,
            Err(error) => return Err(error.into()),
        }
    }
}

fn number_of(value: &[u8]) -> Result<u64, OpenFault> {
    let number = std::str::from_utf8(value)
        .ok()
        .and_then(|it| it.parse().ok());
    number
        .filter(|it| *it < 1 << 40)
        .ok_or(OpenFault::BadProcess)
}
