use crate::Machine;
use thiserror::Error;

/// Why a machine doesn't keep what a [`Machine`] promises.
#[derive(Clone, Debug, PartialEq, Eq, Error)]
pub enum MachineFault {
    /// Two machines answered the request at this place differently.
    #[error(
        "two machines that have made the same requests answer the one at place {0} differently"
    )]
    Answers(u64),
    /// After so many requests their snapshots differ.
    #[error("after {0} requests the snapshots of two machines differ: write maps in the order of their keys")]
    Snapshots(u64),
    /// After so many requests a machine didn't write itself, or wasn't read again, for this reason.
    #[error("after {0} requests the machine isn't read from its snapshot: {1}")]
    Restored(u64, String),
}

/// Checks by these requests whether the machine is deterministic, and whether it is the same once it is read from its
/// snapshot: after 1, 2, 4, 8 requests and so on, and after the last one. Tests of a service call this with requests of
/// each kind.
///
/// # Errors
///
/// The first fault that was found.
pub fn check_machine<M: Machine>(requests: &[Vec<u8>]) -> Result<(), MachineFault> {
    let (mut first, mut second) = (M::default(), M::default());
    for (place, request) in (0..).zip(requests) {
        if first.apply(place, request) != second.apply(place, request) {
            return Err(MachineFault::Answers(place));
        }
        let made = place + 1;
        if made.is_power_of_two() || made == requests.len() as u64 {
            let snapshot = written(&first, made)?;
            if snapshot != written(&second, made)? {
                return Err(MachineFault::Snapshots(made));
            }
            second = M::restore(&mut snapshot.as_slice())
                .map_err(|why| MachineFault::Restored(made, why.to_string()))?;
            if snapshot != written(&second, made)? {
                return Err(MachineFault::Snapshots(made));
            }
        }
    }
    Ok(())
}

fn written<M: Machine>(machine: &M, made: u64) -> Result<Vec<u8>, MachineFault> {
    let mut bytes = Vec::new();
    let written = machine.snapshot(&mut bytes);
    written.map_err(|why| MachineFault::Restored(made, why.to_string()))?;
    Ok(bytes)
}
