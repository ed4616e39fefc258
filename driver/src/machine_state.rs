use crate::batch_item::BatchItem;
use crate::opaque_request::OpaqueRequest;
use crate::{Machine, ServerFault};
use std::collections::BTreeMap;
use std::io::{self, Read, Write};
use std::panic::{catch_unwind, AssertUnwindSafe};

/// A user's machine after the requests of a shard that were made, with the last answer of each client.
pub(crate) struct MachineState<M> {
    machine: M,
    /// How many requests were applied, which is the place of the next one.
    applied: u64,
    /// The last request of each client, as the proved server keeps it: its number, and its answer.
    lasts: BTreeMap<u64, (u64, Vec<u8>)>,
    /// The number below which clients are forgotten.
    floor: u64,
}

/// The version of a snapshot's bytes.
const VERSION: u8 = 1;

impl<M: Machine> MachineState<M> {
    /// Makes the state after no request.
    pub(crate) fn new() -> MachineState<M> {
        MachineState {
            machine: M::default(),
            applied: 0,
            lasts: BTreeMap::new(),
            floor: 0,
        }
    }

    /// Returns how many requests were applied.
    pub(crate) fn applied(&self) -> u64 {
        self.applied
    }

    /// Applies the next request. Returns its answer.
    ///
    /// # Errors
    ///
    /// [`ServerFault::Machine`] if the machine panics, [`ServerFault::OtherService`] if another service wrote the
    /// request.
    pub(crate) fn apply(&mut self, item: BatchItem) -> Result<Vec<u8>, ServerFault> {
        let request = OpaqueRequest::written(&item.request).ok_or(ServerFault::OtherService)?;
        let place = self.applied;
        let answer = unpanicked("apply", || self.machine.apply(place, request))?;
        self.applied += 1;
        self.lasts
            .insert(item.client, (item.number, answer.clone()));
        if item.forgets > self.floor {
            self.floor = item.forgets;
            self.lasts = self.lasts.split_off(&self.floor);
        }
        Ok(answer)
    }

    /// Answers a request that only reads.
    ///
    /// # Errors
    ///
    /// As for `apply`.
    pub(crate) fn read(&self, request: &[u8]) -> Result<Vec<u8>, ServerFault> {
        let request = OpaqueRequest::read(request).ok_or(ServerFault::OtherService)?;
        unpanicked("read", || self.machine.read(request))
    }

    /// Returns the answer to the client's last request, if it has this number.
    pub(crate) fn answer_to(&self, client: u64, number: u64) -> Option<Vec<u8>> {
        let (last, answer) = self.lasts.get(&client)?;
        (*last == number).then(|| answer.clone())
    }

    /// Returns the bytes of the state.
    ///
    /// # Errors
    ///
    /// [`ServerFault::Machine`] if the machine doesn't write itself.
    pub(crate) fn snapshot(&self) -> Result<Vec<u8>, ServerFault> {
        let written = unpanicked("snapshot", || self.written())?;
        written.map_err(|why| ServerFault::Machine(format!("snapshot: {why}")))
    }

    fn written(&self) -> io::Result<Vec<u8>> {
        let mut bytes = vec![VERSION];
        for number in [self.applied, self.floor, self.lasts.len() as u64] {
            bytes.extend(number.to_be_bytes());
        }
        for (client, (number, answer)) in &self.lasts {
            for number in [*client, *number, answer.len() as u64] {
                bytes.extend(number.to_be_bytes());
            }
            bytes.write_all(answer)?;
        }
        self.machine.snapshot(&mut bytes)?;
        Ok(bytes)
    }

    /// Reads a state from its bytes.
    ///
    /// # Errors
    ///
    /// [`ServerFault::Machine`] if they aren't such a state.
    pub(crate) fn restore(bytes: &[u8]) -> Result<MachineState<M>, ServerFault> {
        let read = unpanicked("restore", || MachineState::restored(bytes))?;
        read.map_err(|why| ServerFault::Machine(format!("restore: {why}")))
    }

    fn restored(mut bytes: &[u8]) -> io::Result<MachineState<M>> {
        let input = &mut bytes;
        let mut version = [0];
        input.read_exact(&mut version)?;
        if version != [VERSION] {
            let why = format!("a snapshot has version {}, not {VERSION}", version[0]);
            return Err(io::Error::new(io::ErrorKind::InvalidData, why));
        }
        let (applied, floor, clients) = (number(input)?, number(input)?, number(input)?);
        let mut lasts = BTreeMap::new();
        for _ in 0..clients {
            let (client, last, length) = (number(input)?, number(input)?, number(input)?);
            let mut answer = Vec::new();
            if input.take(length).read_to_end(&mut answer)? as u64 != length {
                return Err(io::ErrorKind::UnexpectedEof.into());
            }
            lasts.insert(client, (last, answer));
        }
        Ok(MachineState {
            machine: M::restore(input)?,
            applied,
            lasts,
            floor,
        })
    }
}

fn number(input: &mut &[u8]) -> io::Result<u64> {
    let mut bytes = [0; 8];
    input.read_exact(&mut bytes)?;
    Ok(u64::from_be_bytes(bytes))
}

/// Returns the result of the user's function of this name, or the fault that it panicked.
fn unpanicked<T>(name: &str, call: impl FnOnce() -> T) -> Result<T, ServerFault> {
    // A state in which the machine has panicked is dropped with its server.
    catch_unwind(AssertUnwindSafe(call)).map_err(|why| {
        let told = why.downcast_ref::<&str>().map(|it| (*it).to_owned());
        let told = told.or_else(|| why.downcast_ref::<String>().cloned());
        let why = told.unwrap_or_else(|| "it says nothing more".to_owned());
        ServerFault::Machine(format!("{name} panicked: {why}"))
    })
}
