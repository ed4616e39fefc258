use crate::calls::{self, CommandNumbers, Handle};
use crate::Code;

pub use crate::calls::DirectorStep;

/// The greatest length of a record or a state, followed by the bytes of the key of commands.
const ROOM: usize = 34;
/// A call on the control for the next step of this shard or server.
type NextCall = unsafe extern "C" fn(*mut Handle, u16, *mut DirectorStep) -> u32;

/// The kinds of commands, and the other kinds of next steps.
#[allow(missing_docs)]
impl DirectorStep {
    // By tools/library-codes, the commands of library/codes.txt:
    pub const NOTHING: u8 = 0;
    pub const ASSIGN: u8 = 1;
    pub const PREPARE_ADD_SHARD: u8 = 2;
    pub const PREPARE_DROP_SHARD: u8 = 3;
    pub const ADD_SHARD: u8 = 4;
    pub const DROP_SHARD: u8 = 5;
    pub const CANCEL: u8 = 6;
    pub const PAUSE: u8 = 7;
    pub const RESUME: u8 = 8;
    pub const REASSIGN: u8 = 9;
    pub const ASK: u8 = 10;
    pub const APPROVE: u8 = 11;
    pub const STOPPED: u8 = 12;
    pub const BACK: u8 = 13;
    pub const FAIL: u8 = 14;
    pub const WAITS: u8 = 15;
    // End of them.

    /// Returns the change of this kind of the shard. Pass server 0 if the change names none.
    pub fn of_shard(kind: u8, shard: u16, server: u16) -> DirectorStep {
        DirectorStep {
            shard,
            server,
            kind,
        }
    }

    /// Returns the step of this kind of the server's restart.
    pub fn of_server(kind: u8, server: u16) -> DirectorStep {
        DirectorStep::of_shard(kind, 0, server)
    }

    /// Returns whether this can be given as a command.
    pub fn is_command(self) -> bool {
        DirectorStep::NOTHING < self.kind && self.kind < DirectorStep::WAITS
    }
}

/// The comparisons and writes of a command's transaction.
#[derive(Clone, Debug, PartialEq, Eq)]
pub struct CommandTransaction {
    /// The revision of the leader's key.
    pub elected: u64,
    /// The revision of the key of commands.
    pub placed: u64,
    /// The server whose key must not exist, or 0.
    pub absent: u16,
    /// The shard whose record is written, or the server whose state is written.
    pub number: u16,
    /// Whether a state is written.
    pub is_state: bool,
    /// The bytes of the record or the state.
    pub written: Vec<u8>,
    /// The bytes for the key of commands.
    pub commands: Vec<u8>,
}

/// The comparisons and writes of the transaction that replaces the settings in force.
#[derive(Clone, Debug, PartialEq, Eq)]
pub struct SettingsTransaction {
    /// The revision of the leader's key.
    pub elected: u64,
    /// The revision of the key of commands.
    pub placed: u64,
    /// The bytes for the key of commands. The transaction also writes the new line at the settings' key.
    pub commands: Vec<u8>,
}

/// Why other settings can't replace those in force.
#[derive(Clone, Copy, Debug, PartialEq, Eq)]
pub struct SettingsRefusal {
    /// The reason.
    pub code: Code,
    /// The server in use that the new settings would remove, or 0 if there is another reason.
    pub in_use: u16,
}

/// The proved control of a store. If a call is refused, the control doesn't change, unless `durkenzo_control.h` says
/// otherwise.
#[derive(Debug)]
pub struct Director {
    handle: Handle,
    shards: u16,
    servers: Vec<u16>,
}

// SAFETY: the library promises that a handle may pass from thread to thread. No other value has this handle.
unsafe impl Send for Director {}

impl Drop for Director {
    fn drop(&mut self) {
        // SAFETY: only this value uses the handle, and the handle is one of the library's or bytes of 0.
        unsafe { calls::durkenzo_director_close(&mut self.handle) }
    }
}

// SAFETY, of all calls below: only this value uses the handle, slices come with their lengths, and only the call uses
// the memory that it writes.
impl Director {
    /// Makes the control of the store that this line of settings describes, for this process, which was elected at this
    /// revision. Its commands wait for acks.
    pub fn new(line: &str, process: u64, elected: u64) -> Result<Director, Code> {
        Director::of(line.as_bytes(), process, elected)
    }

    /// Makes the same control, from a line that can be any bytes.
    pub fn of(line: &[u8], process: u64, elected: u64) -> Result<Director, Code> {
        Director::opened(line, process, elected, true)
    }

    /// Makes the same control for a process that runs all servers of the store. Its commands wait for no acks.
    pub fn alone(line: &str, process: u64, elected: u64) -> Result<Director, Code> {
        Director::opened(line.as_bytes(), process, elected, false)
    }

    fn opened(line: &[u8], process: u64, elected: u64, waits: bool) -> Result<Director, Code> {
        let (mut handle, mut shards, mut servers) = (Handle::empty(), 0, 0);
        let (line, length) = (line.as_ptr(), line.len());
        Code::judged(unsafe {
            calls::durkenzo_director(
                &mut handle,
                line,
                length,
                process,
                elected,
                waits,
                &mut shards,
                &mut servers,
            )
        })?;
        let mut made = Director {
            handle,
            shards: shards as u16,
            servers: Vec::new(),
        };
        for at in 0..servers {
            let number = made.server(at)?;
            made.servers.push(number);
        }
        Ok(made)
    }

    /// Returns how many shards the settings have.
    pub fn shards(&self) -> u16 {
        self.shards
    }

    /// Returns the servers of the settings.
    pub fn servers(&self) -> &[u16] {
        &self.servers
    }

    /// Returns the server at this place in the rows of the settings.
    pub fn server(&mut self, at: usize) -> Result<u16, Code> {
        let mut server = 0;
        let handle = &mut self.handle;
        Code::judged(unsafe { calls::durkenzo_director_server(handle, at, &mut server) })?;
        Ok(server)
    }

    /// Returns the shard of a key, by the layout of the settings.
    pub fn shard_of(&mut self, key: &[u8]) -> Result<u16, Code> {
        let (handle, mut shard) = (&mut self.handle, 0);
        Code::judged(unsafe {
            calls::durkenzo_director_shard_of(handle, key.as_ptr(), key.len(), &mut shard)
        })?;
        Ok(shard)
    }

    /// Adds the next shard's record.
    pub fn record(&mut self, bytes: &[u8], stood: u64) -> Result<(), Code> {
        let (bytes, length) = (bytes.as_ptr(), bytes.len());
        Code::judged(unsafe {
            calls::durkenzo_director_record(&mut self.handle, bytes, length, stood)
        })
    }

    /// Adds the next server's state.
    pub fn state(&mut self, bytes: &[u8]) -> Result<(), Code> {
        let (bytes, length) = (bytes.as_ptr(), bytes.len());
        Code::judged(unsafe { calls::durkenzo_director_state(&mut self.handle, bytes, length) })
    }

    /// Ends reading. The key of commands must have had this revision at the moment of the read.
    pub fn read(&mut self, placed: u64) -> Result<(), Code> {
        Code::judged(unsafe { calls::durkenzo_director_read(&mut self.handle, placed) })
    }

    /// Judges the command, and names the process that runs the server of the command (0 if none was seen). The command
    /// is either to be sent, or refused by the first fault that applies.
    pub fn command(&mut self, step: DirectorStep, process: u64) -> Result<(), Code> {
        let DirectorStep {
            shard,
            server,
            kind,
        } = step;
        Code::judged(unsafe {
            calls::durkenzo_director_command(&mut self.handle, kind, shard, server, process)
        })
    }

    /// Returns the transaction to send. You may call this more than once.
    pub fn sending(&mut self) -> Result<CommandTransaction, Code> {
        let (mut numbers, mut room) = (CommandNumbers::default(), [0; ROOM]);
        let (into, length) = (room.as_mut_ptr(), room.len());
        let handle = &mut self.handle;
        Code::judged(unsafe {
            calls::durkenzo_director_sending(handle, &mut numbers, into, length)
        })?;
        let (written, rest) = room.split_at(numbers.length.min(ROOM));
        Ok(CommandTransaction {
            elected: numbers.elected,
            placed: numbers.placed,
            absent: numbers.absent,
            number: numbers.number,
            is_state: numbers.is_state,
            written: written.to_vec(),
            commands: rest[..numbers.commands_length.min(rest.len())].to_vec(),
        })
    }

    /// Returns the transaction that replaces this director's settings with those of the other director, or why they
    /// can't be replaced. The other director must be of the same process, made from the new line, and must have read
    /// the same records and states. Because the other director stands (its `read` was not refused), the records and
    /// states keep to its settings.
    ///
    /// The transaction must write exactly the line from which the other director was made. Whatever the outcome, read
    /// the settings again, and make a director from them.
    pub fn resettle(
        &mut self,
        other: &mut Director,
    ) -> Result<SettingsTransaction, SettingsRefusal> {
        let (mut numbers, mut room, mut in_use) = (CommandNumbers::default(), [0; ROOM], 0);
        let (into, length) = (room.as_mut_ptr(), room.len());
        let (kept, drafted) = (&mut self.handle, &mut other.handle);
        Code::judged(unsafe {
            calls::durkenzo_director_resettle(
                kept,
                drafted,
                &mut in_use,
                &mut numbers,
                into,
                length,
            )
        })
        .map_err(|code| SettingsRefusal { code, in_use })?;
        Ok(SettingsTransaction {
            elected: numbers.elected,
            placed: numbers.placed,
            commands: room[..numbers.commands_length.min(ROOM)].to_vec(),
        })
    }

    /// Tells the control that its transaction was made, at this revision.
    pub fn made(&mut self, revision: u64) -> Result<(), Code> {
        Code::judged(unsafe { calls::durkenzo_director_made(&mut self.handle, revision) })
    }

    /// Tells the control that all must be read again.
    pub fn lost(&mut self) -> Result<(), Code> {
        Code::judged(unsafe { calls::durkenzo_director_lost(&mut self.handle) })
    }

    /// Forgets all followers.
    pub fn forget_followers(&mut self) -> Result<(), Code> {
        Code::judged(unsafe { calls::durkenzo_director_forget_followers(&mut self.handle) })
    }

    /// Adds a follower: this server is there, and has read the store up to this revision.
    pub fn follower(&mut self, server: u16, revision: u64) -> Result<(), Code> {
        Code::judged(unsafe {
            calls::durkenzo_director_follower(&mut self.handle, server, revision)
        })
    }

    /// Forgets all acks.
    pub fn forget_acks(&mut self) -> Result<(), Code> {
        Code::judged(unsafe { calls::durkenzo_director_forget_acks(&mut self.handle) })
    }

    /// Adds an ack: this server has acked the shard's records up to this generation.
    pub fn ack(&mut self, shard: u16, server: u16, generation: u64) -> Result<(), Code> {
        Code::judged(unsafe {
            calls::durkenzo_director_ack(&mut self.handle, shard, server, generation)
        })
    }

    /// Returns the next step of the shard.
    pub fn next_of_shard(&mut self, shard: u16) -> Result<DirectorStep, Code> {
        self.next(calls::durkenzo_director_next_of_shard, shard)
    }

    /// Returns the next step of the server's restart.
    pub fn next_of_server(&mut self, server: u16) -> Result<DirectorStep, Code> {
        self.next(calls::durkenzo_director_next_of_server, server)
    }

    /// Returns the next step of the server's drain, or of placing the vacant shards if the server is 0.
    pub fn next_of_drain(&mut self, server: u16) -> Result<DirectorStep, Code> {
        self.next(calls::durkenzo_director_next_of_drain, server)
    }

    fn next(&mut self, call: NextCall, number: u16) -> Result<DirectorStep, Code> {
        let mut step = DirectorStep::default();
        Code::judged(unsafe { call(&mut self.handle, number, &mut step) })?;
        Ok(step)
    }

    /// Returns the first server that gets requests but isn't among the followers, or 0.
    pub fn fallen(&mut self) -> Result<u16, Code> {
        let mut server = 0;
        Code::judged(unsafe { calls::durkenzo_director_fallen(&mut self.handle, &mut server) })?;
        Ok(server)
    }

    /// Returns the word of the shard's record, and the revision at which it was written.
    pub fn record_of(&mut self, shard: u16) -> Result<(u64, u64), Code> {
        let (handle, mut word, mut stood) = (&mut self.handle, 0, 0);
        Code::judged(unsafe {
            calls::durkenzo_director_record_of(handle, shard, &mut word, &mut stood)
        })?;
        Ok((word, stood))
    }

    /// Returns the number of the server's state, and the process that it names (0 if it names none).
    pub fn state_of(&mut self, server: u16) -> Result<(u8, u64), Code> {
        let (handle, mut state, mut process) = (&mut self.handle, 0, 0);
        Code::judged(unsafe {
            calls::durkenzo_director_state_of(handle, server, &mut state, &mut process)
        })?;
        Ok((state, process))
    }
}
