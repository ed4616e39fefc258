use crate::calls::{
    self, AnswerNumbers, Forward, Handle, Head, KeyNumbers, PartNumbers, Reply, SentNumbers,
};
use crate::limits::MAX_TEXT;
use crate::server_calls::{ServerCalls, Texts};
use crate::Code;
use std::marker::PhantomData;

/// A part of a base has at most this many bytes.
const PART_BYTES: usize = 696_337;
/// The room begins with this many bytes, and grows when a call needs more.
const FIRST_ROOM: usize = 4 << 10;
/// Every key is below this one.
const ABOVE_KEYS: [u8; 256] = [u8::MAX; 256];

impl Head {
    /// Reads the bytes at a log's head.
    ///
    /// # Errors
    ///
    /// [`Code::BAD_BYTES`] if they are no head.
    pub fn of(bytes: &[u8]) -> Result<Head, Code> {
        let mut head = Head::default();
        // SAFETY: the bytes come with their length, and only this call uses the memory that is written.
        Code::judged(unsafe {
            calls::durkenzo_log_head_of(bytes.as_ptr(), bytes.len(), &mut head)
        })?;
        Ok(head)
    }
}

/// The limits of a server.
#[derive(Clone, Copy, Debug, PartialEq, Eq)]
pub struct Limits {
    /// A batch's requests have at most this many bytes together.
    pub batch_bytes: u64,
    /// A batch has at most this many requests.
    pub batch_requests: usize,
    /// At most this many requests wait, and as many reads.
    pub waiting: usize,
    /// The last request is kept of this many clients.
    pub clients: usize,
}

impl Default for Limits {
    fn default() -> Limits {
        Limits {
            batch_bytes: 8 << 20,
            batch_requests: 4_096,
            waiting: 8_192,
            clients: 16_384,
        }
    }
}

/// A request, as a server takes it.
#[derive(Clone, Copy, Debug, Default)]
pub struct ServerRequest<'a> {
    /// The client that sent it.
    pub client: u64,
    /// Its number.
    pub number: u64,
    /// The server that forwarded it, or 0.
    pub from: u16,
    /// How often it was forwarded.
    pub hops: u8,
    /// The number below which clients are forgotten once the request is executed.
    pub forgets: u64,
    /// Its bytes.
    pub request: &'a [u8],
}

/// The decision on a request, whose replies have this type.
#[derive(Clone, Copy, Debug, PartialEq, Eq)]
pub enum Decision<R = Reply> {
    /// The request is executed, and this is its reply.
    Replied(R),
    /// The request waits for the next transaction, or is in one.
    Waits,
    /// A later request of its client is executed.
    Passed,
    /// Its client is forgotten.
    Forgotten,
    /// This server executes the request. The hops count this forwarding too.
    Forwards(u16, u8),
    /// The request is refused here and now, for this reason.
    Refused(Code),
}

/// The comparisons and writes of a server's transaction.
#[derive(Clone, Debug, PartialEq, Eq)]
pub struct ServerTransaction {
    /// The revision of the record.
    pub stood: u64,
    /// The revision of the head.
    pub logged: u64,
    /// The number of the batch, or 0 if there is none.
    pub number: u64,
    /// The bytes for the head. They are empty if the head isn't written.
    pub head: Vec<u8>,
    /// The bytes for the batch, if there is one.
    pub batch: Vec<u8>,
}

/// An answer to a request that was executed, or to a read, with its text.
#[derive(Clone, Debug, PartialEq, Eq)]
pub struct Told {
    /// The client that sent the request.
    pub client: u64,
    /// Its number.
    pub number: u64,
    /// Its reply.
    pub reply: Reply,
    /// The text that a read found.
    pub text: Vec<u8>,
}

/// A base that a server writes: how many batches it stands for, and the bytes of its parts.
#[derive(Clone, Debug, PartialEq, Eq)]
pub struct Base {
    /// Its number.
    pub number: u64,
    /// The bytes of each part.
    pub parts: Vec<Vec<u8>>,
}

/// A batch or a part of a base that may be behind the newest base: a batch by its number, a part by the number of its
/// base and its place.
#[derive(Clone, Copy, Debug, PartialEq, Eq)]
pub enum Passing {
    /// A batch.
    Batch(u64),
    /// A part of a base.
    Part(u64, u64),
}

/// The proved server of one shard of the sample service.
pub type Server = ShardServer<Texts>;

/// The proved server of one shard, of the service with these calls. If a call can't be made, it returns a code, and
/// `durkenzo_store.h` says which state the server then has. If it has read nothing, it must read the shard; or make
/// another server.
#[derive(Debug)]
pub struct ShardServer<C: ServerCalls> {
    pub(crate) handle: Handle,
    room: Vec<u8>,
    calls: PhantomData<C>,
}

// SAFETY: the library promises that a handle may pass from thread to thread. No other value has this handle.
unsafe impl<C: ServerCalls> Send for ShardServer<C> {}

impl<C: ServerCalls> Drop for ShardServer<C> {
    fn drop(&mut self) {
        // SAFETY: only this value uses the handle, and the handle is one of the library's or bytes of 0.
        unsafe { C::CLOSE(&mut self.handle) }
    }
}

// SAFETY, of all calls below: only this value uses the handle, slices come with their lengths, and only the call uses
// the memory that it writes.
impl<C: ServerCalls> ShardServer<C> {
    /// Makes server `me` of the shard, which is one of `count` shards. It has read nothing yet.
    pub fn new(me: u16, shard: u16, count: u64, limits: Limits) -> Result<ShardServer<C>, Code> {
        let mut server = ShardServer {
            handle: Handle::empty(),
            room: Vec::new(),
            calls: PhantomData,
        };
        Code::judged(unsafe {
            C::NEW(
                &mut server.handle,
                me,
                shard,
                count,
                limits.batch_bytes,
                limits.batch_requests,
                limits.waiting,
                limits.clients,
            )
        })?;
        Ok(server)
    }

    /// Adds the next part that was read of the base.
    pub fn add_part(&mut self, bytes: &[u8]) -> Result<(), Code> {
        let (bytes, length) = (bytes.as_ptr(), bytes.len());
        Code::judged(unsafe { C::PART_READ(&mut self.handle, bytes, length) })
    }

    /// Adds the next batch that was read.
    pub fn add_batch(&mut self, bytes: &[u8]) -> Result<(), Code> {
        let (bytes, length) = (bytes.as_ptr(), bytes.len());
        Code::judged(unsafe { C::BATCH(&mut self.handle, bytes, length) })
    }

    /// Tells the server that the shard was read: its record and the head of its log, each with its revision.
    pub fn read(
        &mut self,
        (record, stood): (&[u8], u64),
        (head, logged): (&[u8], u64),
    ) -> Result<(), Code> {
        Code::judged(unsafe {
            C::READ(
                &mut self.handle,
                record.as_ptr(),
                record.len(),
                stood,
                head.as_ptr(),
                head.len(),
                logged,
            )
        })
    }

    /// Returns how many batches the server has made. If the shard wasn't read yet, that is 0.
    pub fn batch_count(&mut self) -> Result<u64, Code> {
        let mut batches = 0;
        let handle = &mut self.handle;
        Code::judged(unsafe { C::BATCH_COUNT(handle, &mut batches) })?;
        Ok(batches)
    }

    /// Tells the server that the shard was read on from the server's place: its record and the head of its log, each
    /// with its revision, and the batches that were added. Requests that were sent or wait here must be given again.
    ///
    /// After [`Code::MISSING`] the whole shard must be read, because this call reads on only from the server's place.
    pub fn append(
        &mut self,
        (record, stood): (&[u8], u64),
        (head, logged): (&[u8], u64),
    ) -> Result<(), Code> {
        Code::judged(unsafe {
            C::APPEND(
                &mut self.handle,
                record.as_ptr(),
                record.len(),
                stood,
                head.as_ptr(),
                head.len(),
                logged,
            )
        })
    }

    /// Tells the server that the record was seen. Requests that wait here must be given again.
    pub fn record(&mut self, record: &[u8], stood: u64) -> Result<(), Code> {
        let (bytes, length) = (record.as_ptr(), record.len());
        Code::judged(unsafe { C::RECORD(&mut self.handle, bytes, length, stood) })
    }

    /// Decides on a request.
    pub fn take(&mut self, asked: &ServerRequest<'_>) -> Result<Decision<C::Reply>, Code> {
        let (mut reply, mut forward) = (C::Reply::default(), Forward::default());
        let code = unsafe {
            C::TAKE(
                &mut self.handle,
                asked.client,
                asked.number,
                asked.from,
                asked.hops,
                asked.forgets,
                asked.request.as_ptr(),
                asked.request.len(),
                &mut reply,
                &mut forward,
            )
        };
        Ok(match Code(code) {
            Code(0) => Decision::Replied(reply),
            Code::WAITS => Decision::Waits,
            Code::PASSED => Decision::Passed,
            Code::FORGOTTEN => Decision::Forgotten,
            Code::FORWARDS => Decision::Forwards(forward.server, forward.hops),
            code if (Code::REFUSED.0..=Code::NOT_READ.0).contains(&code.0) => {
                Decision::Refused(code)
            }
            code => return Err(code),
        })
    }

    /// Allows waiting requests to be sent. Returns whether there is something to send now.
    pub fn flush(&mut self) -> Result<bool, Code> {
        let mut sends = false;
        Code::judged(unsafe { C::FLUSH(&mut self.handle, &mut sends) })?;
        Ok(sends)
    }

    /// Returns the transaction to send. You may call this more than once.
    pub fn sending(&mut self) -> Result<ServerTransaction, Code> {
        let mut numbers = SentNumbers::default();
        loop {
            let (into, room) = (self.room.as_mut_ptr(), self.room.len());
            let code = unsafe { C::SENDING(&mut self.handle, &mut numbers, into, room) };
            match Code(code) {
                Code::TOO_SHORT => self.grow_room(),
                Code(code) => break Code::judged(code)?,
            }
        }
        let (head, rest) = self.room.split_at(numbers.head_length);
        Ok(ServerTransaction {
            stood: numbers.stood,
            logged: numbers.logged,
            number: numbers.number,
            head: head.to_vec(),
            batch: rest[..numbers.batch_length].to_vec(),
        })
    }

    /// Tells the server that its transaction was made, at this revision. Returns how many answers to requests there
    /// are, and how many to reads.
    pub(crate) fn made_counts(&mut self, revision: u64) -> Result<(usize, usize), Code> {
        let (mut made, mut read) = (0, 0);
        let handle = &mut self.handle;
        Code::judged(unsafe { C::MADE(handle, revision, &mut made, &mut read) })?;
        Ok((made, read))
    }

    /// Tells the server that its transaction wasn't made, or isn't known to be made. The server decides nothing until
    /// it has read or appended.
    pub fn lost(&mut self) -> Result<(), Code> {
        Code::judged(unsafe { C::LOST(&mut self.handle) })
    }

    /// Begins a base, whose parts must be written now. Returns `None` if no base begins.
    pub fn base(&mut self) -> Result<Option<Base>, Code> {
        let mut begins = false;
        Code::judged(unsafe { C::BASE(&mut self.handle, &mut begins) })?;
        if !begins {
            return Ok(None);
        }
        let (first, bytes) = self.part(0)?;
        let mut parts = vec![bytes];
        for place in 1..first.count as usize {
            parts.push(self.part(place)?.1);
        }
        let number = first.number;
        Ok(Some(Base { number, parts }))
    }

    /// Returns the numbers of the base, and the bytes of its part at this place.
    fn part(&mut self, place: usize) -> Result<(PartNumbers, Vec<u8>), Code> {
        self.have_room(PART_BYTES);
        let mut part = PartNumbers::default();
        let (into, room) = (self.room.as_mut_ptr(), self.room.len());
        Code::judged(unsafe { C::PART(&mut self.handle, place, &mut part, into, room) })?;
        Ok((part, self.room[..part.length].to_vec()))
    }

    /// Tells the server that each part of the base was written.
    pub fn parts_made(&mut self) -> Result<(), Code> {
        Code::judged(unsafe { C::PARTS_MADE(&mut self.handle) })
    }

    /// Returns whether a batch, or a part of a base, is behind the base that the head names.
    pub fn is_behind(&mut self, passing: Passing) -> Result<bool, Code> {
        let (is_part, number, place) = match passing {
            Passing::Batch(number) => (false, number, 0),
            Passing::Part(number, place) => (true, number, place),
        };
        let (handle, mut behind) = (&mut self.handle, false);
        Code::judged(unsafe { C::IS_BEHIND(handle, is_part, number, place, &mut behind) })?;
        Ok(behind)
    }

    /// Returns of how many clients the last request is kept. If the shard wasn't read yet, that is 0.
    pub fn clients(&mut self) -> Result<usize, Code> {
        let mut clients = 0;
        Code::judged(unsafe { C::CLIENTS(&mut self.handle, &mut clients) })?;
        Ok(clients)
    }

    fn grow_room(&mut self) {
        self.have_room((2 * self.room.len()).max(FIRST_ROOM));
    }

    fn have_room(&mut self, bytes: usize) {
        if self.room.len() < bytes {
            self.room.resize(bytes, 0);
        }
    }
}

// SAFETY, of all calls below: as above.
impl Server {
    /// Tells the server that its transaction was made, at this revision. Returns the answers to requests, and those to
    /// reads.
    pub fn made(&mut self, revision: u64) -> Result<(Vec<Told>, Vec<Told>), Code> {
        let (made, read) = self.made_counts(revision)?;
        let told = (0..made)
            .map(|at| self.answer(at))
            .collect::<Result<_, _>>()?;
        let reads = (0..read)
            .map(|at| self.text(at))
            .collect::<Result<_, _>>()?;
        Ok((told, reads))
    }

    fn answer(&mut self, at: usize) -> Result<Told, Code> {
        let mut answer = AnswerNumbers::default();
        Code::judged(unsafe { calls::durkenzo_server_answer(&mut self.handle, at, &mut answer) })?;
        Ok(told(&answer, &[]))
    }

    fn text(&mut self, at: usize) -> Result<Told, Code> {
        self.have_room(MAX_TEXT);
        let mut answer = AnswerNumbers::default();
        let (into, room) = (self.room.as_mut_ptr(), self.room.len());
        Code::judged(unsafe {
            calls::durkenzo_server_text(&mut self.handle, at, &mut answer, into, room)
        })?;
        Ok(told(&answer, &self.room[..answer.length]))
    }

    /// Returns how many keys have a value after all executed requests. If the shard wasn't read yet, that is 0.
    pub fn count(&mut self) -> Result<u64, Code> {
        let mut keys = 0;
        Code::judged(unsafe { calls::durkenzo_server_keys(&mut self.handle, &mut keys) })?;
        Ok(keys)
    }

    /// Returns the first keys that have a value after all executed requests, in their order, at most this many: keys
    /// from `low` on and below `high`, or up to the last key. Before the shard was read it returns no keys.
    ///
    /// [`Code::NO_MEMORY`] doesn't change the server, and it can go on.
    pub fn scan(
        &mut self,
        low: &[u8],
        high: Option<&[u8]>,
        most: usize,
    ) -> Result<Vec<Box<[u8]>>, Code> {
        let high = high.unwrap_or(&ABOVE_KEYS);
        let mut numbers = KeyNumbers::default();
        loop {
            let (into, room) = (self.room.as_mut_ptr(), self.room.len());
            let code = unsafe {
                calls::durkenzo_server_scan(
                    &mut self.handle,
                    low.as_ptr(),
                    low.len(),
                    high.as_ptr(),
                    high.len(),
                    most,
                    &mut numbers,
                    into,
                    room,
                )
            };
            match Code(code) {
                Code::TOO_SHORT => self.grow_room(),
                code => break Code::judged(code.0)?,
            }
        }
        let mut keys = Vec::with_capacity(numbers.count);
        let mut left = &self.room[..numbers.length];
        while let Some((length, behind)) = left.split_first_chunk() {
            let (key, rest) = behind.split_at(u64::from_be_bytes(*length) as usize);
            keys.push(key.into());
            left = rest;
        }
        Ok(keys)
    }
}

fn told(answer: &AnswerNumbers, text: &[u8]) -> Told {
    Told {
        client: answer.client,
        number: answer.number,
        reply: Reply {
            value: answer.value,
            kind: answer.kind,
        },
        text: text.to_vec(),
    }
}
