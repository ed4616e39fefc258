use crate::board::Shared;
use crate::envelope::{Answer, Envelope};
use crate::fault::{CheckpointFault, NoteFault, SendFault, ServeFault, UnknownShard};
use crate::layout::Layout;
use crate::pass::Mode;
use crate::raw::{self, AnswerParts, Handle, RecordParts, ReplyParts};
use crate::record::Record;
use crate::reply::Reply;
use crate::request::Request;
use crate::sent::Sent;
use crate::server_id::ServerId;
use crate::service::Texts;
use crate::shard_id::ShardId;
use std::alloc::{self, handle_alloc_error};
use std::error::Error;
use std::fmt;
use std::sync::Arc;

/// A thread's access to a board of the sample service. It acts as one server for as long as it lives.
pub struct ServicePass {
    handle: Handle,
    shared: Arc<Shared<Texts>>,
    layout: Arc<Layout>,
    server: ServerId,
}

/// The result of serving an envelope.
#[derive(Debug)]
pub enum Served {
    /// The server executed the request.
    Answered(Answer),
    /// The envelope must go on to this server. It has one hop more.
    Forward(ServerId, Envelope),
}

/// An envelope that a server refused, and the reason.
#[derive(Debug)]
pub struct ServeRefused {
    /// The reason.
    pub fault: ServeFault,
    /// The envelope, with a note of everything that led to the refusal.
    pub envelope: Envelope,
}

impl ServicePass {
    pub(crate) fn new(
        handle: Handle,
        shared: Arc<Shared<Texts>>,
        layout: Arc<Layout>,
        server: ServerId,
    ) -> ServicePass {
        ServicePass {
            handle,
            shared,
            layout,
            server,
        }
    }

    /// Returns the server as which the pass acts.
    #[must_use]
    pub fn server(&self) -> ServerId {
        self.server
    }

    /// Returns the shard's record, as the pass now sees it.
    ///
    /// # Errors
    ///
    /// `UnknownShard` if there is no such shard.
    pub fn look(&mut self, shard: ShardId) -> Result<Record, UnknownShard> {
        // SAFETY: this pass is borrowed exclusively and owns the handle.
        match unsafe { raw::durkenzo_look_word(&mut self.handle, shard.get()) } {
            raw::NO_WORD => Err(UnknownShard),
            word => Ok(Record::of_word(word)),
        }
    }

    /// Makes an envelope with your number for the shard of the request's key. It carries a note of all that the pass
    /// has seen.
    ///
    /// # Errors
    ///
    /// `EmptyKey` or `KeyTooLong` if the request's key has a wrong length, or `NoMemory`.
    pub fn envelope(&mut self, number: u64, request: &Request<'_>) -> Result<Envelope, SendFault> {
        let sent = Sent {
            number,
            shard: self.layout.shard_of(request.key()),
            mode: Mode::Direct,
            hops: 0,
        };
        self.received(&sent, request)
    }

    /// Makes an envelope from a request that another process forwarded, and from its [`Envelope::sent`]. It carries a
    /// note of all that the pass has seen.
    ///
    /// # Errors
    ///
    /// Those of [`ServicePass::envelope`], and `NotSent` if no envelope has this mode with this many hops.
    pub fn received(&mut self, sent: &Sent, request: &Request<'_>) -> Result<Envelope, SendFault> {
        let (kind, key, other, amount) = request.parts();
        let mut handle = Handle::empty();
        // SAFETY: this pass is borrowed exclusively and owns one handle, only this call uses the other, and the slices
        // last as long as the call.
        let code = unsafe {
            raw::durkenzo_envelope(
                &mut self.handle,
                &mut handle,
                &sent.parts(),
                kind,
                key.as_ptr(),
                key.len(),
                other.as_ptr(),
                other.len(),
                amount,
            )
        };
        match code {
            0 => Ok(Envelope::new(handle, self.shared.clone(), sent.shard)),
            code => Err(SendFault::of(code)),
        }
    }

    /// Serves the envelope as the pass's server. Either the server executes the request, or the result names the server
    /// to which the envelope must go on.
    ///
    /// # Errors
    ///
    /// Returns the envelope, with the reason: `OtherBoard`, `WrongShard`, `TooManyHops`, or why the server isn't
    /// admitted. `KeptFull` and `NoMemory` come after the server was admitted. The admission then ended without
    /// executing anything, and took 2 of the shard's generations.
    pub fn serve(&mut self, mut envelope: Envelope) -> Result<Served, ServeRefused> {
        if !Arc::ptr_eq(&self.shared, &envelope.shared) {
            return Err(ServeRefused {
                fault: ServeFault::OtherBoard,
                envelope,
            });
        }
        let (mut to, mut read) = (0, RecordParts::default());
        let code = self.layout.with(|layout| {
            // SAFETY: the layout is locked, this call borrows the other handles exclusively, and both are of one board.
            unsafe {
                raw::durkenzo_serve(
                    &mut self.handle,
                    layout,
                    &mut envelope.handle,
                    &mut to,
                    &mut read,
                )
            }
        });
        self.shared.waiters.wake(envelope.shard());
        match code {
            0 => Ok(Served::Answered(answer_of(envelope))),
            60 => {
                let to = ServerId::of(to).expect("a forward names a server");
                Ok(Served::Forward(to, envelope))
            }
            code => Err(ServeRefused {
                fault: ServeFault::of(code, Record::of(&read)),
                envelope,
            }),
        }
    }

    /// Tells the pass all that the answer has seen. The pass's next calls then come after the answered request.
    ///
    /// # Errors
    ///
    /// `OtherBoard` if the answer is of another board.
    pub fn hear(&mut self, mut answer: Answer) -> Result<(), NoteFault> {
        if !Arc::ptr_eq(&self.shared, &answer.shared) {
            return Err(NoteFault::OtherBoard);
        }
        // SAFETY: this call borrows both handles exclusively, and they are of one board.
        match unsafe { raw::durkenzo_meet(&mut self.handle, &mut answer.handle) } {
            0 => Ok(()),
            code => Err(NoteFault::of(code)),
        }
    }

    /// Makes the shard's state its base, so that the shard keeps no requests. Returns the shard's generation after
    /// that.
    ///
    /// # Errors
    ///
    /// Returns why the server isn't admitted, or `NoMemory`. `NoMemory` comes after the server was admitted: the
    /// admission ended without a checkpoint, and took 2 of the shard's generations.
    pub fn checkpoint(&mut self, shard: ShardId) -> Result<u64, CheckpointFault> {
        let (mut generation, mut read) = (0, RecordParts::default());
        // SAFETY: this pass is borrowed exclusively and owns the handle.
        let code = unsafe {
            raw::durkenzo_checkpoint(&mut self.handle, shard.get(), &mut generation, &mut read)
        };
        self.shared.waiters.wake(shard);
        match code {
            0 => Ok(generation),
            code => Err(CheckpointFault::of(code, Record::of(&read))),
        }
    }
}

/// Returns the answer that the served envelope holds.
fn answer_of(mut envelope: Envelope) -> Answer {
    let (mut parts, mut reply) = (AnswerParts::default(), ReplyParts::default());
    // SAFETY: this call borrows the handle exclusively.
    let code = unsafe { raw::durkenzo_answer(&mut envelope.handle, &mut parts, &mut reply) };
    assert_eq!(code, 0, "a served envelope keeps its answer");
    let reply = Reply::of(&mut envelope.handle, &reply);
    // A reply that was made can't be refused any more.
    let reply = reply.unwrap_or_else(|_| handle_alloc_error(alloc::Layout::new::<Reply>()));
    Answer::new(envelope, &parts, reply)
}

impl fmt::Debug for ServicePass {
    fn fmt(&self, f: &mut fmt::Formatter<'_>) -> fmt::Result {
        f.debug_struct("ServicePass").finish_non_exhaustive()
    }
}

impl fmt::Display for ServeRefused {
    fn fmt(&self, f: &mut fmt::Formatter<'_>) -> fmt::Result {
        self.fault.fmt(f)
    }
}

impl Error for ServeRefused {
    fn source(&self) -> Option<&(dyn Error + 'static)> {
        Some(&self.fault)
    }
}
