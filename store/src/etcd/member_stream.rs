use super::call_error::{CallError, GrpcStatus};
use super::environment::AnswerBody;
use super::etcd_protocol::EtcdProtocol;
use super::grpc_frame;
use super::wire::{Streamed, Told, LONGEST};

/// A member's stream. In JSON each line has an element, and in gRPC each frame.
pub(super) struct MemberStream {
    protocol: EtcdProtocol,
    body: Box<dyn AnswerBody>,
    held: Vec<u8>,
    /// How many of them were searched for a line feed.
    seen: usize,
}

impl MemberStream {
    pub(super) fn new(protocol: EtcdProtocol, body: Box<dyn AnswerBody>) -> MemberStream {
        MemberStream {
            protocol,
            body,
            held: Vec::new(),
            seen: 0,
        }
    }

    /// Returns the next element.
    pub(super) async fn next<T: Told>(&mut self) -> Result<T, CallError> {
        loop {
            if let Some(found) = self.taken()? {
                return Ok(found);
            }
            if self.held.len() > LONGEST {
                return Err(CallError::too_long());
            }
            let next = self.body.append_next(&mut self.held).await;
            if !next.map_err(CallError::broken)? {
                return Err(self.ended());
            }
        }
    }

    /// Takes the first element that is there as a whole.
    fn taken<T: Told>(&mut self) -> Result<Option<T>, CallError> {
        match self.protocol {
            EtcdProtocol::Json => self.line().map(|it| read_line(&it)).transpose(),
            EtcdProtocol::Grpc => grpc_frame::take(&mut self.held),
        }
    }

    /// Takes the first line that is there as a whole.
    fn line(&mut self) -> Option<Vec<u8>> {
        let found = self.held[self.seen..].iter().position(|it| *it == b'\n');
        let Some(end) = found else {
            self.seen = self.held.len();
            return None;
        };
        let line = self.held.drain(..=self.seen + end).collect();
        self.seen = 0;
        Some(line)
    }

    /// Returns why it has no other element.
    fn ended(&self) -> CallError {
        match self.body.status().filter(|it| !it.is_success()) {
            Some(refusal) => CallError::Refused(refusal),
            None => CallError::Unknown("the stream has ended".to_owned()),
        }
    }
}

fn read_line<T: Told>(line: &[u8]) -> Result<T, CallError> {
    let told: Streamed<T> = serde_json::from_slice(line).map_err(CallError::unread)?;
    let error = || CallError::Unknown("a member's stream has an error".to_owned());
    told.result.ok_or_else(error)
}

/// Returns the whole answer of a member, and its status of gRPC. The answer must not be longer than allowed.
pub(super) async fn whole(
    mut body: Box<dyn AnswerBody>,
) -> Result<(Vec<u8>, Option<GrpcStatus>), CallError> {
    let mut held = Vec::new();
    while body
        .append_next(&mut held)
        .await
        .map_err(CallError::broken)?
    {
        if held.len() > LONGEST {
            return Err(CallError::too_long());
        }
    }
    Ok((held, body.status()))
}
