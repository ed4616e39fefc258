use super::frame::MAX_FRAME;
use super::{Fields, Reason, WireFault, MAX_REASON};

/// The outcome of a request, or of a command for the control.
#[derive(Clone, Debug, PartialEq, Eq)]
pub enum RequestOutcome<'a, R> {
    /// The answer to the client.
    Answer(&'a [u8]),
    /// It isn't done, or nobody knows.
    NotDone(R),
}

impl<'a, R: Reason> RequestOutcome<'a, R> {
    /// Writes it into a frame.
    pub(super) fn write(&self, out: &mut Vec<u8>) {
        match self {
            RequestOutcome::Answer(bytes) if bytes.len() <= MAX_FRAME - 64 => {
                out.push(0);
                out.extend_from_slice(bytes);
            }
            // It was done, but the answer can't be sent. The client must look.
            RequestOutcome::Answer(_) => {
                write_reason(&R::unknown("its answer is too long".to_owned()), out);
            }
            RequestOutcome::NotDone(reason) => write_reason(reason, out),
        }
    }

    /// Reads it from the rest of a frame.
    pub(super) fn read(mut fields: Fields<'a>) -> Result<RequestOutcome<'a, R>, WireFault> {
        let (code, rest) = (fields.byte()?, fields.rest());
        if code == 0 {
            return Ok(RequestOutcome::Answer(rest));
        }
        match rest.len() <= MAX_REASON {
            true => R::read(code, Fields::new(rest)).map(RequestOutcome::NotDone),
            false => Err(WireFault::TooLong),
        }
    }
}

fn write_reason(reason: &impl Reason, out: &mut Vec<u8>) {
    out.push(reason.code());
    reason.write(out);
}
