//! The messages between processes behind their greetings: frames, each with its length, a number that its answers
//! repeat, and its kind.
use super::{Fields, Reason, RequestBatch, RequestOutcome, WireFault};

/// The most bytes of a frame behind its length.
pub const MAX_FRAME: usize = 12 << 20;
/// The most requests of a frame.
pub const MAX_REQUESTS: usize = 1_024;
/// The most bytes of one request.
pub const MAX_REQUEST: usize = 4 << 20;
/// How many bytes precede a frame's content: its length, its number and its kind.
const HEAD: usize = 13;

/// A frame. It borrows the bytes that hosts read.
#[derive(Clone, Debug, PartialEq, Eq)]
pub enum Frame<'a, R> {
    /// Requests of one client, in their order.
    Requests(RequestBatch<'a>),
    /// The outcome of the request at this place of the frame with this number.
    Outcome(u16, RequestOutcome<'a, R>),
    /// A command for the control.
    Command(&'a [u8]),
}

impl<'a, R: Reason> Frame<'a, R> {
    /// Adds the frame's bytes, with this number.
    pub fn write(&self, number: u64, out: &mut Vec<u8>) {
        let start = out.len();
        out.extend([0; 4]);
        out.extend(number.to_be_bytes());
        match self {
            Frame::Requests(batch) => {
                out.push(1);
                batch.write(out);
            }
            Frame::Outcome(place, outcome) => {
                out.push(2);
                out.extend(place.to_be_bytes());
                outcome.write(out);
            }
            Frame::Command(bytes) => {
                out.push(3);
                out.extend_from_slice(bytes);
            }
        }
        let length = out.len() - start - 4;
        out[start..start + 4].copy_from_slice(&(length as u32).to_be_bytes());
    }

    /// Reads the frame with which the input begins, if it is complete. Returns its number, the frame, and where it
    /// ends.
    ///
    /// # Errors
    ///
    /// If the input can't be the beginning of a frame.
    pub fn read(input: &'a [u8]) -> Result<Option<(u64, Frame<'a, R>, usize)>, WireFault> {
        let Some(length) = input.first_chunk().map(|it| u32::from_be_bytes(*it)) else {
            return Ok(None);
        };
        let length = length as usize;
        if length > MAX_FRAME {
            return Err(WireFault::TooLong);
        }
        if length < HEAD - 4 {
            return Err(WireFault::TooShort);
        }
        let Some(bytes) = input.get(4..4 + length) else {
            return Ok(None);
        };
        let mut fields = Fields::new(bytes);
        let (number, kind) = (fields.long()?, fields.byte()?);
        let frame = match kind {
            1 => Frame::Requests(RequestBatch::read(fields)?),
            2 => Frame::Outcome(fields.short()?, RequestOutcome::read(fields)?),
            3 => Frame::Command(fields.rest()),
            kind => return Err(WireFault::Kind(kind)),
        };
        Ok(Some((number, frame, 4 + length)))
    }
}

#[cfg(test)]
mod tests {
    use super::super::chance::Chance;
    use super::super::trial::TestReason;
    use super::super::MAX_REASON;
    use super::*;
    use durkenzo_driver::Came;
    use durkenzo_store::Revision;

    type TestFrame<'a> = Frame<'a, TestReason>;

    fn some_requests<'a>(chance: &mut Chance, requests: &'a [Vec<u8>]) -> TestFrame<'a> {
        let count = chance.below(requests.len());
        Frame::Requests(RequestBatch {
            shard: chance.below(4_096) as u16,
            server: chance.below(4_096) as u16,
            came: Came {
                from: chance.below(9) as u16,
                hops: chance.below(5) as u8,
                revision: Revision(chance.below(1 << 40) as u64),
            },
            waited: chance.below(2_000) as u32,
            requests: requests[..count].iter().map(Vec::as_slice).collect(),
        })
    }

    fn some_outcome<'a>(chance: &mut Chance, answer: &'a [u8]) -> RequestOutcome<'a, TestReason> {
        let all = [
            TestReason::Stopped,
            TestReason::Moved(Revision(1 << 50)),
            TestReason::Unknown("why it isn't known".to_owned()),
            TestReason::Unknown(String::new()),
        ];
        match chance.below(3) {
            0 => RequestOutcome::Answer(answer),
            _ => RequestOutcome::NotDone(all[chance.below(all.len())].clone()),
        }
    }

    fn some_frame<'a>(chance: &mut Chance, bytes: &'a [Vec<u8>]) -> TestFrame<'a> {
        match chance.below(3) {
            0 => some_requests(chance, bytes),
            1 => Frame::Outcome(chance.below(1_024) as u16, some_outcome(chance, &bytes[0])),
            _ => Frame::Command(&bytes[1]),
        }
    }

    fn some_bytes(chance: &mut Chance) -> Vec<Vec<u8>> {
        (0..9).map(|_| chance.bytes(40)).collect()
    }

    fn written(number: u64, frame: &TestFrame<'_>) -> Vec<u8> {
        let mut bytes = Vec::new();
        frame.write(number, &mut bytes);
        bytes
    }

    fn read(bytes: &[u8]) -> Result<Option<(u64, TestFrame<'_>, usize)>, WireFault> {
        Frame::read(bytes)
    }

    #[test]
    fn what_was_written_is_read() {
        let mut chance = Chance::new(4_768_777_513_237_032_717);
        for number in 0..5_000 {
            let parts = some_bytes(&mut chance);
            let frame = some_frame(&mut chance, &parts);
            let mut bytes = written(number, &frame);
            let end = bytes.len();
            for short in 0..end {
                assert_eq!(read(&bytes[..short]), Ok(None));
            }
            bytes.extend(chance.bytes(20));
            assert_eq!(read(&bytes), Ok(Some((number, frame, end))));
        }
    }

    #[test]
    fn spoilt_bytes_are_answered_within_the_input() {
        let mut chance = Chance::new(3_935_559_000_370_003_845);
        for _ in 0..50_000 {
            let parts = some_bytes(&mut chance);
            let mut bytes = written(7, &some_frame(&mut chance, &parts));
            for _ in 0..=chance.below(4) {
                let at = chance.below(bytes.len());
                match chance.below(3) {
                    0 => bytes[at] ^= 1 << chance.below(8),
                    1 => drop(bytes.splice(at..at, [chance.below(256) as u8])),
                    _ => drop(bytes.remove(at)),
                }
                if bytes.is_empty() {
                    break;
                }
            }
            if let Ok(Some((_, frame, end))) = read(&bytes) {
                assert!(end <= bytes.len());
                if let Frame::Requests(batch) = frame {
                    assert!(RequestBatch::fits(batch.requests.iter().map(|it| it.len())));
                }
            }
        }
    }

    #[test]
    fn lengths_are_bounded() {
        let long = (MAX_FRAME as u32 + 1).to_be_bytes();
        assert_eq!(read(&long), Err(WireFault::TooLong));
        assert_eq!(read(&[0, 0, 0, 3]), Err(WireFault::TooShort));
        let fits = |sizes: &[usize]| RequestBatch::fits(sizes.iter().copied());
        assert!(fits(&[MAX_REQUEST]));
        assert!(!fits(&[MAX_REQUEST + 1]));
        assert!(!fits(&[MAX_REQUEST; 4]));
        assert!(!fits(&[0; MAX_REQUESTS + 1]));
        let many = TestFrame::Requests(RequestBatch {
            shard: 1,
            server: 1,
            came: Came::HERE,
            waited: 0,
            requests: vec![&[]; MAX_REQUESTS + 1],
        });
        assert_eq!(read(&written(1, &many)), Err(WireFault::TooLong));
        let stopped = RequestOutcome::NotDone(TestReason::Stopped);
        let mut outcome = written(1, &Frame::Outcome(0, stopped));
        *outcome.last_mut().unwrap() = 99;
        assert_eq!(read(&outcome), Err(WireFault::Answer(99)));
        outcome.extend([0; MAX_REASON + 1]);
        let length = outcome.len() as u32 - 4;
        outcome[..4].copy_from_slice(&length.to_be_bytes());
        assert_eq!(read(&outcome), Err(WireFault::TooLong));
        let mut kind = written(1, &Frame::Command(&[]));
        *kind.last_mut().unwrap() = 9;
        assert_eq!(read(&kind), Err(WireFault::Kind(9)));
    }

    #[test]
    fn long_reasons_are_cut_and_long_answers_are_unknown() {
        let unknown = TestReason::Unknown("\u{fc}".repeat(MAX_REASON));
        let bytes = written(1, &Frame::Outcome(3, RequestOutcome::NotDone(unknown)));
        let Frame::Outcome(3, RequestOutcome::NotDone(TestReason::Unknown(text))) =
            read(&bytes).unwrap().unwrap().1
        else {
            panic!("it is another frame");
        };
        assert_eq!(text.len(), MAX_REASON);
        let answer = vec![0; MAX_FRAME];
        let bytes = written(1, &Frame::Outcome(3, RequestOutcome::Answer(&answer)));
        let read = read(&bytes).unwrap().unwrap().1;
        assert!(matches!(
            read,
            Frame::Outcome(3, RequestOutcome::NotDone(TestReason::Unknown(_)))
        ));
    }
}
