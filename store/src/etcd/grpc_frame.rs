//! The frames of gRPC: each message has five bytes before it, whether it is compressed and how long it is.
use super::call_error::CallError;
use super::wire::{Asked, Told, LONGEST};

/// How many bytes stand before a message.
const HEAD: usize = 5;

/// Returns a request in its frame.
pub(super) fn framed(asked: &impl Asked) -> Result<Vec<u8>, CallError> {
    let length = u32::try_from(asked.encoded_len())
        .map_err(|error| CallError::Unreachable(error.to_string()))?;
    let mut frame = Vec::with_capacity(HEAD + length as usize);
    frame.push(0);
    frame.extend(length.to_be_bytes());
    asked
        .encode(&mut frame)
        .map_err(|error| CallError::Unreachable(error.to_string()))?;
    Ok(frame)
}

/// Returns the message of an answer that is one frame.
pub(super) fn read<T: Told>(bytes: &[u8]) -> Result<T, CallError> {
    match length_of(bytes)? {
        Some(length) if bytes.len() == HEAD + length => {
            T::decode(&bytes[HEAD..]).map_err(CallError::unread)
        }
        Some(_) | None => Err(CallError::unread("it isn't one message")),
    }
}

/// Takes the first message from these bytes, if it is whole.
pub(super) fn take<T: Told>(held: &mut Vec<u8>) -> Result<Option<T>, CallError> {
    let Some(length) = length_of(held)?.filter(|it| held.len() >= HEAD + it) else {
        return Ok(None);
    };
    let found = T::decode(&held[HEAD..HEAD + length]).map_err(CallError::unread);
    held.drain(..HEAD + length);
    found.map(Some)
}

/// Returns how long the first message is, if its frame has come so far.
fn length_of(held: &[u8]) -> Result<Option<usize>, CallError> {
    let Some(&[compressed, a, b, c, d]) = held.first_chunk::<HEAD>() else {
        return Ok(None);
    };
    match u32::from_be_bytes([a, b, c, d]) as usize {
        _ if compressed != 0 => Err(CallError::unread("it is compressed")),
        length if length > LONGEST => Err(CallError::too_long()),
        length => Ok(Some(length)),
    }
}

#[cfg(test)]
mod tests {
    use super::super::call_error::CallError;
    use super::super::wire::{Alarms, GrantRequest, Granted, Nothing, RangeRequest};
    use super::{framed, read, take};
    use std::time::Duration;

    /// The answer to a grant: a field that isn't read, the lease 7, and its length.
    const GRANTED: [u8; 13] = [0, 0, 0, 0, 8, 0x0a, 2, 8, 1, 0x10, 7, 0x18, 9];

    #[test]
    fn a_request_has_etcds_numbers_of_fields() {
        let grant = GrantRequest::of_length(Duration::from_secs(3));
        assert_eq!(framed(&grant).unwrap(), [0, 0, 0, 0, 2, 8, 3]);
        let range = RangeRequest::keys(b"a", b"b", 300);
        let wanted = b"\0\0\0\0\x0b\x0a\x01a\x12\x01b\x18\xac\x02\x40\x01";
        assert_eq!(framed(&range).unwrap(), wanted);
        assert_eq!(framed(&Nothing {}).unwrap(), [0; 5]);
    }

    #[test]
    fn an_answer_is_one_whole_message() {
        assert_eq!(read::<Granted>(&GRANTED).unwrap().id, 7);
        let mut compressed = GRANTED;
        compressed[0] = 1;
        let more = [&GRANTED[..], &[0]].concat();
        for wrong in [&GRANTED[..12], &more, &compressed, &[]] {
            let found = read::<Granted>(wrong);
            assert!(matches!(found, Err(CallError::Unknown(_))), "{found:?}");
        }
        let found = read::<Alarms>(&[0, 0, 0, 0, 1, 0x12]);
        assert!(matches!(found, Err(CallError::Unknown(_))), "{found:?}");
    }

    #[test]
    fn messages_are_taken_as_they_become_whole() {
        let (mut held, mut taken) = (Vec::new(), 0);
        for byte in [GRANTED, GRANTED].concat() {
            held.push(byte);
            if let Some(found) = take::<Granted>(&mut held).unwrap() {
                assert_eq!((found.id, held.len()), (7, 0));
                taken += 1;
            }
        }
        assert_eq!(taken, 2);
    }

    #[test]
    fn a_message_that_is_too_long_is_not_awaited() {
        let found = take::<Granted>(&mut vec![0, 255, 255, 255, 255]);
        assert!(matches!(found, Err(CallError::Unknown(_))), "{found:?}");
    }
}
