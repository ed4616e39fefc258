//! Bytes that one sidecar writes and another one reads: a head in JSON, and then bytes of a client or an application.
use serde::de::DeserializeOwned;
use serde::Serialize;
use thiserror::Error;

/// Bytes of the length of a head.
const LENGTH: usize = 4;

/// Why such bytes can't be read.
#[derive(Debug, Error)]
pub(crate) enum EnvelopeFault {
    /// There are fewer bytes than the head has.
    #[error("bytes of a sidecar end early: is it a client of another kind?")]
    Short,
    /// The head isn't the JSON that is expected.
    #[error("the head of a sidecar's bytes can't be read: {0}")]
    Head(#[from] serde_json::Error),
}

/// Returns the head and these bytes as another sidecar reads them.
pub(crate) fn sealed(head: &impl Serialize, bytes: &[u8]) -> Vec<u8> {
    let head = serde_json::to_vec(head).expect("heads have only texts and numbers");
    let length = u32::try_from(head.len()).expect("a head is bounded by those of a request");
    let length = length.to_be_bytes();
    [&length[..], &head, bytes].concat()
}

/// Returns the head, and the bytes that go with it.
///
/// # Errors
///
/// If no sidecar wrote these bytes.
pub(crate) fn opened<H: DeserializeOwned>(bytes: &[u8]) -> Result<(H, &[u8]), EnvelopeFault> {
    let (length, rest) = bytes
        .split_first_chunk::<LENGTH>()
        .ok_or(EnvelopeFault::Short)?;
    let length = u32::from_be_bytes(*length) as usize;
    let (head, body) = rest.split_at_checked(length).ok_or(EnvelopeFault::Short)?;
    Ok((serde_json::from_slice(head)?, body))
}

#[cfg(test)]
mod tests {
    use super::*;

    #[test]
    fn what_is_sealed_is_opened_and_all_else_is_refused() {
        let sealed = sealed(&("a", 7), b"rest");
        let (head, rest) = opened::<(String, u8)>(&sealed).unwrap();
        assert_eq!((head.0.as_str(), head.1, rest), ("a", 7, &b"rest"[..]));
        for end in 0..sealed.len() - rest.len() {
            assert!(opened::<(String, u8)>(&sealed[..end]).is_err(), "{end}");
        }
        assert!(opened::<(String, u8)>(&[255; 9]).is_err());
    }
}
