//! The beginning of a connection between two processes: the caller greets, and the other side welcomes or refuses it.
use super::fields::put_bytes;
use super::{Fields, Identity, WireFault};

/// The first bytes of a connection, and of an answer to it.
const MAGIC: &[u8; 4] = b"SMP\0";
/// The version of the protocol.
pub const VERSION: u8 = 2;
/// The first version, which processes of 0.1.0 speak. Its greetings have no version of the table of commands.
pub(super) const FIRST_VERSION: u8 = 1;
/// The most bytes of the secret.
pub const MAX_SECRET: usize = 256;
/// The most bytes of a refusal's reason.
const MAX_REASON: usize = 1 << 10;
/// How many bytes precede a greeting's content.
const HEAD: usize = MAGIC.len() + 5;
/// The most bytes behind them.
const MAX_REST: usize = 2 * MAX_REASON;

/// The first message of either side of a connection.
#[derive(Clone, Debug, PartialEq, Eq)]
pub enum Greeting {
    /// From the caller: its identity, the server that it wants, and the secret that it knows.
    Hello(Identity, u16, Vec<u8>),
    /// From the other side: its identity.
    Welcome(Identity),
    /// From the other side: why it refuses the caller.
    Refusal(String),
}

impl Greeting {
    /// Adds its bytes, in this version.
    pub fn write(&self, version: u8, out: &mut Vec<u8>) {
        out.extend(MAGIC);
        out.push(version);
        let start = out.len();
        out.extend([0; 4]);
        match self {
            Greeting::Hello(identity, wanted, secret) => {
                out.push(1);
                identity.write(version, out);
                out.extend(wanted.to_be_bytes());
                put_bytes(out, secret);
            }
            Greeting::Welcome(identity) => {
                out.push(2);
                identity.write(version, out);
            }
            Greeting::Refusal(why) => {
                out.push(3);
                let most = why.len().min(MAX_REASON);
                out.extend_from_slice(&why.as_bytes()[..most]);
            }
        }
        let length = out.len() - start - 4;
        out[start..start + 4].copy_from_slice(&(length as u32).to_be_bytes());
    }

    /// Reads the greeting with which the input begins, if it is complete. Returns the greeting, its version, and where
    /// it ends.
    ///
    /// # Errors
    ///
    /// If the input can't be the beginning of a greeting.
    pub fn read(input: &[u8]) -> Result<Option<(Greeting, u8, usize)>, WireFault> {
        let known = input.iter().zip(MAGIC).all(|(it, magic)| it == magic);
        if !known {
            return Err(WireFault::NoPeer);
        }
        let version = match input.get(MAGIC.len()) {
            None => return Ok(None),
            Some(version @ FIRST_VERSION..=VERSION) => *version,
            Some(other) => return Err(WireFault::Version(*other)),
        };
        let Some(length) = input.get(MAGIC.len() + 1..HEAD) else {
            return Ok(None);
        };
        let length = Fields::new(length).word()? as usize;
        if length > MAX_REST {
            return Err(WireFault::TooLong);
        }
        let Some(bytes) = input.get(HEAD..HEAD + length) else {
            return Ok(None);
        };
        let mut fields = Fields::new(bytes);
        let greeting = match fields.byte()? {
            1 => {
                let (identity, wanted) = (Identity::read(version, &mut fields)?, fields.short()?);
                Greeting::Hello(identity, wanted, fields.bytes(MAX_SECRET)?.to_vec())
            }
            2 => Greeting::Welcome(Identity::read(version, &mut fields)?),
            3 => Greeting::Refusal(String::from_utf8_lossy(fields.rest()).into()),
            kind => return Err(WireFault::Kind(kind)),
        };
        fields.end()?;
        Ok(Some((greeting, version, HEAD + length)))
    }
}

#[cfg(test)]
mod tests {
    use super::super::chance::Chance;
    use super::super::FIRST_TABLE;
    use super::*;

    const IDENTITY: Identity = Identity {
        server: 3,
        settings: 0x0123_4567_89ab_cdef,
        process: 1 << 40,
        table: FIRST_TABLE,
    };

    fn greetings() -> [Greeting; 4] {
        [
            Greeting::Hello(IDENTITY, 2, b"a secret".to_vec()),
            Greeting::Hello(IDENTITY, 9, Vec::new()),
            Greeting::Welcome(IDENTITY),
            Greeting::Refusal("another secret".to_owned()),
        ]
    }

    fn written(greeting: &Greeting) -> Vec<u8> {
        let mut bytes = Vec::new();
        greeting.write(VERSION, &mut bytes);
        bytes
    }

    #[test]
    fn what_was_written_is_read() {
        for (greeting, version) in greetings()
            .into_iter()
            .flat_map(|it| [(it.clone(), 1), (it, 2)])
        {
            let mut bytes = Vec::new();
            greeting.write(version, &mut bytes);
            let end = bytes.len();
            for short in 0..end {
                assert_eq!(Greeting::read(&bytes[..short]), Ok(None));
            }
            bytes.extend(b"more");
            let read = Greeting::read(&bytes);
            assert_eq!(read, Ok(Some((greeting, version, end))));
        }
    }

    #[test]
    fn the_table_is_told_from_the_second_version_on() {
        let newer = Identity {
            table: 7,
            ..IDENTITY
        };
        let told = |version| {
            let mut bytes = Vec::new();
            Greeting::Welcome(newer).write(version, &mut bytes);
            Greeting::read(&bytes).unwrap().unwrap().0
        };
        assert_eq!(told(1), Greeting::Welcome(IDENTITY));
        assert_eq!(told(2), Greeting::Welcome(newer));
    }

    #[test]
    fn who_is_no_process_of_this_version_is_refused_at_once() {
        assert_eq!(Greeting::read(b"*1\r\n"), Err(WireFault::NoPeer));
        assert_eq!(Greeting::read(b"GET / HTTP"), Err(WireFault::NoPeer));
        assert_eq!(Greeting::read(b"SMP\0\x03"), Err(WireFault::Version(3)));
        let long = b"SMP\0\x02\0\x01\0\0";
        assert_eq!(Greeting::read(long), Err(WireFault::TooLong));
        let mut other = written(&Greeting::Welcome(IDENTITY));
        other[9] = 7;
        assert_eq!(Greeting::read(&other), Err(WireFault::Kind(7)));
        let secret = vec![0; MAX_SECRET + 1];
        let long = written(&Greeting::Hello(IDENTITY, 1, secret));
        assert_eq!(Greeting::read(&long), Err(WireFault::TooLong));
    }

    #[test]
    fn spoilt_bytes_are_answered_within_the_input() {
        let mut chance = Chance::new(2_862_933_555_777_941_757);
        for _ in 0..50_000 {
            let mut bytes = written(&greetings()[chance.below(4)]);
            for _ in 0..=chance.below(3) {
                let at = chance.below(bytes.len());
                match chance.below(2) {
                    0 => bytes[at] ^= 1 << chance.below(8),
                    _ => bytes.truncate(at.max(1)),
                }
            }
            if let Ok(Some((_, _, end))) = Greeting::read(&bytes) {
                assert!(end <= bytes.len());
            }
        }
    }
}
