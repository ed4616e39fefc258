use super::pipe::Pipe;
use durkenzo_control::links::Greeting;

/// The version that processes of the version before speak.
const OLDER: u8 = 1;

/// The beginning of a connection if one side or both are of the version before. Such a side greets in its own version,
/// and refuses each other one.
pub struct Disguise {
    is_caller_older: bool,
    hello: Vec<u8>,
}

impl Disguise {
    /// Returns the disguise of a connection if its caller or its called side is of the version before.
    pub fn of([caller, called]: [bool; 2]) -> Option<Disguise> {
        (caller || called).then_some(Disguise {
            is_caller_older: caller,
            hello: Vec::new(),
        })
    }

    /// Takes the bytes of the caller's greeting. Returns `None` until the greeting is whole. If the called side refuses
    /// it, returns the bytes of the refusal. Otherwise it goes on in the version before.
    pub fn take(&mut self, called: &mut Pipe) -> Option<Option<Vec<u8>>> {
        self.hello.extend(called.bytes.drain(..));
        let (greeting, version, _) = Greeting::read(&self.hello).ok()??;
        if version > OLDER && !self.is_caller_older {
            let why = format!("it speaks version {version}, not {OLDER}");
            let mut refusal = Vec::new();
            Greeting::Refusal(why).write(OLDER, &mut refusal);
            return Some(Some(refusal));
        }
        let mut hello = Vec::new();
        greeting.write(OLDER, &mut hello);
        called.bytes.extend(&hello);
        Some(None)
    }
}

#[cfg(test)]
mod tests {
    use super::*;
    use durkenzo_control::links::{Identity, FIRST_TABLE};

    fn hello(version: u8) -> Vec<u8> {
        let identity = Identity {
            server: 1,
            settings: 2,
            process: 3,
            table: FIRST_TABLE,
        };
        let mut bytes = Vec::new();
        Greeting::Hello(identity, 2, b"a secret".to_vec()).write(version, &mut bytes);
        bytes
    }

    /// Sends a hello of this version byte by byte between such processes. Returns the bytes that go on, and the
    /// refusal.
    fn became(are_older: [bool; 2], version: u8) -> (Vec<u8>, Option<Vec<u8>>) {
        let (mut disguise, mut pipe) = (Disguise::of(are_older).unwrap(), Pipe::default());
        let (hello, mut became) = (hello(version), None);
        for byte in hello {
            assert!(became.is_none());
            pipe.write(&[byte]);
            became = disguise.take(&mut pipe);
        }
        (pipe.bytes.into(), became.unwrap())
    }

    #[test]
    fn a_process_of_the_version_before_speaks_that_only() {
        assert!(Disguise::of([false; 2]).is_none());
        assert_eq!(became([true, false], 2), (hello(OLDER), None));
        assert_eq!(became([false, true], OLDER), (hello(OLDER), None));
        let (on, refusal) = became([false, true], 2);
        let why = Greeting::Refusal("it speaks version 2, not 1".to_owned());
        let read = Greeting::read(&refusal.unwrap())
            .unwrap()
            .map(|it| (it.0, it.1));
        assert_eq!((on, read), (Vec::new(), Some((why, OLDER))));
    }
}
