//! The handshake of two processes, as bytes that come and go.
use super::greeting::VERSION;
use super::{Admission, Greeting, Identity, Secret, Terms, WireFault, OTHER_SECRET};
use std::fmt;
use std::io;

/// No greeting is longer.
const MOST: usize = 8 << 10;

/// The caller's side of a handshake: it greets, and learns who answers.
pub struct Greeter {
    /// The identity of this process.
    own: Identity,
    /// The server that the other process must run.
    server: u16,
    admits: Admission,
    version: u8,
    input: GreetingInput,
}

impl Greeter {
    /// Greets the process that was reached, in this version. It must run this server. Returns the greeter, and the
    /// bytes to send.
    pub fn new(terms: &Terms, server: u16, version: u8) -> (Greeter, Vec<u8>) {
        let secret = terms.secret.as_ref().map_or(&[][..], Secret::reveal);
        let hello = Greeting::Hello(terms.identity, server, secret.to_vec());
        let greeter = Greeter {
            own: terms.identity,
            server,
            admits: terms.admits,
            version,
            input: GreetingInput::default(),
        };
        (greeter, written(&hello, version))
    }

    /// Processes bytes that came. Returns the identity of the other side, once it is known.
    ///
    /// # Errors
    ///
    /// If the process isn't the wanted one, or refuses. A process that speaks an older version refuses with
    /// [`WireFault::Older`].
    pub fn receive(&mut self, bytes: &[u8]) -> io::Result<Option<Identity>> {
        let Some((greeting, spoken)) = self.input.receive(bytes)? else {
            return Ok(None);
        };
        let identity = match greeting {
            Greeting::Welcome(identity) => identity,
            Greeting::Refusal(_) if spoken < self.version => {
                return Err(io::Error::other(WireFault::Older(spoken)))
            }
            Greeting::Refusal(why) => return Err(io::Error::other(why)),
            Greeting::Hello(..) => return Err(io::Error::other("it doesn't answer a greeting")),
        };
        let admits = self.admits;
        let apart = admits.told_apart(self.own, identity);
        match apart.or_else(|| admits.not_wanted(identity, self.server)) {
            None => Ok(Some(identity)),
            Some(why) => Err(io::Error::other(why)),
        }
    }
}

impl fmt::Debug for Greeter {
    fn fmt(&self, f: &mut fmt::Formatter<'_>) -> fmt::Result {
        f.debug_struct("Greeter")
            .field("server", &self.server)
            .finish_non_exhaustive()
    }
}

/// Returns the version that the greeted process speaks, if it is an older one.
pub(super) fn older(error: &io::Error) -> Option<u8> {
    match error.get_ref()?.downcast_ref() {
        Some(WireFault::Older(version)) => Some(*version),
        _ => None,
    }
}

/// The other side of a handshake: it learns who connects, and welcomes or refuses it.
#[derive(Default)]
pub(super) struct Welcomer(GreetingInput);

/// The result of a greeting.
pub(super) enum Heard<T> {
    /// No greeting so far: more bytes must come.
    Nobody,
    /// A process that may stay, its place, and the bytes that welcome it.
    Welcome(Identity, T, Vec<u8>),
    /// A process that may not stay: the bytes to send, if there are any, and why the connection ends.
    Rejected(Option<Vec<u8>>, io::Error),
}

impl Welcomer {
    /// Processes bytes that came. If the caller has greeted and there is a place, welcomes it; otherwise tells it why
    /// not.
    pub(super) fn receive<T>(
        &mut self,
        bytes: &[u8],
        terms: &Terms,
        place: impl FnOnce() -> Option<T>,
    ) -> Heard<T> {
        // The caller is answered in the version that it speaks.
        let mut version = VERSION;
        let found = self.heard(bytes, terms, &mut version).and_then(|it| {
            let Some(identity) = it else {
                return Ok(None);
            };
            let place = place().ok_or_else(|| RejectedPeer::why("it has no place for one more"))?;
            Ok(Some((identity, place)))
        });
        match found {
            Ok(None) => Heard::Nobody,
            Ok(Some((identity, place))) => {
                let welcome = written(&Greeting::Welcome(terms.identity), version);
                Heard::Welcome(identity, place, welcome)
            }
            Err(RejectedPeer { why, error }) => {
                let refusal = why.map(|it| written(&Greeting::Refusal(it), version));
                Heard::Rejected(refusal, error)
            }
        }
    }

    /// Returns the process that has greeted, if it may be welcomed. Notes the version that it speaks.
    fn heard(
        &mut self,
        bytes: &[u8],
        terms: &Terms,
        version: &mut u8,
    ) -> Result<Option<Identity>, RejectedPeer> {
        let Some((greeting, spoken)) = self.0.receive(bytes)? else {
            return Ok(None);
        };
        *version = spoken;
        let Greeting::Hello(identity, wanted, secret) = greeting else {
            return Err(io::Error::other("it doesn't greet").into());
        };
        let known = terms.secret.as_ref();
        if !known.map_or(secret.is_empty(), |it| it.is(&secret)) {
            return Err(RejectedPeer::why(OTHER_SECRET));
        }
        let (own, admits) = (terms.identity, terms.admits);
        let apart = admits.told_apart(own, identity);
        match apart.or_else(|| admits.not_wanted(own, wanted)) {
            None => Ok(Some(identity)),
            Some(why) => Err(RejectedPeer::why(why)),
        }
    }
}

/// A process that isn't welcomed: the answer to it, and why its connection ends.
struct RejectedPeer {
    why: Option<String>,
    error: io::Error,
}

impl RejectedPeer {
    fn why(why: impl Into<String>) -> RejectedPeer {
        let why: String = why.into();
        let error = io::Error::other(why.clone());
        RejectedPeer {
            why: Some(why),
            error,
        }
    }
}

impl From<io::Error> for RejectedPeer {
    /// A process with another version is told so. If the bytes aren't a greeting, nothing is answered.
    fn from(error: io::Error) -> RejectedPeer {
        let fault = error.get_ref().and_then(|it| it.downcast_ref());
        let is_version = matches!(fault, Some(WireFault::Version(_)));
        let why = is_version.then(|| error.to_string());
        RejectedPeer { why, error }
    }
}

fn written(greeting: &Greeting, version: u8) -> Vec<u8> {
    let mut bytes = Vec::new();
    greeting.write(version, &mut bytes);
    bytes
}

/// The bytes of a greeting that came so far. No bytes may follow a greeting before it is answered.
#[derive(Default)]
struct GreetingInput(Vec<u8>);

impl GreetingInput {
    /// Processes bytes that came. Returns the greeting and its version, once it is complete.
    fn receive(&mut self, bytes: &[u8]) -> io::Result<Option<(Greeting, u8)>> {
        self.0.extend_from_slice(bytes);
        match Greeting::read(&self.0).map_err(io::Error::other)? {
            Some((greeting, version, end)) if end == self.0.len() => Ok(Some((greeting, version))),
            Some(_) => Err(io::Error::other("something follows its greeting")),
            None if self.0.len() >= MOST => Err(io::Error::other("its greeting is too long")),
            None => Ok(None),
        }
    }
}

#[cfg(test)]
mod tests {
    use super::super::trial::terms;
    use super::*;
    use std::io::ErrorKind;

    /// Returns the result of these bytes, for a process with this secret that has a place or none.
    fn heard(known: &str, bytes: &[u8], place: Option<()>) -> Heard<()> {
        Welcomer::default().receive(bytes, &terms(known), || place)
    }

    /// Returns the answer to a process that is rejected, and why.
    fn rejected(heard: Heard<()>) -> (Option<Vec<u8>>, String) {
        match heard {
            Heard::Rejected(told, error) => (told, error.to_string()),
            Heard::Nobody | Heard::Welcome(..) => panic!("it isn't rejected"),
        }
    }

    #[test]
    fn both_sides_learn_who_the_other_one_is() {
        let (mut greeter, hello) = Greeter::new(&terms("a"), 2, VERSION);
        let mut welcomer = Welcomer::default();
        let (last, begin) = hello.split_last().unwrap();
        for byte in begin {
            let heard = welcomer.receive(&[*byte], &terms("a"), || Some(()));
            assert!(matches!(heard, Heard::Nobody));
        }
        let heard = welcomer.receive(&[*last], &terms("a"), || Some(()));
        let Heard::Welcome(identity, (), welcome) = heard else {
            panic!("it isn't welcomed");
        };
        assert_eq!(identity, terms("a").identity);
        let (last, begin) = welcome.split_last().unwrap();
        assert_eq!(greeter.receive(begin).unwrap(), None);
        let known = greeter.receive(&[*last]).unwrap();
        assert_eq!(known, Some(terms("a").identity));
    }

    #[test]
    fn both_sides_learn_why_not() {
        for (shown, server, place, why) in [
            ("b", 2, Some(()), "its secret is another one"),
            ("a", 3, Some(()), "it is server 2, not 3"),
            ("a", 2, None, "it has no place for one more"),
        ] {
            let (mut greeter, hello) = Greeter::new(&terms(shown), server, VERSION);
            let (told, known) = rejected(heard("a", &hello, place));
            assert_eq!(known, why);
            let refused = greeter.receive(&told.unwrap()).unwrap_err();
            assert_eq!(refused.to_string(), why);
        }
    }

    #[test]
    fn one_of_another_version_is_told_so_and_others_nothing() {
        let (told, _) = rejected(heard("a", b"SMP\0\x63", Some(())));
        let (refusal, version, _) = Greeting::read(&told.unwrap()).unwrap().unwrap();
        let why = "it speaks version 99, not 2".to_owned();
        assert_eq!(version, VERSION);
        assert_eq!(refusal, Greeting::Refusal(why));
        assert!(rejected(heard("a", b"PING\r\n", Some(()))).0.is_none());
    }

    #[test]
    fn nothing_follows_a_greeting_before_it_is_answered() {
        let mut hello = Greeter::new(&terms("a"), 2, VERSION).1;
        hello.push(0);
        let (told, why) = rejected(heard("a", &hello, Some(())));
        assert_eq!((told, &*why), (None, "something follows its greeting"));
    }

    #[test]
    fn one_of_the_first_version_is_answered_in_that() {
        let hello = Greeter::new(&terms("a"), 2, 1).1;
        let Heard::Welcome(identity, (), told) = heard("a", &hello, Some(())) else {
            panic!("it isn't welcomed");
        };
        assert_eq!(identity, terms("a").identity);
        let (greeting, version, _) = Greeting::read(&told).unwrap().unwrap();
        let welcome = Greeting::Welcome(terms("a").identity);
        assert_eq!((greeting, version), (welcome, 1));
    }

    #[test]
    fn one_that_speaks_an_older_version_only_is_known_by_its_refusal() {
        let (mut greeter, _) = Greeter::new(&terms("a"), 2, VERSION);
        let refusal = Greeting::Refusal("it speaks version 2, not 1".to_owned());
        let refused = greeter.receive(&written(&refusal, 1)).unwrap_err();
        assert_eq!(older(&refused), Some(1));
        assert_eq!(older(&ErrorKind::TimedOut.into()), None);
    }
}
