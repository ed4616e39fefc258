use crate::body::{BodyRefusal, BodyReply, BodyRequest, ShardBody, ValueRef, MAX_TEXT};
use crate::command::spec::Spec;
use crate::command::Fault;
use crate::resp::{Command, Replies};
use durkenzo_driver::{Key, MapReply, MapRequest};
use std::vec;

/// A body without keys. A command is done on it once, to note its writes. Once the store has replied to these, the
/// command is done on it again, to be answered. So a command that doesn't read is a blind write, and takes only one
/// transaction.
#[derive(Debug, Default)]
pub(super) struct BlindBody {
    requests: Vec<MapRequest>,
    /// The store's replies to the requests, once there are any.
    replies: Option<vec::IntoIter<MapReply>>,
    has_read: bool,
}

impl BlindBody {
    /// Returns the requests by which the command of this row writes. They don't depend on the values of its keys.
    ///
    /// # Errors
    ///
    /// If the command reads first, or writes nothing: `NotBlind`. If it is refused whatever values its keys have: the
    /// reason.
    pub(super) fn requests_of(spec: &Spec, command: Command<'_>) -> Result<Vec<MapRequest>, Fault> {
        let mut body = BlindBody::default();
        let done = spec.execute(command, &mut body, &mut Replies::default());
        if body.has_read {
            return Err(Fault::NotBlind(spec.name));
        }
        done?;
        match body.requests.is_empty() {
            true => Err(Fault::NotBlind(spec.name)),
            false => Ok(body.requests),
        }
    }

    /// Makes the body that answers the command's requests with the store's replies.
    pub(super) fn replied(replies: Vec<MapReply>) -> BlindBody {
        BlindBody {
            replies: Some(replies.into_iter()),
            ..BlindBody::default()
        }
    }

    /// Notes the request, or returns the store's reply to it.
    fn make(&mut self, request: impl FnOnce() -> MapRequest) -> Option<MapReply> {
        match &mut self.replies {
            Some(replies) => Some(replies.next().unwrap_or(MapReply::Malformed)),
            None => {
                self.requests.push(request());
                None
            }
        }
    }

    /// Notes that the command reads. The returned value is never told to anybody.
    fn read<T>(&mut self) -> Result<T, BodyRefusal> {
        self.has_read = true;
        Err(BodyRefusal::WrongKind)
    }

    fn delete(&mut self, key: &[u8]) -> BodyReply<'static> {
        match self.make(|| MapRequest::Delete(key.into())) {
            None | Some(MapReply::Done) => BodyReply::Done,
            Some(_) => BodyReply::Nothing,
        }
    }
}

impl ShardBody for BlindBody {
    fn get(&mut self, _key: &[u8]) -> Result<Option<ValueRef<'_>>, BodyRefusal> {
        self.read()
    }

    fn put(&mut self, key: &[u8], value: ValueRef<'_>) -> Result<(), BodyRefusal> {
        if matches!(value, ValueRef::Text(text) if text.len() > MAX_TEXT) {
            return Err(BodyRefusal::TooLong);
        }
        // The key may have a value of the other kind.
        self.delete(key);
        self.make(|| {
            let key = Key::from(key);
            match value {
                ValueRef::Text(text) => MapRequest::Put(key, text.to_vec()),
                ValueRef::Count(count) => MapRequest::Add(key, count),
            }
        });
        Ok(())
    }

    fn add(&mut self, key: &[u8], number: i64) -> Result<i64, BodyRefusal> {
        match self.make(|| MapRequest::Add(key.into(), number)) {
            None => Ok(number),
            Some(MapReply::Count(sum)) => Ok(sum),
            Some(MapReply::Overflow) => Err(BodyRefusal::Overflow),
            // Over a store, each text that is a number is a count.
            Some(_) => Err(BodyRefusal::WrongKind),
        }
    }

    fn apply<'a>(&'a mut self, request: BodyRequest<'_>) -> BodyReply<'a> {
        match request {
            BodyRequest::Delete(key) => self.delete(key),
            BodyRequest::Put(key, value) => self
                .put(key, value)
                .map_or_else(BodyReply::Refused, |()| BodyReply::Done),
            BodyRequest::Add(key, number) => self
                .add(key, number)
                .map_or_else(BodyReply::Refused, BodyReply::Count),
            BodyRequest::Get(_) | BodyRequest::Append(..) | BodyRequest::Scan(_) => {
                self.read().unwrap_or_else(BodyReply::Refused)
            }
        }
    }

    fn clear(&mut self) -> Result<(), BodyRefusal> {
        self.read()
    }

    fn forget(&mut self) {}

    fn measure(&mut self, _key: &[u8]) -> Result<Option<usize>, BodyRefusal> {
        self.read()
    }

    fn keys(&mut self) -> usize {
        self.has_read = true;
        0
    }
}

#[cfg(test)]
mod tests {
    use super::super::overlay::{changes, loaded};
    use super::*;
    use crate::body::ProvedBody;
    use crate::chance::Chance;
    use crate::command::data;
    use crate::command::spec::AnswerSize;
    use crate::command::table::COMMANDS;
    use crate::resp::number::Digits;
    use crate::resp::OwnedCommand;
    use std::collections::BTreeSet;

    const KEYS: [&str; 3] = ["a", "b", "c"];
    const WORDS: [&str; 14] = [
        "1",
        "-1",
        "x",
        "",
        "9223372036854775807",
        "NX",
        "XX",
        "GET",
        "0.5",
        "007",
        "-3",
        "2",
        "1e400",
        "KEEPTTL",
    ];

    /// A shard of a store.
    struct Stored(ProvedBody);

    impl Stored {
        fn write(&mut self, request: &MapRequest) -> MapReply {
            let held = self.read(request.key());
            let asked = match request {
                MapRequest::Put(..) if matches!(held, MapReply::Count(_)) => {
                    return MapReply::WrongKind
                }
                MapRequest::Put(key, text) => BodyRequest::Put(key, ValueRef::Text(text)),
                MapRequest::Append(key, more) => BodyRequest::Append(key, more),
                MapRequest::Add(key, amount) => BodyRequest::Add(key, *amount),
                MapRequest::Delete(key) => BodyRequest::Delete(key),
            };
            match self.0.apply(asked) {
                BodyReply::Done | BodyReply::Length(_) => MapReply::Done,
                BodyReply::Count(sum) => MapReply::Count(sum),
                BodyReply::Refused(BodyRefusal::WrongKind) => MapReply::WrongKind,
                BodyReply::Refused(BodyRefusal::Overflow) => MapReply::Overflow,
                BodyReply::Nothing => MapReply::Nothing,
                other => panic!("{request:?}: {other:?}"),
            }
        }

        fn read(&mut self, key: &[u8]) -> MapReply {
            match self.0.get(key).unwrap() {
                Some(ValueRef::Text(text)) => MapReply::Text(text.to_vec()),
                Some(ValueRef::Count(count)) => MapReply::Count(count),
                None => MapReply::Nothing,
            }
        }

        /// Does the command as over a store. Returns its answer, and whether it was a blind write.
        fn execute(&mut self, spec: &Spec, command: Command<'_>) -> (Vec<u8>, bool) {
            let mut answer = Replies::default();
            if let Ok(requests) = BlindBody::requests_of(spec, command) {
                let replies = requests.iter().map(|it| self.write(it)).collect();
                data::answer(spec, command, &mut BlindBody::replied(replies), &mut answer);
                return (answer.into_bytes(), true);
            }
            let keys: BTreeSet<Key> = spec.keys.of(command).map(Key::from).collect();
            let keys: Vec<Key> = keys.into_iter().collect();
            let held: Vec<MapReply> = keys.iter().map(|it| self.read(it)).collect();
            let mut body = loaded(&keys, &held).unwrap();
            data::answer(spec, command, &mut body, &mut answer);
            for request in changes(&mut body, &keys, &held) {
                let reply = self.write(&request);
                assert!(
                    !matches!(reply, MapReply::WrongKind | MapReply::Overflow),
                    "{request:?}"
                );
            }
            (answer.into_bytes(), false)
        }
    }

    /// Returns the value of the key, as a client reads it.
    fn text_of(body: &mut ProvedBody, key: &[u8]) -> Option<Vec<u8>> {
        body.get(key).unwrap().map(|it| match it {
            ValueRef::Text(text) => text.to_vec(),
            ValueRef::Count(count) => Digits::new(count).as_bytes().to_vec(),
        })
    }

    /// Returns a command of this row with random arguments.
    fn some(spec: &Spec, chance: &mut Chance) -> OwnedCommand {
        let more = if spec.arity < 0 { chance.below(4) } else { 0 };
        let count = spec.arity.unsigned_abs() as usize + more;
        let mut words = vec![spec.name; count];
        for word in &mut words[1..] {
            *word = chance.one(&WORDS);
        }
        let places: Vec<usize> = {
            let command = OwnedCommand::of(&words);
            spec.keys.places_in(command.command()).collect()
        };
        for place in places {
            words[place] = chance.one(&KEYS);
        }
        OwnedCommand::of(&words)
    }

    #[test]
    fn each_command_answers_over_a_store_as_in_memory_and_as_its_row_says() {
        let mut chance = Chance::new(2_862_933_555_777_941_757);
        let mut memory = ProvedBody::new().unwrap();
        let mut stored = Stored(ProvedBody::new().unwrap());
        let (rows, mut done) = (COMMANDS.iter().filter(|it| it.is_data()), BTreeSet::new());
        let rows: Vec<&Spec> = rows.collect();
        for _ in 0..30_000 {
            let spec = chance.one(&rows);
            let command = some(spec, &mut chance);
            let command = command.command();
            let mut replies = Replies::default();
            data::answer(spec, command, &mut memory, &mut replies);
            let told = String::from_utf8_lossy(replies.unsent()).into_owned();
            let shown: Vec<_> = command.iter().map(String::from_utf8_lossy).collect();
            let (answer, was_blind) = stored.execute(spec, command);
            assert_eq!(String::from_utf8_lossy(&answer), told, "{shown:?}");
            let is_done = !told.starts_with('-');
            assert!(!was_blind || spec.effect.writes(), "{shown:?}");
            assert!(was_blind || !spec.is_blind || !is_done, "{shown:?}");
            if spec.answer == AnswerSize::Short {
                assert!(told.len() < 100, "{shown:?}: {told}");
            }
            if is_done {
                done.insert(spec.name);
            }
            for key in KEYS {
                let key = key.as_bytes();
                assert_eq!(
                    text_of(&mut memory, key),
                    text_of(&mut stored.0, key),
                    "{shown:?}"
                );
            }
        }
        assert_eq!(done.len(), rows.len());
    }
}
