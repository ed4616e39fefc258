use super::expected::text_of;
use super::server_keys::ServerKey;
use crate::law::Broken;
use crate::reading::Replied;
use std::collections::BTreeMap;

/// How many bytes an appended text has.
const WIDTH: usize = 8;

/// What a client knows of a command on a key.
#[derive(Clone, Debug, PartialEq, Eq)]
pub enum Seen {
    /// After the write, the text has this length, or the number this value.
    At(u64),
    /// The key was read, and held this.
    Text(Vec<u8>),
    /// The write isn't made, and never will be.
    Refused,
    /// The write may be made.
    Unknown,
}

/// A command on a key, and what its client was told.
#[derive(Clone, Debug)]
pub struct Noted {
    pub key: ServerKey,
    /// The number by which it writes, if it does.
    pub number: Option<u64>,
    /// The step at which it was sent.
    pub since: u64,
    pub seen: Seen,
}

/// A command that was made: it took its key from one position to another. A read leaves it where it is.
#[derive(Clone, Copy, Debug)]
struct MadeCommand {
    connection: u64,
    since: u64,
    /// The step at which it was answered, if it was.
    until: Option<u64>,
    from: u64,
    to: u64,
}

/// All commands of clients, in the order in which they were answered. It judges them by the answers, and by what the
/// keys hold in the end. Texts are only appended to, and only positive numbers are added, so each command has a
/// position in its key's history.
#[derive(Default)]
pub struct History {
    /// Each command with its connection, and the step at which it was answered, if it was.
    noted: Vec<(u64, Option<u64>, Noted)>,
}

fn broken<T>(law: &'static str, by: String) -> Result<T, Broken> {
    Err(Broken { law, by })
}

impl History {
    /// Notes a command of this connection, which was answered at this step if it was.
    pub fn note(&mut self, connection: u64, until: Option<u64>, noted: Noted) {
        self.noted.push((connection, until, noted));
    }

    /// Returns how many commands on keys were made or read, refused, and neither for sure.
    pub fn counts(&self) -> [u64; 3] {
        let mut counts = [0; 3];
        for (.., noted) in &self.noted {
            counts[match noted.seen {
                Seen::At(_) | Seen::Text(_) => 0,
                Seen::Refused => 1,
                Seen::Unknown => 2,
            }] += 1;
        }
        counts
    }

    /// Judges the commands on this key, which holds this in the end. Returns how many commands were made before an
    /// earlier one of their pipeline.
    ///
    /// # Errors
    ///
    /// The law that they break.
    pub fn judge(&self, key: ServerKey, held: &Replied) -> Result<u64, Broken> {
        let made = match key.is_text {
            true => self.texts(key, &held.2)?,
            false => self.numbers(key, held.1)?,
        };
        in_time(&made).map_err(|it| Broken {
            by: format!("{}\n{}", it.by, self.shown(key)),
            ..it
        })?;
        Ok(overtaken(&made))
    }

    /// Returns all commands on this key, one in a line.
    fn shown(&self, key: ServerKey) -> String {
        let lines = self.of(key).map(|(connection, until, noted)| {
            let Noted {
                number,
                since,
                seen,
                ..
            } = noted;
            format!("connection {connection}, {since} to {until:?}: {number:?} {seen:?}")
        });
        lines.collect::<Vec<_>>().join("\n")
    }

    fn of(&self, key: ServerKey) -> impl Iterator<Item = &(u64, Option<u64>, Noted)> {
        self.noted.iter().filter(move |it| it.2.key == key)
    }

    /// Returns the commands on a text that were made. The text consists of those that were appended.
    fn texts(&self, key: ServerKey, held: &[u8]) -> Result<Vec<MadeCommand>, Broken> {
        let mut places = BTreeMap::new();
        for (place, text) in held.chunks(WIDTH).enumerate() {
            if places.insert(text.to_vec(), place as u64).is_some() {
                return broken("a command is made once", shown(key, text, held));
            }
        }
        let mut made = Vec::new();
        for (connection, until, noted) in self.of(key) {
            let text = noted.number.map(text_of).unwrap_or_default();
            let place = places.remove(&text).map(|it| it * WIDTH as u64);
            let Some((from, to)) = noted.moved(place, held)? else {
                continue;
            };
            made.push(MadeCommand {
                connection: *connection,
                since: noted.since,
                until: until.filter(|_| noted.seen != Seen::Unknown),
                from,
                to,
            });
        }
        match places.into_iter().next() {
            None => Ok(made),
            Some((text, _)) => broken("only what was sent is made", shown(key, &text, held)),
        }
    }

    /// Returns the commands on a number that were made and answered.
    fn numbers(&self, key: ServerKey, held: u64) -> Result<Vec<MadeCommand>, Broken> {
        let (mut made, mut sum, mut unknown) = (Vec::new(), 0, 0);
        for (connection, until, noted) in self.of(key) {
            let number = noted.number.unwrap_or(0);
            let to = match &noted.seen {
                Seen::At(to) => *to,
                Seen::Text(read) if read.is_empty() => 0,
                Seen::Text(read) => match std::str::from_utf8(read).map(str::parse) {
                    Ok(Ok(read)) => read,
                    _ => return broken("a read sees what was made", format!("{noted:?}")),
                },
                Seen::Unknown => {
                    unknown += number;
                    continue;
                }
                Seen::Refused => continue,
            };
            sum += number;
            if to < number || to > held {
                return broken(
                    "what was answered is made",
                    format!("{noted:?}, {held} held"),
                );
            }
            made.push(MadeCommand {
                connection: *connection,
                since: noted.since,
                until: *until,
                from: to - number,
                to,
            });
        }
        if held < sum || held > sum + unknown {
            let by = format!("{key:?} holds {held}, {sum} was answered, {unknown} is unknown");
            return broken("numbers are added once", by);
        }
        apart(&made)?;
        Ok(made)
    }
}

impl Noted {
    /// Returns between which positions of a text the command is, if it was made. The text is now `held`, and what the
    /// command appended begins at this place of it, if it is there.
    fn moved(&self, place: Option<u64>, held: &[u8]) -> Result<Option<(u64, u64)>, Broken> {
        let end = place.map(|it| it + WIDTH as u64);
        Ok(match (&self.seen, place.zip(end)) {
            (Seen::At(to), Some((from, end))) if end == *to => Some((from, end)),
            (Seen::At(_), _) => return broken("what was answered is made", format!("{self:?}")),
            (Seen::Refused, Some(_)) => {
                return broken("what is refused isn't made", format!("{self:?}"))
            }
            (Seen::Unknown, made) => made,
            (Seen::Refused, None) => None,
            (Seen::Text(read), _) if held.starts_with(read) => {
                Some((read.len() as u64, read.len() as u64))
            }
            (Seen::Text(read), _) => {
                return broken("a read sees what was made", shown(self.key, read, held))
            }
        })
    }
}

fn shown(key: ServerKey, text: &[u8], held: &[u8]) -> String {
    let [text, held] = [text, held].map(String::from_utf8_lossy);
    format!("{key:?}: {text:?} of {held:?}")
}

/// Checks that no two writes cover the same part of a number.
fn apart(made: &[MadeCommand]) -> Result<(), Broken> {
    let mut writes: Vec<_> = made.iter().filter(|it| it.from < it.to).collect();
    writes.sort_by_key(|it| it.from);
    match writes.windows(2).find(|it| it[1].from < it[0].to) {
        None => Ok(()),
        Some(pair) => broken("a command is made once", format!("{pair:?}")),
    }
}

/// Checks that a command which was sent after another one was answered is behind it.
fn in_time(made: &[MadeCommand]) -> Result<(), Broken> {
    let mut sent: Vec<_> = made.iter().collect();
    sent.sort_by_key(|it| it.since);
    let mut answered: Vec<_> = made
        .iter()
        .filter_map(|it| Some((it.until?, it.to)))
        .collect();
    answered.sort_unstable();
    let (mut answered, mut least) = (answered.into_iter().peekable(), 0);
    for it in sent {
        while let Some((_, to)) = answered.next_if(|before| before.0 < it.since) {
            least = to.max(least);
        }
        if it.from < least {
            let by = format!("{it:?}, and before it {least}");
            return broken("commands happen one after another, in their time", by);
        }
    }
    Ok(())
}

/// Counts the commands that were made before an earlier one of their connection. Of these, all were answered.
fn overtaken(made: &[MadeCommand]) -> u64 {
    let (mut least, mut count) = (BTreeMap::new(), 0);
    for it in made.iter().filter(|it| it.until.is_some()) {
        let least = least.entry(it.connection).or_insert(0);
        count += u64::from(it.from < *least);
        *least = it.to.max(*least);
    }
    count
}

#[cfg(test)]
mod tests {
    use super::*;

    const TEXT: ServerKey = ServerKey {
        shard: 0,
        is_text: true,
    };
    const NUMBER: ServerKey = ServerKey {
        shard: 1,
        is_text: false,
    };

    /// A command: its connection, the steps at which it was sent and answered, its number, and the answer.
    type Told = (u64, u64, Option<u64>, Option<u64>, Seen);

    /// Returns the law that these commands break. The key holds this in the end.
    fn law(commands: &[Told], key: ServerKey, held: Replied) -> Option<&'static str> {
        let mut history = History::default();
        for (connection, since, until, number, seen) in commands.iter().cloned() {
            let noted = Noted {
                key,
                number,
                since,
                seen,
            };
            history.note(connection, until, noted);
        }
        history.judge(key, &held).err().map(|it| it.law)
    }

    fn texts(numbers: &[u64]) -> Replied {
        let text: Vec<u8> = numbers.iter().flat_map(|it| text_of(*it)).collect();
        (2, text.len() as u64, text)
    }

    #[test]
    fn texts_are_judged_by_what_the_key_holds() {
        let one = (1, 0, Some(1), Some(5), Seen::At(8));
        let two = (2, 2, Some(3), Some(6), Seen::At(16));
        let read = |since, numbers: &[u64]| (3, since, Some(9), None, Seen::Text(texts(numbers).2));
        let all = [one.clone(), two.clone()];
        assert_eq!(law(&all, TEXT, texts(&[5, 6])), None);
        assert_eq!(
            law(&all, TEXT, texts(&[6, 5])),
            Some("what was answered is made")
        );
        assert_eq!(
            law(&all, TEXT, texts(&[5])),
            Some("what was answered is made")
        );
        assert_eq!(
            law(&all, TEXT, texts(&[5, 6, 5])),
            Some("a command is made once")
        );
        assert_eq!(
            law(&all, TEXT, texts(&[5, 6, 7])),
            Some("only what was sent is made")
        );
        let stale = [one.clone(), read(2, &[])];
        let in_time = Some("commands happen one after another, in their time");
        assert_eq!(law(&stale, TEXT, texts(&[5])), in_time);
        assert_eq!(law(&[one.clone(), read(0, &[])], TEXT, texts(&[5])), None);
        let unseen = [one.clone(), read(2, &[6])];
        assert_eq!(
            law(&unseen, TEXT, texts(&[5])),
            Some("a read sees what was made")
        );
        let refused = [one, (2, 2, Some(3), Some(6), Seen::Refused)];
        assert_eq!(law(&refused, TEXT, texts(&[5])), None);
        assert_eq!(
            law(&refused, TEXT, texts(&[5, 6])),
            Some("what is refused isn't made")
        );
    }

    #[test]
    fn a_command_that_overtakes_another_one_is_counted() {
        let made = |from, to| MadeCommand {
            connection: 1,
            since: 0,
            until: Some(5),
            from,
            to,
        };
        assert_eq!(overtaken(&[made(0, 8), made(8, 8), made(8, 16)]), 0);
        assert_eq!(
            overtaken(&[made(8, 16), made(0, 0), made(0, 8), made(16, 24)]),
            2
        );
    }

    #[test]
    fn numbers_are_judged_by_their_sum() {
        let held = |it| (3, it, Vec::new());
        let one = (1, 0, Some(1), Some(5), Seen::At(5));
        let two = (2, 0, Some(1), Some(7), Seen::At(12));
        let lost = (3, 0, None, Some(9), Seen::Unknown);
        let all = [one.clone(), two.clone(), lost];
        assert_eq!(law(&all, NUMBER, held(12)), None);
        assert_eq!(law(&all, NUMBER, held(21)), None);
        assert_eq!(law(&all, NUMBER, held(22)), Some("numbers are added once"));
        assert_eq!(
            law(&all, NUMBER, held(11)),
            Some("what was answered is made")
        );
        let same = [one, (2, 0, Some(1), Some(7), Seen::At(7)), two];
        assert_eq!(law(&same, NUMBER, held(19)), Some("a command is made once"));
    }
}
