//! The commands with keys, as operations on a shard's body. Redis has one kind of value, and a shard has two. A text
//! that is a number is kept as a count, so that it can be added to; if a command wants a text, it reads a count as its
//! digits.
use super::long_double::LongDouble;
use super::spec::Spec;
use super::Fault;
use crate::body::{BodyRefusal, BodyReply, BodyRequest, ShardBody, ValueRef, MAX_TEXT};
use crate::memory::{self, CEILING};
use crate::resp::number::{self, Digits};
use crate::resp::{Command, Replies, MAX_REPLY};

/// This many values fit into one reply, however long they are.
const SURELY_FIT: usize = MAX_REPLY / (MAX_TEXT + 16);
/// The fewest bytes of a reply that says that a key has no value.
const LEAST_NULL: usize = "_\r\n".len();

/// Does a command with the right number of arguments, whose keys are all in the shard of this body, and answers it.
///
/// In memory the body is the shard's own. Over a store it holds the values that the command's keys had, or it is a
/// `BlindBody`, which only notes the writes. So the next request of a command may depend on values that it has read,
/// but not on the replies to its writes.
pub type Execute = fn(Command<'_>, &mut dyn ShardBody, &mut Replies) -> Result<(), Fault>;

/// Does the command of this row, whose keys are all in this shard, and answers it.
pub fn answer(spec: &Spec, command: Command<'_>, body: &mut dyn ShardBody, replies: &mut Replies) {
    let mark = replies.mark();
    let done = spec.execute(command, body, replies);
    // Only the answer to a read can be too long, so taking it back hides no change.
    if let Err(fault) = done.and_then(|()| Ok(replies.are_whole()?)) {
        replies.take_back(mark);
        replies.error(fault);
    }
}

/// Returns a value as a shard keeps it.
fn value_of(text: &[u8]) -> ValueRef<'_> {
    number::parse(text).map_or(ValueRef::Text(text), ValueRef::Count)
}

fn write_value(value: ValueRef<'_>, replies: &mut Replies) {
    match value {
        ValueRef::Text(text) => replies.bulk(text),
        ValueRef::Count(count) => replies.bulk(Digits::new(count).as_bytes()),
    }
}

/// Returns the value of the key, if it has one; or the reason why it can't be read.
fn held<'a>(body: &'a mut dyn ShardBody, key: &[u8]) -> Result<Option<ValueRef<'a>>, Fault> {
    Ok(body.get(key)?)
}

/// GET: answers the value of the key.
pub(super) fn get(
    command: Command<'_>,
    body: &mut dyn ShardBody,
    replies: &mut Replies,
) -> Result<(), Fault> {
    tell(body, command.get(1), replies)
}

/// Answers the value of the key.
fn tell(body: &mut dyn ShardBody, key: &[u8], replies: &mut Replies) -> Result<(), Fault> {
    match held(body, key)? {
        Some(value) => write_value(value, replies),
        None => replies.null(),
    }
    body.forget();
    Ok(replies.are_whole()?)
}

/// MGET: answers the value of each key.
pub(super) fn get_all(
    command: Command<'_>,
    body: &mut dyn ShardBody,
    replies: &mut Replies,
) -> Result<(), Fault> {
    let (keys, mark) = (command.len() - 1, replies.mark());
    if keys > SURELY_FIT && !may_fit(body, command)? {
        return Err(Fault::ReplyTooLarge);
    }
    replies.array(keys);
    for key in command.from(1).iter() {
        tell(body, key, replies)?;
        if replies.is_too_large(mark) {
            return Err(Fault::ReplyTooLarge);
        }
    }
    Ok(())
}

/// Returns whether the values of all keys fit into one reply. If they don't, nothing is copied, because many such
/// commands would occupy a shard for long.
fn may_fit(body: &mut dyn ShardBody, command: Command<'_>) -> Result<bool, Fault> {
    let mut size = 0;
    for key in command.from(1).iter() {
        size += body.measure(key)?.map_or(LEAST_NULL, size_of_bulk);
        if size > MAX_REPLY {
            return Ok(false);
        }
    }
    Ok(true)
}

/// Returns how many bytes a text of this length takes in an answer.
fn size_of_bulk(length: usize) -> usize {
    "$\r\n\r\n".len() + Digits::new(length as i64).as_bytes().len() + length
}

/// STRLEN: answers how many bytes the key's value has.
pub(super) fn length(
    command: Command<'_>,
    body: &mut dyn ShardBody,
    replies: &mut Replies,
) -> Result<(), Fault> {
    let length = body.measure(command.get(1))?;
    replies.count(length.unwrap_or(0));
    Ok(())
}

/// TYPE: answers whether the key has a value.
pub(super) fn kind(
    command: Command<'_>,
    body: &mut dyn ShardBody,
    replies: &mut Replies,
) -> Result<(), Fault> {
    replies.simple(match is_held(body, command.get(1))? {
        true => "string",
        false => "none",
    });
    Ok(())
}

/// EXISTS: answers how many of the keys have a value.
pub(super) fn exists(
    command: Command<'_>,
    body: &mut dyn ShardBody,
    replies: &mut Replies,
) -> Result<(), Fault> {
    count(command, replies, |key| is_held(body, key))
}

/// DEL: deletes the keys, and answers how many of them had a value.
pub(super) fn delete(
    command: Command<'_>,
    body: &mut dyn ShardBody,
    replies: &mut Replies,
) -> Result<(), Fault> {
    count(command, replies, |key| remove(body, key))
}

/// Answers for how many of the keys the closure returns true.
fn count(
    command: Command<'_>,
    replies: &mut Replies,
    mut is_counted: impl FnMut(&[u8]) -> Result<bool, Fault>,
) -> Result<(), Fault> {
    let mut count = 0;
    for key in command.from(1).iter() {
        count += usize::from(is_counted(key)?);
    }
    replies.count(count);
    Ok(())
}

fn is_held(body: &mut dyn ShardBody, key: &[u8]) -> Result<bool, Fault> {
    Ok(body.measure(key)?.is_some())
}

/// Deletes the key, and returns whether it had a value.
fn remove(body: &mut dyn ShardBody, key: &[u8]) -> Result<bool, Fault> {
    match body.apply(BodyRequest::Delete(key)) {
        BodyReply::Refused(refusal) => Err(refusal.into()),
        reply => Ok(reply == BodyReply::Done),
    }
}

/// Sets the key to the text.
fn put(body: &mut dyn ShardBody, key: &[u8], text: &[u8]) -> Result<(), Fault> {
    Ok(body.put(key, value_of(text))?)
}

/// The options of SET.
#[derive(Clone, Copy, Debug, Default)]
struct SetOptions {
    is_new: bool,
    is_old: bool,
    gives_last: bool,
}

impl SetOptions {
    fn of(command: Command<'_>) -> Result<SetOptions, Fault> {
        let mut options = SetOptions::default();
        for index in 3..command.len() {
            if command.is(index, "NX") {
                options.is_new = true;
            } else if command.is(index, "XX") {
                options.is_old = true;
            } else if command.is(index, "GET") {
                options.gives_last = true;
            } else if ["EX", "PX", "EXAT", "PXAT"]
                .iter()
                .any(|it| command.is(index, it))
            {
                return Err(Fault::NoExpiry);
            } else if !command.is(index, "KEEPTTL") {
                return Err(Fault::Syntax);
            }
        }
        match options.is_new && options.is_old {
            true => Err(Fault::Syntax),
            false => Ok(options),
        }
    }
}

/// SET: sets the key to the text.
pub(super) fn set(
    command: Command<'_>,
    body: &mut dyn ShardBody,
    replies: &mut Replies,
) -> Result<(), Fault> {
    let (key, text) = (command.get(1), command.get(2));
    if command.len() == 3 {
        put(body, key, text)?;
        replies.ok();
        return Ok(());
    }
    let options = SetOptions::of(command)?;
    if text.len() > MAX_TEXT {
        return Err(Fault::TooLong);
    }
    let is_set = match is_held(body, key)? {
        true => !options.is_new,
        false => !options.is_old,
    };
    match (options.gives_last, is_set) {
        (true, _) => tell(body, key, replies)?,
        (false, true) => replies.ok(),
        (false, false) => replies.null(),
    }
    if is_set {
        put(body, key, text)?;
    }
    Ok(())
}

/// SETNX: sets the key to the text if it has no value, and answers whether it did so.
pub(super) fn set_new(
    command: Command<'_>,
    body: &mut dyn ShardBody,
    replies: &mut Replies,
) -> Result<(), Fault> {
    let (key, text) = (command.get(1), command.get(2));
    if text.len() > MAX_TEXT {
        return Err(Fault::TooLong);
    }
    let is_new = !is_held(body, key)?;
    if is_new {
        put(body, key, text)?;
    }
    replies.count(usize::from(is_new));
    Ok(())
}

/// GETSET: sets the key to the text, and answers the old value.
pub(super) fn get_and_set(
    command: Command<'_>,
    body: &mut dyn ShardBody,
    replies: &mut Replies,
) -> Result<(), Fault> {
    let (key, text) = (command.get(1), command.get(2));
    if text.len() > MAX_TEXT {
        return Err(Fault::TooLong);
    }
    tell(body, key, replies)?;
    put(body, key, text)
}

/// GETDEL: deletes the key, and answers the old value.
pub(super) fn get_and_delete(
    command: Command<'_>,
    body: &mut dyn ShardBody,
    replies: &mut Replies,
) -> Result<(), Fault> {
    tell(body, command.get(1), replies)?;
    remove(body, command.get(1)).map(drop)
}

/// GETRANGE: answers the bytes from one place to another. A place below 0 is counted from the end.
pub(super) fn get_range(
    command: Command<'_>,
    body: &mut dyn ShardBody,
    replies: &mut Replies,
) -> Result<(), Fault> {
    let [start, end] = [2, 3].map(|it| number::parse(command.get(it)).ok_or(Fault::NotInteger));
    let (start, end) = (start?, end?);
    match held(body, command.get(1))? {
        None => replies.bulk(b""),
        Some(ValueRef::Text(text)) => replies.bulk(part_of(text, start, end)),
        Some(ValueRef::Count(count)) => {
            replies.bulk(part_of(Digits::new(count).as_bytes(), start, end));
        }
    }
    body.forget();
    Ok(replies.are_whole()?)
}

/// Returns the bytes of the text from `start` to `end`, inclusive, as Redis counts.
fn part_of(text: &[u8], start: i64, end: i64) -> &[u8] {
    let length = text.len() as i64;
    if start < 0 && end < 0 && start > end {
        return b"";
    }
    let [start, end] = [start, end].map(|it| match it {
        it if it < 0 => it.saturating_add(length).max(0),
        it => it,
    });
    let end = end.min(length - 1);
    match start <= end {
        true => &text[start as usize..=end as usize],
        false => b"",
    }
}

/// SETRANGE: writes these bytes into the key's text from one place on. If the text is shorter, it is filled up with
/// zeros first. Answers the new length.
pub(super) fn set_range(
    command: Command<'_>,
    body: &mut dyn ShardBody,
    replies: &mut Replies,
) -> Result<(), Fault> {
    let (key, more) = (command.get(1), command.get(3));
    let offset = number::parse(command.get(2)).ok_or(Fault::NotInteger)?;
    let offset = usize::try_from(offset).map_err(|_| Fault::BadOffset)?;
    if more.is_empty() {
        replies.count(body.measure(key)?.unwrap_or(0));
        return Ok(());
    }
    let end = offset.saturating_add(more.len());
    if end > MAX_TEXT {
        return Err(Fault::TooLong);
    }
    let mut text = text_of(body, key, end)?;
    let before = text.len();
    text.resize(before.max(end), 0);
    text[offset..end].copy_from_slice(more);
    put(body, key, &text)?;
    CEILING.note_came(text.len() - before);
    replies.count(text.len());
    Ok(())
}

/// Returns a copy of the key's text, with room for so many bytes.
fn text_of(body: &mut dyn ShardBody, key: &[u8], room: usize) -> Result<Vec<u8>, Fault> {
    let mut text = Vec::new();
    memory::reserve(&mut text, room)?;
    match held(body, key)? {
        Some(ValueRef::Count(count)) => memory::append(&mut text, Digits::new(count).as_bytes())?,
        Some(ValueRef::Text(held)) => memory::append(&mut text, held)?,
        None => {}
    }
    body.forget();
    Ok(text)
}

/// Checks that each key of the command has a value, as in MSET, and that each value is short enough. So either all keys
/// are set or none.
pub(super) fn check_values(name: &str, command: Command<'_>) -> Result<(), Fault> {
    if command.len() % 2 == 0 {
        return Err(Fault::WrongArity(name.into()));
    }
    let mut values = command.iter().skip(2).step_by(2);
    match values.any(|it| it.len() > MAX_TEXT) {
        true => Err(Fault::TooLong),
        false => Ok(()),
    }
}

/// MSET: sets each key to its text.
pub(super) fn set_all(
    command: Command<'_>,
    body: &mut dyn ShardBody,
    replies: &mut Replies,
) -> Result<(), Fault> {
    check_values("mset", command)?;
    put_all(body, command)?;
    replies.ok();
    Ok(())
}

fn put_all(body: &mut dyn ShardBody, command: Command<'_>) -> Result<(), Fault> {
    for index in (1..command.len()).step_by(2) {
        let made = put(body, command.get(index), command.get(index + 1));
        made.map_err(|fault| if index > 1 { Fault::InPart } else { fault })?;
    }
    Ok(())
}

/// MSETNX: sets each key to its text if none of them has a value, and answers whether it did so.
pub(super) fn set_all_new(
    command: Command<'_>,
    body: &mut dyn ShardBody,
    replies: &mut Replies,
) -> Result<(), Fault> {
    check_values("msetnx", command)?;
    let mut are_new = true;
    for key in command.iter().skip(1).step_by(2) {
        are_new &= !is_held(body, key)?;
    }
    if are_new {
        put_all_or_none(body, command)?;
    }
    replies.count(usize::from(are_new));
    Ok(())
}

/// Sets each key, none of which has a value, to its text. If memory is refused, it sets none.
fn put_all_or_none(body: &mut dyn ShardBody, command: Command<'_>) -> Result<(), Fault> {
    let made = put_all(body, command);
    if made.is_err() {
        for key in command.iter().skip(1).step_by(2) {
            remove(body, key)?;
        }
    }
    made.map_err(|fault| match fault {
        Fault::InPart => Fault::NoMemory,
        other => other,
    })
}

/// INCR: adds 1 to the key's number.
pub(super) fn increment(
    command: Command<'_>,
    body: &mut dyn ShardBody,
    replies: &mut Replies,
) -> Result<(), Fault> {
    add_number(body, command.get(1), 1, replies)
}

/// DECR: subtracts 1 from the key's number.
pub(super) fn decrement(
    command: Command<'_>,
    body: &mut dyn ShardBody,
    replies: &mut Replies,
) -> Result<(), Fault> {
    add_number(body, command.get(1), -1, replies)
}

/// INCRBY: adds to the key's number.
pub(super) fn add(
    command: Command<'_>,
    body: &mut dyn ShardBody,
    replies: &mut Replies,
) -> Result<(), Fault> {
    let number = number::parse(command.get(2)).ok_or(Fault::NotInteger)?;
    add_number(body, command.get(1), number, replies)
}

/// DECRBY: subtracts from the key's number.
pub(super) fn subtract(
    command: Command<'_>,
    body: &mut dyn ShardBody,
    replies: &mut Replies,
) -> Result<(), Fault> {
    let number = number::parse(command.get(2)).ok_or(Fault::NotInteger)?;
    let opposite = number.checked_neg().ok_or(Fault::NoOpposite)?;
    add_number(body, command.get(1), opposite, replies)
}

/// INCRBYFLOAT: adds to the key's number, which may have a fraction, and answers the sum.
pub(super) fn add_float(
    command: Command<'_>,
    body: &mut dyn ShardBody,
    replies: &mut Replies,
) -> Result<(), Fault> {
    let key = command.get(1);
    let before = match held(body, key)? {
        Some(ValueRef::Count(count)) => Some(LongDouble::from(count)),
        Some(ValueRef::Text(text)) => LongDouble::parse(text),
        None => Some(LongDouble::from(0)),
    };
    let more = LongDouble::parse(command.get(2));
    let (before, more) = (before.ok_or(Fault::NotFloat)?, more.ok_or(Fault::NotFloat)?);
    let sum = before.plus(more).ok_or(Fault::InfiniteSum)?.digits();
    put(body, key, &sum)?;
    CEILING.note_came(sum.len());
    replies.bulk(&sum);
    Ok(())
}

fn add_number(
    body: &mut dyn ShardBody,
    key: &[u8],
    number: i64,
    replies: &mut Replies,
) -> Result<(), Fault> {
    let sum = match body.add(key, number) {
        Ok(sum) => sum,
        Err(BodyRefusal::WrongKind) => add_to_text(body, key, number)?,
        Err(refusal) => return Err(refusal.into()),
    };
    replies.number(sum);
    Ok(())
}

/// Adds to a text that APPEND turned into a number.
fn add_to_text(body: &mut dyn ShardBody, key: &[u8], number: i64) -> Result<i64, Fault> {
    let before = match held(body, key)? {
        Some(ValueRef::Text(text)) => number::parse(text),
        Some(ValueRef::Count(count)) => Some(count),
        None => Some(0),
    };
    let sum = before
        .ok_or(Fault::NotInteger)?
        .checked_add(number)
        .ok_or(Fault::Overflow)?;
    body.put(key, ValueRef::Count(sum))?;
    Ok(sum)
}

/// APPEND: appends to the key's text, and answers the new length.
pub(super) fn append(
    command: Command<'_>,
    body: &mut dyn ShardBody,
    replies: &mut Replies,
) -> Result<(), Fault> {
    let (key, more) = (command.get(1), command.get(2));
    let length = match body.apply(BodyRequest::Append(key, more)) {
        BodyReply::Length(length) => length,
        BodyReply::Refused(BodyRefusal::WrongKind) => append_to_count(body, key, more)?,
        BodyReply::Refused(refusal) => return Err(refusal.into()),
        _ => 0,
    };
    replies.count(length);
    Ok(())
}

/// Appends to the digits of a count. The result may be a count again.
fn append_to_count(body: &mut dyn ShardBody, key: &[u8], more: &[u8]) -> Result<usize, Fault> {
    let mut text = text_of(body, key, more.len())?;
    memory::append(&mut text, more)?;
    put(body, key, &text)?;
    Ok(text.len())
}

#[cfg(test)]
mod tests {
    use super::*;
    use crate::body::ProvedBody;
    use crate::resp::{parse, Arguments};

    fn told(body: &mut dyn ShardBody, line: &str) -> String {
        let input = format!("{line}\r\n");
        let (mut arguments, mut replies) = (Arguments::default(), Replies::default());
        parse(input.as_bytes(), &mut arguments).unwrap();
        let command = arguments.command(input.as_bytes());
        let spec = Spec::of(command).unwrap();
        assert!(spec.is_data(), "{line} has no keys");
        answer(spec, command, body, &mut replies);
        let text = String::from_utf8_lossy(replies.unsent()).replace("\r\n", " ");
        text.trim_end().to_owned()
    }

    /// A body to which memory is refused after so many keys were written.
    struct Refused(ProvedBody, usize);

    impl ShardBody for Refused {
        fn get(&mut self, key: &[u8]) -> Result<Option<ValueRef<'_>>, BodyRefusal> {
            self.0.get(key)
        }

        fn put(&mut self, key: &[u8], value: ValueRef<'_>) -> Result<(), BodyRefusal> {
            self.1 = self.1.checked_sub(1).ok_or(BodyRefusal::NoMemory)?;
            self.0.put(key, value)
        }

        fn add(&mut self, key: &[u8], number: i64) -> Result<i64, BodyRefusal> {
            self.0.add(key, number)
        }

        fn apply<'a>(&'a mut self, request: BodyRequest<'_>) -> BodyReply<'a> {
            self.0.apply(request)
        }

        fn clear(&mut self) -> Result<(), BodyRefusal> {
            self.0.clear()
        }

        fn forget(&mut self) {
            self.0.forget();
        }

        fn measure(&mut self, key: &[u8]) -> Result<Option<usize>, BodyRefusal> {
            self.0.measure(key)
        }

        fn keys(&mut self) -> usize {
            self.0.keys()
        }
    }

    #[test]
    fn keys_that_are_written_in_part_are_told() {
        let mut body = Refused(ProvedBody::new().unwrap(), 2);
        let told_so = |body: &mut Refused, line, wanted: &str| {
            let told = told(body, line);
            assert!(told.starts_with(wanted), "{line}: {told}");
        };
        told_so(&mut body, "MSETNX a 1 b 2 c 3", "-OOM memory was refused");
        assert_eq!(body.keys(), 0);
        body.1 = 2;
        told_so(&mut body, "MSET a 1 b 2 c 3", "-UNKNOWN some of these keys");
        assert_eq!(body.keys(), 2);
        told_so(&mut body, "MSET d 1 e 2", "-OOM memory was refused");
    }

    /// Lines, and Redis 7's answers to them.
    const LINES: [(&str, &str); 76] = [
        ("SETRANGE r 2 hi", ":4"),
        ("GETRANGE r 2 9", "$2 hi"),
        ("SETRANGE r 0 12", ":4"),
        ("SETRANGE s 0 12", ":2"),
        ("INCR s", ":13"),
        ("SETRANGE s 1 4.5", ":4"),
        ("INCRBYFLOAT s -0.25", "$5 14.25"),
        ("INCRBYFLOAT s .75", "$2 15"),
        ("INCR s", ":16"),
        (
            "INCRBYFLOAT s inf",
            "-ERR increment would produce NaN or Infinity",
        ),
        ("INCRBYFLOAT s x", "-ERR value is not a valid float"),
        ("INCRBYFLOAT r 1", "-ERR value is not a valid float"),
        ("INCRBYFLOAT f 3.0e3", "$4 3000"),
        ("SETRANGE f -1 x", "-ERR offset is out of range"),
        (
            "SETRANGE f x 1",
            "-ERR value is not an integer or out of range",
        ),
        ("DEL r s f", ":3"),
        ("GET a", "$-1"),
        ("SET a 10", "+OK"),
        ("GET a", "$2 10"),
        ("INCR a", ":11"),
        ("INCRBY a -20", ":-9"),
        ("DECR a", ":-10"),
        ("DECRBY a 5", ":-15"),
        ("STRLEN a", ":3"),
        ("APPEND a 0", ":4"),
        ("INCR a", ":-149"),
        ("SET a 007", "+OK"),
        ("GET a", "$3 007"),
        ("INCR a", "-ERR value is not an integer or out of range"),
        ("INCRBY a x", "-ERR value is not an integer or out of range"),
        ("APPEND b 4", ":1"),
        ("APPEND b 2", ":2"),
        ("INCR b", ":43"),
        ("SET b 9223372036854775807", "+OK"),
        ("INCR b", "-ERR increment or decrement would overflow"),
        ("APPEND b 0", ":20"),
        ("INCR b", "-ERR value is not an integer or out of range"),
        ("EXISTS a b b c", ":3"),
        ("MGET a c", "*2 $3 007 $-1"),
        ("MSET a 1 c x", "+OK"),
        ("DEL a b c c", ":3"),
        ("SET a 1 XX", "$-1"),
        ("SET a 1 NX", "+OK"),
        ("SET a 2 NX", "$-1"),
        ("SET a 3 XX GET", "$1 1"),
        ("GET a", "$1 3"),
        ("SET a 3 NX XX", "-ERR syntax error"),
        ("SET a 3 NY", "-ERR syntax error"),
        ("STRLEN none", ":0"),
        ("SETNX n 5", ":1"),
        ("SETNX n 6", ":0"),
        ("INCR n", ":6"),
        ("GETSET n hello", "$1 6"),
        ("GETSET new x", "$-1"),
        ("GETRANGE n 0 -1", "$5 hello"),
        ("GETRANGE n 1 3", "$3 ell"),
        ("GETRANGE n -3 -2", "$2 ll"),
        ("GETRANGE n -2 -3", "$0"),
        ("GETRANGE n -99 1", "$2 he"),
        ("GETRANGE n 3 99", "$2 lo"),
        ("GETRANGE n 5 9", "$0"),
        ("GETRANGE n 4 2", "$0"),
        ("GETRANGE n 0 -99", "$1 h"),
        ("GETRANGE none 0 -1", "$0"),
        (
            "GETRANGE n x 1",
            "-ERR value is not an integer or out of range",
        ),
        ("SUBSTR a 0 0", "$1 3"),
        ("TOUCH a n none", ":2"),
        ("GETDEL n", "$5 hello"),
        ("GETDEL n", "$-1"),
        ("UNLINK new none", ":1"),
        ("EXISTS new n", ":0"),
        ("MSETNX n 1 a 2", ":0"),
        ("MSETNX n 1 new 2 n 3", ":1"),
        ("MGET n new a", "*3 $1 3 $1 2 $1 3"),
        ("GET a", "$1 3"),
        (
            "DECRBY a -9223372036854775808",
            "-ERR decrement would overflow",
        ),
    ];

    #[test]
    fn numbers_are_texts_and_texts_numbers_as_in_redis() {
        let mut body = ProvedBody::new().unwrap();
        for (line, answer) in LINES {
            assert_eq!(told(&mut body, line), answer, "{line}");
        }
    }

    #[test]
    fn what_is_too_long_changes_nothing() {
        let mut body = ProvedBody::new().unwrap();
        let (front, rest) = ("x".repeat(MAX_TEXT - 1_000), "y".repeat(1_000));
        assert_eq!(told(&mut body, &format!("SET a {front}")), "+OK");
        assert_eq!(told(&mut body, &format!("APPEND a {rest}")), ":65535");
        assert!(told(&mut body, "APPEND a x").starts_with("-TOOLONG"));
        assert_eq!(told(&mut body, "STRLEN a"), ":65535");
        let refused = "-TOOLONG a value has at most 65535 bytes";
        for line in [
            "SETRANGE a 65535 x",
            "SETRANGE a 65534 xy",
            "SETRANGE a 9223372036854775807 x",
        ] {
            assert_eq!(told(&mut body, line), refused);
        }
        assert_eq!(told(&mut body, "SETRANGE a 65534 z"), ":65535");
        assert_eq!(told(&mut body, "SETRANGE a 99999 \"\""), ":65535");
        assert!(told(&mut body, "SET a 1 EX 10").starts_with("-NOEXPIRY"));
    }
}
