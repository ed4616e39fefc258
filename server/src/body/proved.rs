use super::{
    BodyRefusal, BodyReply, BodyRequest, PairRef, RangeRef, ShardBody, ValueRef, MAX_KEY,
    MAX_PAIRS, MAX_TEXT,
};
use crate::memory::{self, NoRoom};
use crate::resp::number::Digits;
use durkenzo::{Held, LentReply, LentText, Map, MapFault, Measure, Request, Value};
use std::ops::Bound;

/// How many bytes of room for a text are kept from one request to the next.
const KEPT_ROOM: usize = 1 << 10;

/// After this many deleted bytes the map checks whether it can give memory back. It gives none back after fewer.
const MOST_DELETED: usize = 64 << 10;

/// The reply of a map, unless it is a refusal.
#[derive(Debug)]
enum ProvedReply {
    Nothing,
    Done,
    /// A text, which lies in the body's room.
    Text,
    Count(i64),
    Pairs(Vec<(Vec<u8>, Value)>),
}

/// A shard's pairs, in the library's map. The map's reply to each request is proved. The code here chooses which
/// requests a command makes, under one permit.
#[derive(Debug)]
pub struct ProvedBody {
    map: Map,
    /// The last reply of the map, which replies of the body borrow.
    told: ProvedReply,
    /// The text of the last reply. It is kept so that few texts need memory of their own.
    text: Vec<u8>,
    /// How many keys had a value when the map was last asked, unless a request may have changed it since.
    keys: Option<usize>,
    /// How many bytes were deleted since the map last checked whether it can give memory back.
    deleted: usize,
}

impl ProvedBody {
    /// Makes a body without keys, or fails if memory is refused.
    pub fn new() -> Result<ProvedBody, MapFault> {
        Ok(ProvedBody {
            map: Map::new()?,
            told: ProvedReply::Nothing,
            text: Vec::new(),
            keys: Some(0),
            deleted: 0,
        })
    }

    /// Makes the request on the map and keeps the reply; or returns the refusal, by which nothing changed.
    fn ask(&mut self, request: &Request<'_>) -> Result<(), BodyRefusal> {
        self.told = match lent(&mut self.map, request)? {
            LentReply::Nothing => ProvedReply::Nothing,
            LentReply::Done => ProvedReply::Done,
            LentReply::Text(text) => {
                keep(text, &mut self.text)?;
                ProvedReply::Text
            }
            LentReply::Count(count) => ProvedReply::Count(count),
            LentReply::Pairs(pairs) => ProvedReply::Pairs(pairs),
            LentReply::WrongKind => return Err(BodyRefusal::WrongKind),
            LentReply::Overflow => return Err(BodyRefusal::Overflow),
            LentReply::TextTooLong => return Err(BodyRefusal::TooLong),
        };
        Ok(())
    }

    /// Returns the last reply, if it was a value.
    fn value(&self) -> Option<ValueRef<'_>> {
        match &self.told {
            ProvedReply::Text => Some(ValueRef::Text(&self.text)),
            ProvedReply::Count(count) => Some(ValueRef::Count(*count)),
            _ => None,
        }
    }

    /// Sets the value of a key that may have a value of another kind.
    // This is a function of its own because most calls of `put` then save no registers for it.
    #[inline(never)]
    fn put_over(&mut self, key: &[u8], value: ValueRef<'_>) -> Result<(), BodyRefusal> {
        self.ask(&Request::Get(key))?;
        lent(&mut self.map, &Request::Remove(key))?;
        if let Err(refusal) = lent(&mut self.map, &asked_for(key, value)) {
            // The key gets its old value back, unless memory is refused for that too.
            if let Some(held) = self.value().map(owned) {
                let map = &mut self.map;
                let _ = memory::with_spare(|| map.ask(&asked_for(key, borrowed(&held))).is_ok());
            }
            return Err(refusal);
        }
        Ok(())
    }

    /// Returns how many bytes the key's text has.
    fn length(&mut self, key: &[u8]) -> Result<usize, BodyRefusal> {
        match self.map.measure(key).map_err(refusal_of)? {
            Some(Measure::Text(length)) => Ok(length),
            other => unreachable!("a text was appended to, and the key holds {other:?}"),
        }
    }

    /// Asks the map for the pairs of the range.
    fn scan(&mut self, range: RangeRef<'_>) -> Result<(), BodyRefusal> {
        self.told = ProvedReply::Pairs(Vec::new());
        let Some(low) = lowest(range.low) else {
            return Ok(());
        };
        let high = range.high.unwrap_or(&LAST_KEY);
        if high.is_empty() {
            return Ok(());
        }
        let most = range.most.min(MAX_PAIRS);
        self.ask(&Request::Scan(&low, high, most as u32))?;
        if range.high.is_none() && low.as_slice() <= &LAST_KEY[..] {
            self.scan_last(most)?;
        }
        Ok(())
    }

    /// Adds the greatest possible key to the pairs, if it has a value: no bound is above that key.
    fn scan_last(&mut self, most: usize) -> Result<(), BodyRefusal> {
        let before = std::mem::replace(&mut self.told, ProvedReply::Nothing);
        self.ask(&Request::Get(&LAST_KEY))?;
        let last = self.value().map(owned);
        self.told = before;
        if let (ProvedReply::Pairs(pairs), Some(value)) = (&mut self.told, last) {
            if pairs.len() < most {
                pairs.push((LAST_KEY.to_vec(), value));
            }
        }
        Ok(())
    }

    /// Makes the request. Its reply is then in `told`.
    fn make(&mut self, request: &Request<'_>) -> Result<(), BodyRefusal> {
        // The reply doesn't say whether the number of keys has changed.
        self.keys = None;
        self.ask(request)
    }

    /// Deletes the key.
    fn delete(&mut self, key: &[u8]) -> Result<(), BodyRefusal> {
        let length = self.measure(key)?;
        self.make(&Request::Remove(key))?;
        self.deleted += length.map_or(0, |it| key.len() + it);
        if self.deleted > MOST_DELETED {
            self.deleted = 0;
            self.give_back(key);
        }
        Ok(())
    }

    /// Has the map give memory back, if more bytes were deleted than stay. The map checks that when it writes. If the
    /// key has no value before this call, it has none after it.
    fn give_back(&mut self, key: &[u8]) {
        let map = &mut self.map;
        let written = memory::with_spare(|| lent(map, &Request::Append(key, b"")).is_ok());
        if written && lent(&mut self.map, &Request::Remove(key)).is_err() {
            unreachable!("to remove a key takes no memory");
        }
    }

    /// Returns the reply to the last request.
    fn reply(&self) -> BodyReply<'_> {
        match &self.told {
            ProvedReply::Nothing => BodyReply::Nothing,
            ProvedReply::Done => BodyReply::Done,
            ProvedReply::Text => BodyReply::Value(ValueRef::Text(&self.text)),
            ProvedReply::Count(count) => BodyReply::Value(ValueRef::Count(*count)),
            ProvedReply::Pairs(pairs) => BodyReply::Pairs(pairs.iter().map(lent_pair).collect()),
        }
    }
}

impl ShardBody for ProvedBody {
    fn get(&mut self, key: &[u8]) -> Result<Option<ValueRef<'_>>, BodyRefusal> {
        let (map, text) = (&mut self.map, &mut self.text);
        let held = memory::fallibly(|| map.get_in(key, text)).map_err(refusal_of)?;
        Ok(held.map(|it| match it {
            Held::Text(text) => ValueRef::Text(text),
            Held::Count(count) => ValueRef::Count(count),
        }))
    }

    fn put(&mut self, key: &[u8], value: ValueRef<'_>) -> Result<(), BodyRefusal> {
        self.keys = None;
        if let ValueRef::Text(text) = value {
            if text.len() > MAX_TEXT {
                return Err(BodyRefusal::TooLong);
            }
            match self.map.put(key, text) {
                Err(MapFault::WrongKind) => {}
                done => return done.map_err(refusal_of),
            }
        }
        self.put_over(key, value)
    }

    fn add(&mut self, key: &[u8], number: i64) -> Result<i64, BodyRefusal> {
        let sum = self.map.add(key, number).map_err(refusal_of)?;
        // If the key had no value until now, the sum is the number itself.
        if sum == number {
            self.keys = None;
        }
        Ok(sum)
    }

    fn apply<'a>(&'a mut self, request: BodyRequest<'_>) -> BodyReply<'a> {
        let made = match request {
            BodyRequest::Get(key) => self.ask(&Request::Get(key)),
            BodyRequest::Put(key, value) => {
                return self
                    .put(key, value)
                    .map_or_else(BodyReply::Refused, |()| BodyReply::Done)
            }
            BodyRequest::Add(key, number) => {
                return self
                    .add(key, number)
                    .map_or_else(BodyReply::Refused, BodyReply::Count)
            }
            BodyRequest::Append(key, more) => {
                let made = self.make(&Request::Append(key, more));
                let length = made.and_then(|()| self.length(key));
                return length.map_or_else(BodyReply::Refused, BodyReply::Length);
            }
            BodyRequest::Delete(key) => self.delete(key),
            BodyRequest::Scan(range) => self.scan(range),
        };
        match made {
            Ok(()) => self.reply(),
            Err(refusal) => BodyReply::Refused(refusal),
        }
    }

    fn clear(&mut self) -> Result<(), BodyRefusal> {
        // A new map has no keys.
        *self = memory::fallibly(ProvedBody::new).map_err(refusal_of)?;
        Ok(())
    }

    fn forget(&mut self) {
        self.told = ProvedReply::Nothing;
        if self.text.len() > KEPT_ROOM {
            self.text.truncate(KEPT_ROOM);
            self.text.shrink_to_fit();
        }
    }

    fn measure(&mut self, key: &[u8]) -> Result<Option<usize>, BodyRefusal> {
        let held = self.map.measure(key).map_err(refusal_of)?;
        Ok(held.map(|it| match it {
            Measure::Text(length) => length,
            Measure::Count(count) => Digits::new(count).as_bytes().len(),
        }))
    }

    fn keys(&mut self) -> usize {
        *self.keys.get_or_insert_with(|| self.map.len() as usize)
    }
}

/// The greatest possible key.
static LAST_KEY: [u8; MAX_KEY] = [u8::MAX; MAX_KEY];

/// Returns the least key within the bound, if there is one.
fn lowest(bound: Bound<&[u8]>) -> Option<Vec<u8>> {
    let mut key = match bound {
        Bound::Unbounded => Vec::new(),
        Bound::Included(low) => low.to_vec(),
        Bound::Excluded(low) if low.len() < MAX_KEY => [low, &[0]].concat(),
        Bound::Excluded(low) => {
            let kept = low.iter().rposition(|it| *it < u8::MAX)?;
            let mut key = low[..=kept].to_vec();
            key[kept] += 1;
            key
        }
    };
    if key.is_empty() {
        key.push(0);
    }
    Some(key)
}

/// Returns the request that gives this value to a key without a value.
fn asked_for<'a>(key: &'a [u8], value: ValueRef<'a>) -> Request<'a> {
    match value {
        ValueRef::Text(text) => Request::Put(key, text),
        ValueRef::Count(count) => Request::Add(key, count),
    }
}

/// Copies the text into the room, in place of the room's content.
fn keep(text: LentText<'_>, room: &mut Vec<u8>) -> Result<(), BodyRefusal> {
    room.clear();
    room.shrink_to(KEPT_ROOM);
    memory::reserve(room, text.len()).map_err(|NoRoom| BodyRefusal::NoMemory)?;
    text.append_to(room);
    Ok(())
}

/// Returns the map's reply to the request, which borrows from the map; or fails if memory is refused.
#[inline]
fn lent<'a>(map: &'a mut Map, request: &Request<'_>) -> Result<LentReply<'a>, BodyRefusal> {
    memory::fallibly(|| map.lend(request)).map_err(refusal_of)
}

/// Returns the reason for which a request with a valid key changes nothing.
fn refusal_of(fault: MapFault) -> BodyRefusal {
    match fault {
        MapFault::NoMemory => BodyRefusal::NoMemory,
        MapFault::WrongKind => BodyRefusal::WrongKind,
        MapFault::Overflow => BodyRefusal::Overflow,
        MapFault::TextTooLong => BodyRefusal::TooLong,
        other => unreachable!("a key was judged before: {other}"),
    }
}

fn owned(value: ValueRef<'_>) -> Value {
    match value {
        ValueRef::Text(text) => Value::Text(text.to_vec()),
        ValueRef::Count(count) => Value::Count(count),
    }
}

fn lent_pair((key, held): &(Vec<u8>, Value)) -> PairRef<'_> {
    (key, borrowed(held))
}

fn borrowed(held: &Value) -> ValueRef<'_> {
    match held {
        Value::Text(text) => ValueRef::Text(text),
        Value::Count(count) => ValueRef::Count(*count),
    }
}

#[cfg(test)]
mod tests {
    use super::*;

    fn body() -> ProvedBody {
        ProvedBody::new().unwrap()
    }

    #[test]
    fn texts_and_counts_are_two_kinds() {
        let mut body = body();
        assert_eq!(body.apply(BodyRequest::Get(b"a")), BodyReply::Nothing);
        assert_eq!(
            body.apply(BodyRequest::Append(b"a", b"x")),
            BodyReply::Length(1)
        );
        assert_eq!(
            body.apply(BodyRequest::Append(b"a", b"yz")),
            BodyReply::Length(3)
        );
        let wrong = BodyReply::Refused(BodyRefusal::WrongKind);
        assert_eq!(body.apply(BodyRequest::Add(b"a", 1)), wrong);
        assert_eq!(body.apply(BodyRequest::Add(b"b", -7)), BodyReply::Count(-7));
        assert_eq!(body.apply(BodyRequest::Append(b"b", b"x")), wrong);
        let overflow = BodyReply::Refused(BodyRefusal::Overflow);
        assert_eq!(body.apply(BodyRequest::Add(b"b", i64::MIN)), overflow);
        assert_eq!(
            body.apply(BodyRequest::Get(b"b")),
            BodyReply::Value(ValueRef::Count(-7))
        );
        assert_eq!(body.keys(), 2);
        assert_eq!(body.apply(BodyRequest::Delete(b"b")), BodyReply::Done);
        assert_eq!(body.apply(BodyRequest::Delete(b"b")), BodyReply::Nothing);
        assert_eq!(body.keys(), 1);
    }

    #[test]
    fn a_put_writes_over_either_kind() {
        let mut body = body();
        let values = [
            ValueRef::Text(b"one"),
            ValueRef::Count(2),
            ValueRef::Count(-3),
            ValueRef::Text(b""),
            ValueRef::Text(b"five"),
        ];
        for value in values {
            assert_eq!(body.apply(BodyRequest::Put(b"key", value)), BodyReply::Done);
            assert_eq!(
                body.apply(BodyRequest::Get(b"key")),
                BodyReply::Value(value)
            );
            assert_eq!(body.keys(), 1);
        }
    }

    #[test]
    fn what_is_deleted_is_nothing_whenever_memory_is_given_back() {
        let mut body = body();
        let text = [b'x'; 50_000];
        for round in 0..3 {
            for number in 0..20_u8 {
                assert_eq!(
                    body.apply(BodyRequest::Put(&[b'k', number], ValueRef::Text(&text))),
                    BodyReply::Done
                );
            }
            for number in 0..20 - round {
                let key = [b'k', number];
                assert_eq!(body.apply(BodyRequest::Delete(&key)), BodyReply::Done);
                assert_eq!(body.apply(BodyRequest::Delete(&key)), BodyReply::Nothing);
                assert_eq!(body.apply(BodyRequest::Get(&key)), BodyReply::Nothing);
                assert_eq!(body.keys(), 19 - usize::from(number));
            }
        }
        assert_eq!(
            body.apply(BodyRequest::Get(&[b'k', 18])),
            BodyReply::Value(ValueRef::Text(&text))
        );
    }

    #[test]
    fn texts_are_bounded() {
        let (mut body, long) = (body(), vec![0; MAX_TEXT + 1]);
        let refused = BodyReply::Refused(BodyRefusal::TooLong);
        body.apply(BodyRequest::Add(b"count", 1));
        for key in [b"a".as_slice(), b"count"] {
            assert_eq!(
                body.apply(BodyRequest::Put(key, ValueRef::Text(&long))),
                refused
            );
        }
        assert_eq!(
            body.apply(BodyRequest::Get(b"count")),
            BodyReply::Value(ValueRef::Count(1))
        );
        assert_eq!(body.apply(BodyRequest::Append(b"a", &long)), refused);
        let most = ValueRef::Text(&long[1..]);
        assert_eq!(body.apply(BodyRequest::Put(b"a", most)), BodyReply::Done);
        assert_eq!(body.apply(BodyRequest::Append(b"a", b"x")), refused);
        assert_eq!(
            body.apply(BodyRequest::Append(b"a", b"")),
            BodyReply::Length(MAX_TEXT)
        );
    }

    #[test]
    fn scans_go_in_order_within_bounds() {
        let mut body = body();
        for key in [b"c", b"a", b"b", b"d"] {
            body.apply(BodyRequest::Add(key, i64::from(key[0])));
        }
        let mut keys =
            |low, high, most| match body.apply(BodyRequest::Scan(RangeRef { low, high, most })) {
                BodyReply::Pairs(pairs) => {
                    pairs.iter().map(|it| it.0[0] as char).collect::<String>()
                }
                other => panic!("{other:?}"),
            };
        assert_eq!(keys(Bound::Unbounded, None, 9), "abcd");
        assert_eq!(keys(Bound::Included(b"b"), Some(b"d"), 9), "bc");
        assert_eq!(keys(Bound::Excluded(b"b"), None, 1), "c");
        assert_eq!(keys(Bound::Excluded(b"b"), Some(b"b"), 9), "");
        assert_eq!(keys(Bound::Included(b"d"), Some(b"a"), 9), "");
        assert_eq!(keys(Bound::Unbounded, Some(b""), 9), "");
    }

    #[test]
    fn the_least_and_the_greatest_keys_are_scanned() {
        let mut body = body();
        let least: &[u8] = &[0];
        let below = [&LAST_KEY[..MAX_KEY - 1], &[254]].concat();
        for key in [&LAST_KEY, least, &below] {
            body.apply(BodyRequest::Add(key, 1));
        }
        let mut keys = |low, most| match body.apply(BodyRequest::Scan(RangeRef {
            low,
            high: None,
            most,
        })) {
            BodyReply::Pairs(pairs) => pairs.iter().map(|it| it.0.to_vec()).collect::<Vec<_>>(),
            other => panic!("{other:?}"),
        };
        assert_eq!(keys(Bound::Unbounded, 9), [least, &below, &LAST_KEY]);
        assert_eq!(keys(Bound::Unbounded, 2), [least, &below]);
        assert_eq!(keys(Bound::Excluded(&below), 9), [LAST_KEY.to_vec()]);
        assert_eq!(keys(Bound::Included(&LAST_KEY), 9), [LAST_KEY.to_vec()]);
        assert_eq!(keys(Bound::Excluded(&LAST_KEY), 9), Vec::<Vec<u8>>::new());
    }
}
