//! Compares the map with one of the standard library.
mod common;

use common::{server_id, shard_id};
use durkenzo::{Board, Held, LentReply, Map, MapFault, Measure, Mode, Reply, Request, Value};
use std::collections::BTreeMap;

/// A generator of random numbers that are the same in each run.
struct Draws(u64);

impl Draws {
    /// Returns a number below the bound.
    fn below(&mut self, bound: u64) -> u64 {
        self.0 ^= self.0 << 13;
        self.0 ^= self.0 >> 7;
        self.0 ^= self.0 << 17;
        self.0 % bound
    }
}

fn text(value: &str) -> Option<Value> {
    Some(Value::Text(value.as_bytes().to_vec()))
}

#[test]
fn what_a_key_holds() {
    let mut map = Map::new().unwrap();
    assert_eq!(map.get("name"), Ok(None));
    map.put("name", "durkenzo").unwrap();
    map.append("name", "!").unwrap();
    map.append("new", "text").unwrap();
    assert_eq!(map.get("name"), Ok(text("durkenzo!")));
    assert_eq!(map.get("new"), Ok(text("text")));
    assert_eq!(map.add("visits", -3), Ok(-3));
    assert_eq!(map.add("visits", 5), Ok(2));
    assert_eq!(map.get("visits"), Ok(Some(Value::Count(2))));
    assert_eq!(
        (map.remove("name"), map.remove("name")),
        (Ok(true), Ok(false))
    );
}

#[test]
fn a_lent_text_is_copied_where_it_is_wanted() {
    let mut map = Map::new().unwrap();
    map.put("name", "durkenzo").unwrap();
    map.put("empty", "").unwrap();
    let mut told = b"name: ".to_vec();
    match map.lend(&Request::Get(b"name")) {
        Ok(LentReply::Text(text)) => {
            assert_eq!((text.len(), text.is_empty()), (8, false));
            text.append_to(&mut told);
        }
        other => panic!("{other:?}"),
    }
    assert_eq!(told, b"name: durkenzo");
    match map.lend(&Request::Get(b"empty")) {
        Ok(LentReply::Text(text)) => assert!(text.is_empty() && text.into_vec().is_empty()),
        other => panic!("{other:?}"),
    }
    assert!(matches!(
        map.lend(&Request::Add(b"visits", 2)),
        Ok(LentReply::Count(2))
    ));
}

#[test]
fn refused_requests_change_nothing() {
    let mut map = Map::new().unwrap();
    map.put("text", "a").unwrap();
    map.add("count", i64::MAX).unwrap();
    assert_eq!(map.add("text", 1), Err(MapFault::WrongKind));
    assert_eq!(map.put("count", "a"), Err(MapFault::WrongKind));
    assert_eq!(map.append("count", "a"), Err(MapFault::WrongKind));
    assert_eq!(map.add("count", 1), Err(MapFault::Overflow));
    let long = vec![b'x'; 65_535];
    assert_eq!(map.put("long", &long), Ok(()));
    assert_eq!(map.append("long", "x"), Err(MapFault::TextTooLong));
    assert_eq!(
        map.put("text", [long, vec![b'x']].concat()),
        Err(MapFault::TextTooLong)
    );
    assert_eq!(map.get(""), Err(MapFault::EmptyKey));
    assert_eq!(map.get([b'k'; 255]), Ok(None));
    assert_eq!(map.get([b'k'; 256]), Err(MapFault::KeyTooLong));
    let mut room = Vec::new();
    assert_eq!(map.get_in("", &mut room), Err(MapFault::EmptyKey));
    assert_eq!(map.get_in([b'k'; 255], &mut room), Ok(None));
    assert_eq!(
        map.get_in([b'k'; 256], &mut room),
        Err(MapFault::KeyTooLong)
    );
    assert_eq!(map.measure(""), Err(MapFault::EmptyKey));
    assert_eq!(map.measure("long"), Ok(Some(Measure::Text(65_535))));
    assert_eq!(map.get("text"), Ok(text("a")));
    assert_eq!(map.get("count"), Ok(Some(Value::Count(i64::MAX))));
}

#[test]
fn a_scan_gives_pairs_in_order() {
    let mut map = Map::new().unwrap();
    for number in (0..120).rev() {
        map.add(format!("k{number:03}"), number).unwrap();
    }
    map.put("k050x", "between").unwrap();
    let found = map.scan("k050", "k052", 10).unwrap();
    let keys: Vec<_> = found.iter().map(|(key, _)| key.as_slice()).collect();
    assert_eq!(keys, [b"k050".as_slice(), b"k050x", b"k051"]);
    assert_eq!(found[1].1, text("between").unwrap());
    assert_eq!(map.scan("k", "l", 1000).unwrap().len(), 100);
    assert_eq!(map.scan("l", "k", 10), Ok(Vec::new()));
    assert_eq!(map.scan("k", "l", 0), Ok(Vec::new()));
}

/// Returns the reply of a map of the standard library, and makes the request's changes to that map.
fn expected(map: &mut BTreeMap<Vec<u8>, Value>, request: &Request<'_>) -> Reply {
    let held = map.get(request.key()).cloned();
    match (*request, held) {
        (Request::Get(_), held) => held.map_or(Reply::Nothing, Reply::Value),
        (Request::Put(..) | Request::Append(..), Some(Value::Count(_))) => Reply::WrongKind,
        (Request::Put(key, text), _) => {
            map.insert(key.to_vec(), Value::Text(text.to_vec()));
            Reply::Done
        }
        (Request::Append(key, tail), held) => {
            let mut text = match held {
                Some(Value::Text(text)) => text,
                _ => Vec::new(),
            };
            text.extend_from_slice(tail);
            map.insert(key.to_vec(), Value::Text(text));
            Reply::Done
        }
        (Request::Add(..), Some(Value::Text(_))) => Reply::WrongKind,
        (Request::Add(key, amount), held) => {
            let before = match held {
                Some(Value::Count(count)) => count,
                _ => 0,
            };
            map.insert(key.to_vec(), Value::Count(before + amount));
            Reply::Value(Value::Count(before + amount))
        }
        (Request::Remove(key), held) => {
            map.remove(key);
            held.map_or(Reply::Nothing, |_| Reply::Done)
        }
        (Request::Scan(low, high, most), _) => Reply::Pairs(
            map.iter()
                .filter(|(key, _)| low <= key.as_slice() && key.as_slice() < high)
                .map(|(key, value)| (key.clone(), value.clone()))
                .take(most as usize)
                .collect(),
        ),
    }
}

/// Returns the measure of this value, which has no bytes of a text.
fn measure(value: &Value) -> Measure {
    match value {
        Value::Text(text) => Measure::Text(text.len()),
        Value::Count(count) => Measure::Count(*count),
    }
}

fn owned(held: Held<'_>) -> Value {
    match held {
        Held::Text(text) => Value::Text(text.to_vec()),
        Held::Count(count) => Value::Count(count),
    }
}

#[test]
fn random_requests_beside_the_standard_library() {
    let (mut map, mut beside) = (Map::new().unwrap(), BTreeMap::new());
    let (mut draws, mut room) = (Draws(0x9e37_79b9_7f4a_7c15), Vec::new());
    for round in 0..20_000 {
        let key = format!("key{}", draws.below(40)).into_bytes();
        let other = format!("key{}", draws.below(40)).into_bytes();
        let request = match draws.below(8) {
            0 | 1 => Request::Get(&key),
            2 => Request::Put(&key, &other),
            3 => Request::Append(&key, &other),
            4 | 5 => Request::Add(&key, draws.below(1000) as i64 - 500),
            6 => Request::Remove(&key),
            _ => Request::Scan(&key, &other, draws.below(50) as u32),
        };
        let wanted = expected(&mut beside, &request);
        assert_eq!(
            map.ask(&request),
            Ok(wanted),
            "in round {round}: {request:?}"
        );
        let held = map.get_in(&other, &mut room).unwrap().map(owned);
        assert_eq!(held.as_ref(), beside.get(&other), "in round {round}");
        let measured = map.measure(&other).unwrap();
        assert_eq!(measured, held.as_ref().map(measure), "in round {round}");
    }
}

/// Returns how many bytes of memory this process uses, if the system tells.
fn memory() -> Option<usize> {
    let told = std::fs::read_to_string("/proc/self/statm").ok()?;
    Some(told.split(' ').nth(1)?.parse::<usize>().ok()? * 4096)
}

#[test]
fn replies_and_texts_that_are_written_over_are_let_go() {
    let mut map = Map::new().unwrap();
    let mut rounds = |count| {
        for round in 0..count {
            map.put("key", format!("text {round}")).unwrap();
            map.get("key").unwrap();
        }
    };
    rounds(50_000);
    let before = memory();
    rounds(200_000);
    if let (Some(before), Some(after)) = (before, memory()) {
        assert!(
            after < before + (4 << 20),
            "{before} bytes, and then {after}"
        );
    }
}

#[test]
fn a_map_is_a_body() {
    let bodies: Vec<Map> = (0..4).map(|_| Map::new().unwrap()).collect();
    let board = Board::builder().servers(2).build(bodies).unwrap();
    board.control().assign(shard_id(3), server_id(1)).unwrap();
    let mut pass = board.pass(server_id(1)).unwrap();
    for round in 1..=3 {
        let mut map = pass.admit(shard_id(3), Mode::Direct).unwrap();
        assert_eq!(map.add("rounds", 1), Ok(round));
    }
}
