//! A proved map of the library with the values that keys had when they were read. A command is done on it as on a
//! shard's own body. The differences are then written to the store.
use crate::body::{BodyReply, BodyRequest, ProvedBody, ShardBody, ValueRef};
use crate::command::Fault;
use crate::resp::number;
use durkenzo_driver::{Key, MapReply, MapRequest};

/// Returns a map in which these keys have these values.
pub(super) fn loaded(keys: &[Key], held: &[MapReply]) -> Result<ProvedBody, Fault> {
    let mut body = ProvedBody::new().map_err(|_| Fault::NoMemory)?;
    for (key, held) in keys.iter().zip(held) {
        let value = match held {
            MapReply::Text(text) => ValueRef::Text(text),
            MapReply::Count(count) => ValueRef::Count(*count),
            _ => continue,
        };
        if let BodyReply::Refused(refusal) = body.apply(BodyRequest::Put(key, value)) {
            return Err(refusal.into());
        }
    }
    Ok(body)
}

/// Returns the requests that give each of the keys, which differ, the value that it has in the map.
pub(super) fn changes(body: &mut ProvedBody, keys: &[Key], held: &[MapReply]) -> Vec<MapRequest> {
    let each = keys.iter().zip(held);
    each.flat_map(|(key, before)| match body.apply(BodyRequest::Get(key)) {
        BodyReply::Value(ValueRef::Text(text)) => match number::parse(text) {
            Some(count) => to_count(key, before, count),
            None => to_text(key, before, text),
        },
        BodyReply::Value(ValueRef::Count(count)) => to_count(key, before, count),
        BodyReply::Nothing if *before == MapReply::Nothing => Vec::new(),
        BodyReply::Nothing => vec![MapRequest::Delete(key.clone())],
        // A read is answered with the key's value, or with nothing. After any other reply nothing is written.
        BodyReply::Done
        | BodyReply::Length(_)
        | BodyReply::Count(_)
        | BodyReply::Pairs(_)
        | BodyReply::Refused(_) => Vec::new(),
    })
    .collect()
}

fn to_text(key: &Key, before: &MapReply, text: &[u8]) -> Vec<MapRequest> {
    let put = || MapRequest::Put(key.clone(), text.to_vec());
    match before {
        MapReply::Text(before) if before == text => Vec::new(),
        MapReply::Text(before) => match text.strip_prefix(before.as_slice()) {
            Some(more) => vec![MapRequest::Append(key.clone(), more.to_vec())],
            None => vec![put()],
        },
        MapReply::Count(_) => vec![MapRequest::Delete(key.clone()), put()],
        _ => vec![put()],
    }
}

fn to_count(key: &Key, before: &MapReply, count: i64) -> Vec<MapRequest> {
    let add = |amount| MapRequest::Add(key.clone(), amount);
    match before {
        MapReply::Count(before) if *before == count => Vec::new(),
        MapReply::Count(before) => match count.checked_sub(*before) {
            Some(amount) => vec![add(amount)],
            None => vec![MapRequest::Delete(key.clone()), add(count)],
        },
        MapReply::Text(_) => vec![MapRequest::Delete(key.clone()), add(count)],
        _ => vec![add(count)],
    }
}
