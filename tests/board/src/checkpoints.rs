//! The sample service against a plain list, with a checkpoint anywhere between its requests.

ghost use Rattle.std.specs.Prelude.{◌<◌};

use sm_ranges::key::Key;
use sm_service::{Bytes, CounterText, PairList, Reply, Request, Service, Val};
use std::alloc::{AllocError, Global};
use std::process::Abort;
use std::test::Fail;

/// How many requests are drawn.
const REQUESTS: usize = 100;

/// The texts of the requests.
const TEXTS: [&[u8]; 4] = [b"", b"x", b"yz", b"\xff \0"];

/// What an `inc` adds.
const AMOUNTS: [i64; 4] = [-1, 3, i64::MAX, i64::MIN];

/// What a drawn request asks for.
#[derive(Clone, Copy, Debug)]
enum Kind {
    Get,
    Put,
    Append,
    Inc,
    Del,
    Scan,
}

/// A request as it is drawn. Keys, texts and amounts are named by their places.
#[derive(Clone, Copy, Debug)]
struct Drawn {
    kind: Kind,
    key: u8,
    high: u8,
    choice: u8,
}

/// What a key holds in the plain list.
#[derive(Debug, Drop)]
enum Cell {
    Empty,
    Text(Vec<u8>),
    Count(i64),
}

// Numbers below the bound that look drawn by chance, the same on every run.
fn below(bound: u8, seed: &mut u64) -> u8
    requires { 0 < bound }
{
    *seed = seed
        .wrapping_mul(6_364_136_223_846_793_005)
        .wrapping_add(1_442_695_040_888_963_407);
    seed.to_be_bytes()[0] % bound
}

fn draw(seed: &mut u64) -> Drawn {
    let kind = match below(6, seed) {
        0 => Kind::Get,
        1 => Kind::Put,
        2 => Kind::Append,
        3 => Kind::Inc,
        4 => Kind::Del,
        _ => Kind::Scan,
    };
    Drawn {
        kind,
        key: below(5, seed),
        high: below(6, seed),
        choice: below(4, seed),
    }
}

fn draw_all(alloc: Global) -> Result<Vec<Drawn>, AllocError> {
    let mut seed = 7;
    let mut all = Vec::new(alloc);
    for _ in 0..REQUESTS {
        all.push(draw(&mut seed))?;
    }
    Ok(all)
}

fn text_of(drawn: Drawn) -> &'static [u8] {
    match TEXTS.get(usize::from(drawn.choice)) {
        Some(text) => *text,
        None => b"",
    }
}

fn amount_of(drawn: Drawn) -> i64 {
    match AMOUNTS.get(usize::from(drawn.choice)) {
        Some(amount) => *amount,
        None => 0,
    }
}

// The key of this place.
fn key_of(alloc: Global, at: u8) -> Result<Key, Fail> {
    Ok(Key::new(alloc, &[at])?)
}

fn request_of(alloc: Global, drawn: Drawn) -> Result<Request, Fail> {
    let key = key_of(alloc, drawn.key)?;
    Ok(match drawn.kind {
        Kind::Get => Request::Get(key),
        Kind::Put => Request::Put(key, Bytes::new(alloc, text_of(drawn))?),
        Kind::Append => Request::Append(key, Bytes::new(alloc, text_of(drawn))?),
        Kind::Inc => Request::Inc(key, amount_of(drawn)),
        Kind::Del => Request::Del(key),
        Kind::Scan => Request::Scan(key, key_of(alloc, drawn.high)?, u32::from(drawn.choice)),
    })
}

// ---- the plain list

fn shown_cell(alloc: Global, cell: &Cell) -> Result<String, AllocError> {
    match cell {
        Cell::Empty => format!(in alloc; "nothing"),
        Cell::Text(text) => format!(in alloc; "text {:?}", text.as_slice()),
        Cell::Count(count) => format!(in alloc; "count {}", *count),
    }
}

fn put(alloc: Global, cell: &mut Cell, text: &[u8]) -> Result<&'static str, AllocError> {
    if let Cell::Count(_) = cell {
        return Ok("wrong kind");
    }
    *cell = Cell::Text(Vec::from_slice(alloc, text)?);
    Ok("done")
}

fn append(alloc: Global, cell: &mut Cell, tail: &[u8]) -> Result<&'static str, AllocError> {
    if let Cell::Text(text) = cell {
        text.extend_from_slice(tail)?;
        return Ok("done");
    }
    put(alloc, cell, tail)
}

fn inc(alloc: Global, cell: &mut Cell, amount: i64) -> Result<String, AllocError> {
    let sum = match cell {
        Cell::Empty => Some(amount),
        Cell::Count(count) => count.checked_add(amount),
        Cell::Text(_) => return format!(in alloc; "wrong kind"),
    };
    match sum {
        None => format!(in alloc; "overflow"),
        Some(sum) => {
            *cell = Cell::Count(sum);
            shown_cell(alloc, cell)
        }
    }
}

fn del(cell: &mut Cell) -> &'static str {
    if let Cell::Empty = cell {
        return "nothing";
    }
    *cell = Cell::Empty;
    "done"
}

// The first cells from one place on and below another that hold anything.
fn scan(alloc: Global, cells: &[Cell], drawn: Drawn) -> Result<String, AllocError> {
    let mut shown = String::new(alloc);
    let mut left = drawn.choice;
    for (at, cell) in cells.iter().enumerate() {
        let within = at >= usize::from(drawn.key) && at < usize::from(drawn.high);
        if within && left > 0 && !matches!(cell, Cell::Empty) {
            let cell = shown_cell(alloc, cell)?;
            shown.push_str(&format!(in alloc; "{at}: {}; ", cell.as_str())?)?;
            left -= 1;
        }
    }
    Ok(shown)
}

// What the plain list replies, and becomes.
fn plain_reply(alloc: Global, cells: &mut [Cell], drawn: Drawn) -> Result<String, Fail> {
    if let Kind::Scan = drawn.kind {
        return Ok(scan(alloc, cells, drawn)?);
    }
    let cell = cells.get_mut(usize::from(drawn.key)).ok_or("a cell")?;
    let word = match drawn.kind {
        Kind::Get | Kind::Scan => return Ok(shown_cell(alloc, cell)?),
        Kind::Inc => return Ok(inc(alloc, cell, amount_of(drawn))?),
        Kind::Put => put(alloc, cell, text_of(drawn))?,
        Kind::Append => append(alloc, cell, text_of(drawn))?,
        Kind::Del => del(cell),
    };
    Ok(format!(in alloc; "{word}")?)
}

fn plain_replies(alloc: Global, all: &[Drawn]) -> Result<Vec<String>, Fail> {
    let mut cells = [
        Cell::Empty,
        Cell::Empty,
        Cell::Empty,
        Cell::Empty,
        Cell::Empty,
    ];
    let mut replies = Vec::new(alloc);
    for drawn in all {
        replies.push(plain_reply(alloc, &mut cells, *drawn)?)?;
    }
    Ok(replies)
}

// ---- the service

fn shown_val(alloc: Global, value: Val<'_>) -> Result<String, AllocError> {
    match value {
        Val::Text(text) => format!(in alloc; "text {:?}", text),
        Val::Count(count) => format!(in alloc; "count {count}"),
    }
}

fn shown_pairs(alloc: Global, pairs: &PairList) -> Result<String, AllocError> {
    let mut shown = String::new(alloc);
    for pair in pairs.as_slice() {
        let value = shown_val(alloc, pair.value())?;
        for at in pair.key() {
            shown.push_str(&format!(in alloc; "{}: {}; ", *at, value.as_str())?)?;
        }
    }
    Ok(shown)
}

fn shown(alloc: Global, reply: &Reply) -> Result<String, AllocError> {
    let word = match reply {
        Reply::Text(text) => return shown_val(alloc, Val::Text(text.as_bytes())),
        Reply::Count(count) => return shown_val(alloc, Val::Count(*count)),
        Reply::Pairs(pairs) => return shown_pairs(alloc, pairs),
        Reply::Nothing => "nothing",
        Reply::Done => "done",
        Reply::WrongKind => "wrong kind",
        Reply::Overflow => "overflow",
        Reply::TooLong => "too long",
    };
    format!(in alloc; "{word}")
}

fn reply_to(alloc: Global, body: &mut CounterText, drawn: Drawn) -> Result<String, Fail> {
    match body.apply(request_of(alloc, drawn)?) {
        Ok(reply) => Ok(shown(alloc, &reply)?),
        Err(_) => Err("a reply".into()),
    }
}

fn checkpoint(body: &mut CounterText) -> Result<(), Fail> {
    if body.first() > 100 || body.kept() > 100 {
        return Err("few requests".into());
    }
    Ok(body.checkpoint()?)
}

// With a checkpoint before the request of this place, each reply is that of the plain list.
fn replies_alike(
    rt: &impl Abort,
    alloc: Global,
    all: &[Drawn],
    replies: &[String],
    cut: usize,
) -> Result<(), Fail> {
    let mut body = CounterText::new(alloc, REQUESTS);
    for (at, (drawn, reply)) in all.iter().zip(replies).enumerate() {
        if at == cut {
            checkpoint(&mut body)?;
        }
        let found = reply_to(alloc, &mut body, *drawn)?;
        assert_eq!(rt;
            found.as_str(),
            reply.as_str(),
            "{at} after a checkpoint at {cut}"
        );
    }
    assert!(rt; body.first() == cut as u64);
    Ok(())
}

#[test]
fn checkpoint_anywhere_changes_no_reply(rt: HostRuntime) -> Result<(), Fail> {
    let alloc = rt.alloc();
    let all = draw_all(alloc)?;
    let replies = plain_replies(alloc, &all)?;
    for cut in 0..REQUESTS {
        replies_alike(&rt, alloc, &all, &replies, cut)?;
    }
    Ok(())
}
