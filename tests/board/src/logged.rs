use sm_body::logged::Logged;
use sm_body::machine::Machine;
use sm_ranges::key::Key;
use sm_ranges::server_id::ServerId;
use sm_service::{Bytes, CounterText, Reply, Request, Service};
use std::alloc::Global;
use std::process::Abort;
use std::test::Fail;

fn get_of(alloc: Global, key: &[u8]) -> Result<Request, Fail> {
    Ok(Request::Get(Key::new(alloc, key)?))
}

// A text of so many bytes goes to the key.
fn put(body: &mut CounterText, alloc: Global, key: &[u8], length: usize) -> Result<(), Fail> {
    let text: Vec<u8> = vec![in alloc; b'x'; length]?;
    let request = Request::Put(Key::new(alloc, key)?, Bytes::from(text));
    match body.apply(request) {
        Ok(Reply::Done) => Ok(()),
        _ => Err("a text is put".into()),
    }
}

// How long the text is that the key holds.
fn length_at(body: &mut CounterText, alloc: Global, key: &[u8]) -> Result<usize, Fail> {
    match body.apply(get_of(alloc, key)?) {
        Ok(Reply::Text(text)) => Ok(text.as_bytes().len()),
        _ => Err("a text is held".into()),
    }
}

// A checkpoint, as generic code makes it; where it is made, the requests before it count as those before the first kept.
fn checkpointed<M: Machine>(rt: &impl Abort, body: &mut Logged<M>) -> Result<(), Fail> {
    let (first, kept) = (body.first(), body.kept() as u64);
    if first > 100 || kept > 100 {
        return Err("few requests".into());
    }
    body.checkpoint()?;
    assert!(rt; body.kept() == 0);
    assert!(rt; body.first() == first + kept);
    Ok(())
}

#[test]
fn checkpoint_changes_no_reply(rt: HostRuntime) -> Result<(), Fail> {
    let alloc = rt.alloc();
    let mut body = CounterText::new(alloc, 2);
    put(&mut body, alloc, b"a", 5)?;
    put(&mut body, alloc, b"b", 0)?;
    checkpointed(&rt, &mut body)?;
    assert!(rt; length_at(&mut body, alloc, b"a")? == 5);
    checkpointed(&rt, &mut body)?;
    assert!(rt; length_at(&mut body, alloc, b"b")? == 0);
    Ok(())
}

// Another server moves the map into fresh memory, where nothing is dead; the same one again doesn't.
#[test]
fn settles_once_for_a_server(rt: HostRuntime) -> Result<(), Fail> {
    let alloc = rt.alloc();
    let one = ServerId::new(1).ok_or("server 1")?;
    let two = ServerId::new(2).ok_or("server 2")?;
    let mut body = CounterText::new(alloc, 100);
    for (server, left) in [(one, 0), (one, 7), (two, 0), (one, 0)] {
        put(&mut body, alloc, b"a", 7)?;
        put(&mut body, alloc, b"b", 0)?;
        body.settle(server);
        assert!(rt; body.machine().dead() == left, "at {server:?}");
        assert!(rt; length_at(&mut body, alloc, b"b")? == 0);
    }
    Ok(())
}

// A text over an older one leaves that dead, until so much is dead that the next one makes room first.
#[test]
fn writes_over_texts_in_bounded_memory(rt: HostRuntime) -> Result<(), Fail> {
    let alloc = rt.alloc();
    let mut body = CounterText::new(alloc, 100);
    for dead in [0, 65_535, 131_070, 65_535, 131_070, 65_535] {
        put(&mut body, alloc, b"a", 65_535)?;
        assert!(rt; body.machine().dead() == dead);
    }
    assert!(rt; length_at(&mut body, alloc, b"a")? == 65_535);
    Ok(())
}
