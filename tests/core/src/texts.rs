use sm_shard::{BasePart, LastRequest, StoreMachine};
use sm_shard_bytes::{read_base_part, write_base_part};
use sm_texts::{StoreTexts, TextReply, Val};
use std::alloc::Global;
use std::process::Abort;

fn asked<R: Abort>(rt: &R, alloc: Global, texts: &mut StoreTexts, request: &[u8]) -> TextReply {
    let request = Vec::from_slice(alloc, request).expect(rt, "memory");
    texts.answer(alloc, &request).expect(rt, "memory")
}

// The example of the crate's documentation.
#[test]
fn puts_a_text(rt: HostRuntime) {
    let mut texts = StoreTexts::new(rt.alloc());
    let put = Vec::from_slice(rt.alloc(), b"\x02\x01avalue").expect(&rt, "memory");
    let reply = texts.answer(rt.alloc(), &put).expect(&rt, "memory");
    assert!(rt; reply.kind == 1);
    assert!(rt; matches!(texts.look(b"a"), Some(Val::Text(b"value"))));
}

#[test]
fn looks_at_no_change(rt: HostRuntime) {
    let texts = StoreTexts::new(rt.alloc());
    let get = Vec::from_slice(rt.alloc(), b"\x01\x01a").expect(&rt, "memory");
    let put = Vec::from_slice(rt.alloc(), b"\x02\x01avalue").expect(&rt, "memory");
    assert!(rt; matches!(texts.peek(rt.alloc(), &get), Ok(Some(answer)) if answer.reply.kind == 0));
    assert!(rt; matches!(texts.peek(rt.alloc(), &put), Ok(None)));
}

#[test]
fn saves_and_loads(rt: HostRuntime) {
    let mut texts = StoreTexts::new(rt.alloc());
    let _ = asked(&rt, rt.alloc(), &mut texts, b"\x02\x01avalue");
    let _ = asked(&rt, rt.alloc(), &mut texts, b"\x03\x01a, and more");
    let added = asked(
        &rt,
        rt.alloc(),
        &mut texts,
        b"\x04\x02bb\xff\xff\xff\xff\xff\xff\xff\xfe",
    );
    assert!(rt; added.kind == 3);
    assert!(rt; added.number == u64::MAX - 1);
    let bytes = texts.save(rt.alloc()).expect(&rt, "memory");
    let loaded = StoreTexts::load(rt.alloc(), &bytes).expect(&rt, "memory");
    let again = loaded.expect(&rt, "a map");
    assert!(rt; matches!(again.look(b"a"), Some(Val::Text(b"value, and more"))));
    assert!(rt; matches!(again.look(b"bb"), Some(Val::Count(-2))));
    assert!(rt; again.look(b"b").is_none());
    let broken = StoreTexts::load(rt.alloc(), &bytes[..9]).expect(&rt, "memory");
    assert!(rt; broken.is_none());
}

#[test]
fn reads_a_part_of_a_base_again(rt: HostRuntime) {
    let reply = TextReply::new(3, u64::MAX - 1);
    let mut lasts = Vec::new(rt.alloc());
    let pushed = lasts.push((7, LastRequest { number: 9, reply }));
    assert!(rt; pushed.is_ok());
    let state = Vec::from_slice(rt.alloc(), b"state").expect(&rt, "memory");
    let part = BasePart::new(state, lasts, 5);
    let written = write_base_part(rt.alloc(), &part).expect(&rt, "memory");
    let mut bytes = written.expect(&rt, "bytes");
    let read = read_base_part::<TextReply>(rt.alloc(), &bytes)
        .ok()
        .expect(&rt, "a part");
    let again = read.expect(&rt, "replies");
    assert!(rt; again.state() == b"state".as_slice());
    assert!(rt; again.floor() == 5);
    let (client, last) = again.lasts()[0];
    assert!(rt; again.lasts().len() == 1);
    assert!(rt; client == 7);
    assert!(rt; last.number == 9);
    assert!(rt; last.reply == reply);
    // A last request that was forwarded.
    bytes[42] = 1;
    let read = read_base_part::<TextReply>(rt.alloc(), &bytes);
    assert!(rt; matches!(read, Ok(None)));
    assert!(rt; read_base_part::<TextReply>(rt.alloc(), &bytes[..41]).is_err());
}
