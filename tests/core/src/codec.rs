use sm_codec::{
    Fault, ReadError, StoredPart, StoredRecord, StoredState, read_batch, read_head, read_part,
    read_record, read_state, write_head, write_part, write_record, write_requests, write_state,
};
use sm_ownership::{Mode, Record};
use sm_place::ServerState;
use sm_ranges::{ServerId, Stand};
use sm_store::{Head, Item, ServerRun};
use std::process::Abort;

// The example of the crate's documentation.
#[test]
fn reads_a_head_again(rt: HostRuntime) {
    let head = Head {
        batches: 3,
        base: 2,
        parts: 1,
    };
    let bytes = write_head(rt.alloc(), &head).expect(&rt, "memory");
    assert!(rt; read_head(&bytes) == Ok(head));
    assert!(rt; read_head(&bytes[..24]) == Err(ReadError::Fault(Fault::Short)));
}

#[test]
fn reads_a_batch_again(rt: HostRuntime) {
    let mut items = Vec::new(rt.alloc());
    let request = Vec::from_slice(rt.alloc(), b"add 5").expect(&rt, "memory");
    let item = Item {
        client: 7,
        number: 4,
        mode: Mode::Forwarded(ServerId::of(2)),
        hops: 3,
        forgets: 0,
        request,
    };
    assert!(rt; items.push(item).is_ok());
    let mut bytes = write_requests(rt.alloc(), ServerId::of(3), &items).expect(&rt, "memory");
    assert!(rt; bytes.len() == 47);
    let again = read_batch(rt.alloc(), &bytes).ok().expect(&rt, "a batch");
    assert!(rt; again.server == ServerId::of(3));
    assert!(rt; (again.items[0].client, again.items[0].number) == (7, 4));
    assert!(rt; again.items[0].mode == Mode::Forwarded(ServerId::of(2)));
    assert!(rt; again.items[0].request.as_slice() == b"add 5".as_slice());
    bytes[4] = 0;
    assert!(rt; read_batch(rt.alloc(), &bytes).err() == Some(ReadError::Fault(Fault::Server)));
    bytes[0] = 2;
    assert!(rt; read_batch(rt.alloc(), &bytes).err() == Some(ReadError::Fault(Fault::Version)));
}

#[test]
fn names_a_word_of_no_record(rt: HostRuntime) {
    let stored = StoredRecord {
        state: Record {
            stand: Stand::Serving(ServerId::of(1)),
            admitted: false,
            generation: 1,
        },
        process: 9,
    };
    let mut bytes = write_record(rt.alloc(), &stored).expect(&rt, "memory");
    assert!(rt; read_record(&bytes) == Ok(stored));
    bytes[1] = 255;
    assert!(rt; read_record(&bytes) == Err(ReadError::Fault(Fault::Word)));
}

#[test]
fn lets_no_bytes_stand(rt: HostRuntime) {
    let head = Head {
        batches: 8,
        base: 0,
        parts: 0,
    };
    let mut bytes = write_head(rt.alloc(), &head).expect(&rt, "memory");
    assert!(rt; bytes.push(0).is_ok());
    assert!(rt; read_head(&bytes) == Err(ReadError::Fault(Fault::Trailing)));
}

#[test]
fn reads_a_state_again(rt: HostRuntime) {
    let mut stored = StoredState {
        run: ServerRun {
            state: ServerState::Failed,
            process: 9,
        },
        process: 7,
    };
    let mut bytes = write_state(rt.alloc(), &stored).expect(&rt, "memory");
    assert!(rt; matches!(read_state(&bytes), Ok(found) if found == stored));
    bytes[8] = 5;
    assert!(rt; matches!(read_state(&bytes), Err(ReadError::Fault(Fault::State))));
    // Version 1 names no process of the server.
    bytes[0] = 1;
    bytes[8] = 4;
    bytes.truncate(17);
    stored.run.process = 0;
    assert!(rt; matches!(read_state(&bytes), Ok(found) if found == stored));
}

#[test]
fn reads_a_part_again(rt: HostRuntime) {
    let mut lasts = Vec::new(rt.alloc());
    let request = Vec::from_slice(rt.alloc(), b"5").expect(&rt, "memory");
    let last = Item {
        client: 7,
        number: 1,
        mode: Mode::Direct,
        hops: 0,
        forgets: 0,
        request,
    };
    assert!(rt; lasts.push(last).is_ok());
    let state = Vec::from_slice(rt.alloc(), b"sum 5").expect(&rt, "memory");
    let part = StoredPart {
        floor: 6,
        state,
        lasts,
    };
    let bytes = write_part(rt.alloc(), &part).expect(&rt, "memory");
    let again = read_part(rt.alloc(), &bytes).ok().expect(&rt, "a part");
    assert!(rt; again.floor == 6);
    assert!(rt; again.state.as_slice() == b"sum 5".as_slice());
    assert!(rt; again.lasts[0].client == 7);
    assert!(rt; again.lasts[0].request.as_slice() == b"5".as_slice());
    let short = read_part(rt.alloc(), &bytes[..9]).err();
    assert!(rt; short == Some(ReadError::Fault(Fault::Short)));
}
