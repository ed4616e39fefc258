//! An inbox gives what came through its door.
use sm_inbox::{Parcel, SendFault, inbox_of};
use sm_ranges::ServerId;
use std::test::Fail;

// A message and a word to stop come out as they went in. Once nobody has the inbox, a message comes back.
#[test]
fn inbox_gives_what_was_sent(rt: HostRuntime) -> Result<(), Fail> {
    let alloc = rt.alloc();
    let (door, inbox) = inbox_of::<u64, HostRuntime>(&rt, alloc, ServerId::of(1), 2)?;
    assert!(rt; door.is_open() && door.send(&rt, 7).is_ok());
    assert!(rt; matches!(inbox.next(&rt), Ok(Parcel::Serve(7))));
    door.tell_to_stop(&rt);
    assert!(rt; matches!(inbox.next(&rt), Ok(Parcel::Stop)));
    drop(inbox);
    let unsent = door.send(&rt, 8).err().expect(&rt, "nobody has the inbox");
    assert!(rt; unsent.fault == SendFault::Unreachable && unsent.message == 8);
    Ok(())
}
