//! States as handles keep them.
use sm_handle_state::layouts::shard_in;
use sm_handle_state::maps::len_of;
use sm_handle_state::{ActFault, HandleState};
use sm_ranges::Layout;
use std::test::Fail;

#[test]
fn answer_the_calls_for_them(rt: HostRuntime) -> Result<(), Fail> {
    let layout = HandleState::Layout(Layout::new(rt.alloc(), &[b"", b"m"])?);
    assert!(rt; matches!(shard_in(&layout, b"n"), Ok(k) if k.number() == 1));
    assert!(rt; matches!(len_of(&layout), Err(ActFault::WrongHandle)));
    Ok(())
}
