//! A reader of the published map, who is told by a note that its route is old.
use crate::calls::first_shard;
use crate::rule::{alone, serving};
use sm_ownership::change::Change;
use sm_ownership::route::Route;
use sm_publish::Publisher;
use sm_ranges::layout::Layout;
use sm_ranges::server_id::ServerId;
use std::alloc::Global;
use std::sync::Wait;
use std::test::Fail;

// The route that a reader of the map finds for a key, where only this one was published; none also where it reads none.
fn route_read<R: Wait>(rt: &R, alloc: Global, only: Route) -> Option<Route> {
    let layout = Layout::new(alloc, &[b""]).ok()?;
    let (mut publisher, mut routers) = Publisher::new(rt, alloc, 1, 1).ok()?;
    let is_published = publisher.publish(rt, only).is_ok();
    let read = routers[0].route(&layout, b"a");
    publisher.end(rt);
    if is_published { read } else { None }
}

// What was published before a migration stays with its reader, until the control's note tells it of a later generation.
#[test]
fn stale_reader_is_told(rt: HostRuntime) -> Result<(), Fail> {
    let (owner, next) = (ServerId::of(1), ServerId::of(2));
    let first = Route {
        shard: first_shard(),
        server: owner,
        generation: 1,
    };
    let old = route_read(&rt, rt.alloc(), first).ok_or("a route")?;
    assert!(rt; old.server == owner);
    let mut fixture = alone(&rt, rt.alloc(), 1_000);
    assert!(rt; fixture.change(Change::Assign(owner)));
    assert!(rt; fixture.migrate(next));
    let told = fixture.told_by_chair();
    assert!(rt; told == serving(next, false, 5));
    assert!(rt; old.generation < told.generation);
    Ok(())
}
