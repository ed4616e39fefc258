ghost use Rattle.std.specs.Prelude.{◌<◌};
ghost use Rattle.sm_ranges.specs.ServerId.{IsServer};

use sm_ownership::route::Route;
use sm_ownership::route_fault::RouteFault;
use sm_publish::{Publisher, Router};
use sm_ranges::layout::Layout;
use sm_ranges::server_id::ServerId;
use sm_ranges::shard_id::ShardId;
use std::alloc::{AllocError, Global};
use std::process::Abort;
use std::sync::Wait;
use std::test::Fail;
use std::thread::{self, Threads};

// The shard of this number.
fn shard(number: u16) -> ShardId
    requires { number < 4096 }
{
    let Some(k) = ShardId::new(number) else {
        unreachable!()
    };
    k
}

fn route_of(k: u16, server: u16, generation: u64) -> Route
    requires shard { k < 4096 }
    requires server { IsServer server }
{
    Route {
        shard: shard(k),
        server: ServerId::of(server),
        generation,
    }
}

// Shard 0 has the keys below `m`, and shard 1 the others.
fn two_shards(rt: &impl Abort, alloc: Global) -> Layout {
    Layout::new(alloc, &[b"", b"m"]).ok().expect(rt, "a layout")
}

// An older route and one of an unknown shard are refused.
fn refuses_routes<R: Wait + Abort>(rt: &R, publisher: &mut Publisher) {
    let equal = publisher.publish(rt, route_of(0, 2, 1));
    assert!(*rt; equal == Err(RouteFault::OldRoute));
    let unknown = publisher.publish(rt, route_of(2, 1, 1));
    assert!(*rt; unknown == Err(RouteFault::UnknownShard));
}

// Whether the router reads this route of shard 0, and none of shard 1.
fn reads(router: &mut Router, layout: &Layout, route: Route) -> bool {
    router.route(layout, b"a") == Some(route) && router.route(layout, b"m").is_none()
}

#[test]
fn router_reads_new_routes(rt: HostRuntime) -> Result<(), Fail> {
    let layout = two_shards(&rt, rt.alloc());
    let (first, next) = (route_of(0, 1, 1), route_of(0, 2, 6));

    let (mut publisher, mut routers) = Publisher::new(&rt, rt.alloc(), 2, 1)?;
    assert_eq!(rt; routers.len(), 1);
    let router = &mut routers[0];
    assert_eq!(rt; router.route(&layout, b"a"), None);
    assert_eq!(rt; publisher.publish(&rt, first), Ok(()));
    assert_eq!(rt; router.route(&layout, b"a"), Some(first));

    refuses_routes(&rt, &mut publisher);
    assert!(rt; reads(router, &layout, first));
    assert!(rt; publisher.publish(&rt, next) == Ok(()));
    assert!(rt; reads(router, &layout, next));
    publisher.end(&rt);
    let last = router.route(&layout, b"a");
    assert!(rt; last.is_none() || last == Some(next));
    Ok(())
}

// The texts of two bytes that spell the numbers from 1 on.
fn spelled(alloc: Global) -> Result<Vec<[u8; 2]>, AllocError> {
    let mut numbers = Vec::new(alloc);
    for number in 1..4_096u16 {
        numbers.push(number.to_be_bytes())?;
    }
    Ok(numbers)
}

// As many shards as there may be, each with the keys that begin with its number.
fn widest_layout(rt: &impl Abort, alloc: Global) -> Layout {
    let numbers = spelled(alloc).ok().expect(rt, "numbers");
    let bounds = bounds_of(alloc, &numbers).ok().expect(rt, "bounds");
    Layout::new(alloc, &bounds).ok().expect(rt, "a layout")
}

// The empty bound, and then these.
fn bounds_of(alloc: Global, numbers: &[[u8; 2]]) -> Result<Vec<&[u8]>, AllocError> {
    let mut bounds: Vec<&[u8]> = Vec::new(alloc);
    bounds.push(b"")?;
    for number in numbers {
        bounds.push(number)?;
    }
    Ok(bounds)
}

// A publisher, and two routers of its map.
struct Published {
    publisher: Publisher,
    first: Router,
    second: Router,
}

impl Published {
    // For so many shards.
    fn new<R: Wait + Abort>(rt: &R, alloc: Global, count: usize) -> Published {
        let made = Publisher::new(rt, alloc, count, 2);
        let (publisher, mut routers) = made.ok().expect(rt, "a publisher");
        let first = routers.pop().expect(rt, "a router");
        let second = routers.pop().expect(rt, "a router");
        Published {
            publisher,
            first,
            second,
        }
    }

    // Publishes a route of each shard.
    fn publish_each<R: Wait + Abort>(&mut self, rt: &R) {
        for shard in 0..4_096u16 {
            let published = self.publisher.publish(rt, route_to_its_server(shard));
            assert!(*rt; published == Ok(()));
        }
    }

    // Publishes the route.
    fn publish<R: Wait>(&mut self, rt: &R, route: Route) -> bool {
        self.publisher.publish(rt, route).is_ok()
    }

    // Whether both routers read this route of the key's shard.
    fn both_read(&mut self, layout: &Layout, key: &[u8], route: &Option<Route>) -> bool {
        self.first.route(layout, key) == *route && self.second.route(layout, key) == *route
    }

    fn end<R: Wait>(self, rt: &R) {
        let Published {
            publisher,
            first: _,
            second: _,
        } = self;
        publisher.end(rt);
    }
}

// A route of the shard to the server of the same number where there is one, and else to server 1.
fn route_to_its_server(shard: u16) -> Route
    requires { shard < 4096 }
{
    if shard == 0 {
        route_of(0, 1, 1)
    } else {
        route_of(shard, shard, 1)
    }
}

// Whether both routers read the route of each shard.
fn read_each(published: &mut Published, layout: &Layout) -> bool {
    for shard in 0..4_096u16 {
        let route = Some(route_to_its_server(shard));
        if !published.both_read(layout, &shard.to_be_bytes(), &route) {
            return false;
        }
    }
    true
}

#[test]
fn routes_of_all_shards(rt: HostRuntime) {
    let layout = widest_layout(&rt, rt.alloc());
    let mut published = Published::new(&rt, rt.alloc(), 4_096);
    published.publish_each(&rt);
    assert!(rt; read_each(&mut published, &layout));
    published.end(&rt);
}

// Publishes routes of the shard with all of these generations.
fn publish_all<R: Wait>(rt: &R, publisher: &mut Publisher, generations: u64) -> bool {
    for generation in 1..=generations {
        if publisher.publish(rt, route_of(0, 1, generation)).is_err() {
            return false;
        }
    }
    true
}

// Reads the route of shard 0 so often, and gives the router back where generations never fell.
fn never_goes_back(mut router: Router, layout: &Layout, reads: u32) -> Option<Router> {
    let mut newest = 0;
    for _ in 0..reads {
        if let Some(route) = router.route(layout, b"a") {
            if route.generation < newest {
                return None;
            }
            newest = route.generation;
        }
    }
    Some(router)
}

// Two threads read 10,000 times each.
fn both_never_go_back<R: Threads + Sync>(
    rt: &R,
    first: Router,
    second: Router,
    layout: &Layout,
) -> (Option<Router>, Option<Router>) {
    thread::join(
        rt,
        move || never_goes_back(first, layout, 10_000),
        move || never_goes_back(second, layout, 10_000),
    )
}

// Publishes 2,000 routes of shard 0 beside two threads that read it.
fn publish_beside_reads<R: Threads + Wait + Abort + Sync>(
    rt: &R,
    published: Published,
    layout: &Layout,
) -> Published {
    let Published {
        mut publisher,
        first,
        second,
    } = published;
    let (all, (first, second)) = thread::join(
        rt,
        || publish_all(rt, &mut publisher, 2_000),
        || both_never_go_back(rt, first, second, layout),
    );
    assert!(*rt; all);
    Published {
        publisher,
        first: first.expect(rt, "rising generations"),
        second: second.expect(rt, "rising generations"),
    }
}

#[test]
fn generations_never_fall(rt: HostRuntime) {
    let layout = two_shards(&rt, rt.alloc());
    let published = Published::new(&rt, rt.alloc(), 2);
    let mut published = publish_beside_reads(&rt, published, &layout);
    assert!(rt; published.both_read(&layout, b"a", &Some(route_of(0, 1, 2_000))));
    published.end(&rt);
}

// Fails where a router stays at what it read first, or always answers none: its contract allows both.
#[test]
fn router_stays_behind(rt: HostRuntime) {
    let layout = two_shards(&rt, rt.alloc());
    let mut published = Published::new(&rt, rt.alloc(), 2);
    for generation in 1..4u64 {
        assert!(rt; published.publish(&rt, route_of(1, 1, generation)));
        let newest = Some(route_of(1, 1, generation));
        assert!(rt; published.both_read(&layout, b"z", &newest));
    }
    published.end(&rt);
}

// The generation of the route that the router reads of shard 1, or 0 where it reads none.
fn generation_read(router: &mut Router, layout: &Layout) -> u64 {
    match router.route(layout, b"z") {
        Some(route) => route.generation,
        None => 0,
    }
}

// Publishes routes of shard 1 one after another. Where memory for one is refused, the router reads the one before.
fn publish_or_nothing<R: Wait + Abort>(
    rt: &R,
    publisher: &mut Publisher,
    router: &mut Router,
    layout: &Layout,
) {
    let mut newest = 0;
    for generation in 1..20u64 {
        match publisher.publish(rt, route_of(1, 1, generation)) {
            Ok(()) => newest = generation,
            Err(fault) => assert!(*rt; fault == RouteFault::NoMemory),
        }
        assert!(*rt; generation_read(router, layout) == newest);
    }
}

// A map of two shards and its routers, made again where memory is refused.
fn published_in_two<R: Wait + Abort>(rt: &R, alloc: Global) -> (Publisher, Vec<Router>) {
    match Publisher::new(rt, alloc, 2, 3) {
        Ok(made) => made,
        Err(AllocError) => Publisher::new(rt, alloc, 2, 3)
            .ok()
            .expect(rt, "the publisher"),
    }
}

// Passes with each allocation refused in turn (`tools/run-tests` does it).
#[test]
fn refused_memory_changes_nothing(rt: HostRuntime) {
    let layout = two_shards(&rt, rt.alloc());
    let (mut publisher, mut routers) = published_in_two(&rt, rt.alloc());
    let mut router = routers.pop().expect(&rt, "a router");
    publish_or_nothing(&rt, &mut publisher, &mut router, &layout);
    publisher.end(&rt);
}
