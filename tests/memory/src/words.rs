//! The published map with a word for each shard.
use sm_ownership::route::Route;
use sm_ownership::route_fault::RouteFault;
use sm_publish::{WordPublisher, WordRouter};
use sm_ranges::server_id::ServerId;
use sm_ranges::shard_id::ShardId;
use std::alloc::{AllocError, Global};
use std::process::Abort;
use std::test::Fail;
use std::thread::{self, Threads};

// The route of the shard with this number, which is no server's where it is 0.
fn route_of(rt: &impl Abort, shard: u16, server: u16, generation: u64) -> Route {
    Route {
        shard: ShardId::new(shard).expect(rt, "a shard"),
        server: ServerId::new(server).expect(rt, "a server"),
        generation,
    }
}

#[test]
fn words_are_read_as_they_were_published(rt: HostRuntime) -> Result<(), Fail> {
    let mut publisher = WordPublisher::new(rt.alloc(), 2)?;
    let mut router = publisher.router()?;
    let (first, last) = (
        route_of(&rt, 0, 1, 0),
        route_of(&rt, 0, 4095, (1 << 36) - 1),
    );
    assert_eq!(rt; router.route(first.shard), None);
    assert_eq!(rt; publisher.publish(first), Ok(()));
    assert_eq!(rt; router.route(first.shard), Some(first));
    assert_eq!(rt; publisher.publish(last), Ok(()));
    assert_eq!(rt; publisher.publish(last), Err(RouteFault::OldRoute));
    let beyond = route_of(&rt, 2, 1, 1);
    assert_eq!(rt; publisher.publish(beyond), Err(RouteFault::UnknownShard));
    let mut late = publisher.router()?;
    drop(publisher);
    assert_eq!(rt;
        (router.route(last.shard), late.route(last.shard)),
        (Some(last), Some(last))
    );
    assert_eq!(rt; router.route(route_of(&rt, 1, 1, 1).shard), None);
    assert_eq!(rt; router.route(beyond.shard), None);
    Ok(())
}

// Reads the shard's route so often, and gives the router back where generations never fell.
fn never_goes_back(mut router: WordRouter, shard: ShardId, reads: u32) -> Option<WordRouter> {
    let mut newest = 0;
    for _ in 0..reads {
        if let Some(route) = router.route(shard) {
            if route.generation < newest {
                return None;
            }
            newest = route.generation;
        }
    }
    Some(router)
}

// Publishes routes of the shard with all of these generations.
fn publish_all(publisher: &mut WordPublisher, first: Route, generations: u64) -> bool {
    for generation in 1..=generations {
        if publisher
            .publish(Route {
                generation,
                ..first
            })
            .is_err()
        {
            return false;
        }
    }
    true
}

#[test]
fn generations_of_words_never_fall(rt: HostRuntime) -> Result<(), Fail> {
    let first = route_of(&rt, 1, 7, 0);
    let mut publisher = WordPublisher::new(rt.alloc(), 2)?;
    let (one, two) = (publisher.router()?, publisher.router()?);
    let (all, (one, two)) = thread::join(
        &rt,
        || publish_all(&mut publisher, first, 20_000),
        || {
            thread::join(
                &rt,
                || never_goes_back(one, first.shard, 100_000),
                || never_goes_back(two, first.shard, 100_000),
            )
        },
    );
    assert!(rt; all);
    let newest = Some(Route {
        generation: 20_000,
        ..first
    });
    assert_eq!(rt;
        one.expect(&rt, "rising generations").route(first.shard),
        newest
    );
    assert_eq!(rt;
        two.expect(&rt, "rising generations").route(first.shard),
        newest
    );
    Ok(())
}

// A publisher and a router, each made again where memory is refused.
fn made_in_two(alloc: Global) -> Result<(WordPublisher, WordRouter), AllocError> {
    let mut publisher = match WordPublisher::new(alloc, 2) {
        Ok(publisher) => publisher,
        Err(AllocError) => WordPublisher::new(alloc, 2)?,
    };
    let router = match publisher.router() {
        Ok(router) => router,
        Err(AllocError) => publisher.router()?,
    };
    Ok((publisher, router))
}

// Passes with each allocation refused in turn (`tools/run-tests` does it): publishing and reading take none.
#[test]
fn refused_memory_refuses_no_word(rt: HostRuntime) -> Result<(), Fail> {
    let first = route_of(&rt, 1, 7, 0);
    let (mut publisher, mut router) = made_in_two(rt.alloc())?;
    assert!(rt; publish_all(&mut publisher, first, 20));
    assert_eq!(rt;
        router.route(first.shard).map(|route| route.generation),
        Some(20)
    );
    Ok(())
}
