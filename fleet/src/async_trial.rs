//! Tests with tasks of tokio as clients and as servers of a fleet. Permits move from thread to thread, and a task that
//! is dropped leaves nothing behind.
use crate::{
    AsyncRouter, Call, CallError, Came, Enter, Fault, Fleet, Mode, Options, Retry, Router, Service,
    Shard,
};
use durkenzo_store::{Embedded, Store};
use std::sync::Arc;
use std::thread;
use std::time::{Duration, Instant};
use tokio::runtime::{self, Runtime};
use tokio::sync::oneshot;
use tokio::time::timeout;

/// The longest wait for an event that must come, on a machine that may be busy.
const SOON: Duration = Duration::from_secs(60);
/// The wait for an event that must not come.
const BRIEF: Duration = Duration::from_millis(100);

/// Counts calls by shard.
struct Counter;

impl Service for Counter {
    type Body = u64;

    fn add(&self, _: Shard, came: Came<'_>) -> Result<u64, Fault> {
        match came {
            Came::Handed(bytes) => Ok(u64::from_be_bytes(bytes.try_into()?)),
            _ => Ok(0),
        }
    }

    fn answer(&self, count: &mut u64, _: Call<'_>) -> Vec<u8> {
        *count += 1;
        count.to_be_bytes().to_vec()
    }

    fn hand_over(&self, count: &mut u64) -> Vec<u8> {
        count.to_be_bytes().to_vec()
    }
}

/// Returns the processes of a fleet of this many servers, and its store, as soon as the first shard has a permit.
fn fleets(servers: u16, words: &[&str]) -> (Arc<dyn Store>, Vec<Arc<Fleet<Counter>>>) {
    let store: Arc<dyn Store> = Arc::new(Embedded::in_memory());
    let join = |server: u16| {
        let fixed = "fleet --shards 2 --lease 60 --balance off".split(' ');
        let words = fixed.chain(words.iter().copied());
        let mut options = <Options as clap::Parser>::parse_from(words);
        (options.name, options.servers) = (server, servers);
        Arc::new(Fleet::join_over(Counter, options, store.clone()).unwrap())
    };
    let fleets: Vec<_> = (1..=servers).map(join).collect();
    let has_permit = |it: &Arc<Fleet<Counter>>| matches!(it.enter(0, Mode::Direct), Enter::Here(_));
    until("the shard is executed", || fleets.iter().any(has_permit));
    (store, fleets)
}

fn until(what: &str, holds: impl Fn() -> bool) {
    let end = Instant::now() + SOON;
    while !holds() {
        assert!(Instant::now() < end, "it never was that {what}");
        thread::sleep(Duration::from_millis(5));
    }
}

fn runtime() -> Runtime {
    let mut builder = runtime::Builder::new_multi_thread();
    builder.worker_threads(2).enable_all().build().unwrap()
}

/// Calls with a permit, which the task keeps until it is told. Returns the count.
async fn call(fleet: Arc<Fleet<Counter>>, kept: oneshot::Receiver<()>) -> Result<u64, String> {
    match fleet.enter_async(0, Mode::Direct, SOON).await {
        Enter::Here(mut permit) => {
            permit.answer(b"");
            // The task may continue on another thread.
            let _ = kept.await;
            assert!(permit.holds());
            Ok(*permit.body())
        }
        Enter::Wait(why) => Err(why.to_owned()),
        Enter::Refused(why) => Err(why.to_string()),
        Enter::Forward(to) | Enter::Elsewhere(to) => Err(format!("{to:?}")),
    }
}

/// Returns a receiver that tells a call at once not to keep its permit.
fn at_once() -> oneshot::Receiver<()> {
    oneshot::channel().1
}

fn waiting(fleet: &Fleet<Counter>) -> bool {
    !fleet.inner.places[0].queue.is_empty()
}

#[test]
fn permits_go_between_threads_and_one_task_at_a_time_has_one() {
    let (_, fleets) = fleets(1, &[]);
    let fleet = &fleets[0];
    runtime().block_on(async {
        let (tell, kept) = oneshot::channel();
        let first = tokio::spawn(call(fleet.clone(), kept));
        until("a task has the permit", || {
            let place = &fleet.inner.places[0];
            !place.is_free()
        });
        // A task that gives up and a task that is stopped must leave nothing behind.
        let given_up = fleet.enter_async(0, Mode::Direct, BRIEF).await;
        assert!(matches!(given_up, Enter::Wait(_)));
        drop(given_up);
        let stopped = tokio::spawn(call(fleet.clone(), at_once()));
        until("it waits for the permit", || {
            fleet.inner.places[0].has_task()
        });
        stopped.abort();
        assert!(stopped.await.unwrap_err().is_cancelled());
        let next = tokio::spawn(call(fleet.clone(), at_once()));
        // A thread waits for the permit too.
        let blocked = fleet.clone();
        let blocked = tokio::task::spawn_blocking(move || match blocked.enter(0, Mode::Direct) {
            Enter::Here(mut permit) => permit.answer(b"").len(),
            _ => 0,
        });
        tell.send(()).unwrap();
        assert_eq!(first.await.unwrap(), Ok(1));
        assert!(next.await.unwrap().is_ok() && blocked.await.unwrap() == 8);
        // The task that was stopped has made no call.
        assert_eq!(call(fleet.clone(), at_once()).await, Ok(4));
    });
    assert!(fleet.inner.places[0].is_free());
}

#[test]
fn who_waits_for_a_paused_shard_is_bounded_and_who_is_dropped_leaves_its_place() {
    let (store, fleets) = fleets(1, &["--waiting", "2"]);
    let fleet = &fleets[0];
    let router = Router::watch(&*store).unwrap();
    assert_eq!(router.command(&["PAUSE", "0"], SOON), Ok(vec![]));
    let is_paused = || matches!(fleet.enter(0, Mode::Direct), Enter::Wait(_));
    until("the process has read so", is_paused);
    runtime().block_on(async {
        let [first, second] = [(); 2].map(|()| tokio::spawn(call(fleet.clone(), at_once())));
        let place = &fleet.inner.places[0];
        until("both wait", || place.queue.count() == 2);
        let third = call(fleet.clone(), at_once()).await;
        assert_eq!(
            third,
            Err("as many calls wait for the shard as may".to_owned())
        );
        first.abort();
        assert!(first.await.unwrap_err().is_cancelled());
        until("a place is free", || place.queue.count() == 1);
        let late = fleet.enter_async(0, Mode::Direct, BRIEF).await;
        assert!(matches!(late, Enter::Wait(_)));
        drop(late);
        let resuming = tokio::task::spawn_blocking(move || router.command(&["RESUME", "0"], SOON));
        assert_eq!(resuming.await.unwrap(), Ok(vec![]));
        assert_eq!(second.await.unwrap(), Ok(1));
    });
    assert!(!waiting(fleet));
}

#[test]
fn tasks_call_while_shards_move_and_nothing_is_lost() {
    let (store, fleets) = fleets(2, &[]);
    let router = Router::watch(&*store).unwrap();
    let own = router.sharding().shard_of(b"key").to_string();
    let watching = Arc::new(AsyncRouter::from(Router::watch(&*store).unwrap()));
    let address = fleets[0].address().to_string();
    let retry = Retry::Until(SOON);
    runtime().block_on(async {
        let asking = AsyncRouter::of(&address, Default::default()).await.unwrap();
        let routers = [watching, Arc::new(asking)];
        let calls: Vec<_> = (0..100)
            .map(|number| {
                let router = routers[number % 2].clone();
                tokio::spawn(async move {
                    for _ in 0..5 {
                        router.call(b"key", b"request", retry).await.unwrap();
                        tokio::time::sleep(Duration::from_millis(5)).await;
                    }
                })
            })
            .collect();
        let moving = tokio::task::spawn_blocking(move || {
            for server in ["2", "1", "2", "1", "2"] {
                let told = router.command(&["MIGRATE", &own, server], SOON);
                let is_there = |it: &String| it.contains("SameServer") || it.contains("NoCapacity");
                assert!(told.as_ref().err().is_none_or(is_there), "{told:?}");
            }
        });
        moving.await.unwrap();
        for call in calls {
            call.await.unwrap();
        }
        let answer = routers[0].call(b"key", b"request", retry).await.unwrap();
        assert_eq!(answer.bytes, 501_u64.to_be_bytes());
    });
}

/// Calls with more and more time, until the time is over only after the call has come to the server. If it is over
/// before that, the call isn't made. Returns the error.
async fn too_late(router: &AsyncRouter, key: &[u8]) -> CallError {
    let mut within = BRIEF;
    loop {
        let late = router.call(key, b"request", Retry::Once(within)).await;
        match late.expect_err("the body is in use") {
            CallError::NotMade(_) if within < SOON => within *= 2,
            late => return late,
        }
    }
}

#[test]
fn a_call_that_is_dropped_gives_no_answer_to_another_one() {
    let (store, fleets) = fleets(1, &[]);
    let router = AsyncRouter::from(Router::watch(&*store).unwrap());
    let key = (0..=u8::MAX).find(|it| router.sharding().shard_of(&[*it]) == 0);
    let key = [key.unwrap()];
    let retry = Retry::Until(SOON);
    runtime().block_on(async {
        let call = || router.call(&key, b"request", retry);
        assert_eq!(call().await.unwrap().bytes, 1_u64.to_be_bytes());
        let Enter::Here(permit) = fleets[0].enter_async(0, Mode::Direct, SOON).await else {
            panic!("there is no permit");
        };
        let mut dropped = Box::pin(call());
        while !fleets[0].inner.places[0].has_task() {
            // The call must have come to the server, and wait for the body there, before it is dropped.
            assert!(timeout(BRIEF, &mut dropped).await.is_err());
        }
        drop(dropped);
        let late = too_late(&router, &key).await;
        assert!(matches!(late, CallError::Unsure(_)), "{late}");
        drop(permit);
        // These two calls may still be made. Each answer must belong to its own call.
        let mut last = 1;
        for _ in 0..5 {
            let answer = call().await.unwrap();
            let count = u64::from_be_bytes(answer.bytes.try_into().unwrap());
            assert!(last < count && count <= last + 3, "{last} {count}");
            last = count;
        }
        assert!(last <= 8);
    });
    // If no server can be reached, the client must be told so.
    drop(fleets);
    let gone = runtime().block_on(router.call(&key, b"request", Retry::Once(SOON)));
    assert!(
        matches!(gone, Err(CallError::NotMade(_) | CallError::Unsure(_))),
        "{gone:?}"
    );
}
