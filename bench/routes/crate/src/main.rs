//! Times the reads of a published map of 4,096 shards beside a publisher at the pace that it is given, or the look-ups of a
//! layout alone, or the reads of routes of shards whose numbers are known. Without arguments it only says how it is run,
//! so that its output is the same each time.
#![tactic(auto)]

ghost use Rattle.std.specs.Prelude.{◌≡◌, ◌≤◌, ◌<◌, IfSome};

use sm_ownership::route::Route;
use sm_publish::publisher::Publisher;
use sm_publish::router::Router;
use sm_publish::word_publisher::WordPublisher;
use sm_publish::word_router::WordRouter;
use sm_ranges::layout::Layout;
use sm_ranges::server_id::ServerId;
use sm_ranges::shard_id::ShardId;
use std::alloc::{AllocError, Global};
use std::process::ExitCode;
use std::rt::Clock;
use std::sync::Wait;
use std::sync::atomic::{AtomicBool, Ordering};
use std::thread::Threads;
use std::time::{Duration, Instant};
use std::{env, io, thread};

const SHARDS: u16 = 4096;

const MOST_READERS: usize = 8;

const READS: u64 = 2_000_000;

const LONG_BOUND: usize = 40;

const FIRST_CHOICE: u64 = 88_172_645_463_325_252;

/// How often the publisher publishes a route while routers read.
#[derive(Clone, Copy)]
enum Pace {
    AtRest,
    EachMillisecond,
    NeverRests,
}

/// What is timed.
#[derive(Clone, Copy)]
enum Task {
    /// The reads of so many routers beside a publisher.
    Reads { readers: usize, pace: Pace },
    /// The look-ups of a layout with bounds of 2 bytes.
    ShortBounds,
    /// The same with bounds of 40 bytes that differ in the last two.
    LongBounds,
    /// The reads of one router of a map in two copies, of shards whose numbers are known.
    Copies,
    /// The same of a map with a word for each shard.
    Words,
}

/// A router, the state of its pseudo-random choice of keys, and what it has measured.
#[derive(Drop)]
struct Reader {
    router: Router,
    choice: u64,
    found: u64,
    nanoseconds: u64,
}

/// The lower bound of a shard's keys.
fn bound_of(shard: u16) -> [u8; 2] {
    [(shard >> 8) as u8, (shard & 255) as u8]
}

/// The same with 38 bytes before it.
fn long_bound_of(shard: u16) -> [u8; LONG_BOUND] {
    let [high, low] = bound_of(shard);
    let mut bound = [b'a'; LONG_BOUND];
    bound[LONG_BOUND - 2] = high;
    bound[LONG_BOUND - 1] = low;
    bound
}

/// The next state of a pseudo-random choice (xorshift64).
fn next(state: u64) -> u64 {
    let state = state ^ (state << 13);
    let state = state ^ (state >> 7);
    state ^ (state << 17)
}

fn route_of(shard: u16, generation: u64) -> Option<Route>
    ensures { IfSome result (λ route. route.generation ≡ generation) }
{
    Some(Route {
        shard: ShardId::new(shard)?,
        server: ServerId::new(1)?,
        generation,
    })
}

/// Reads at keys chosen at random.
fn read_each(reader: &mut Reader, layout: &Layout) {
    for _ in 0..READS {
        reader.choice = next(reader.choice);
        let key = bound_of(((reader.choice >> 40) & 4095) as u16);
        if reader.router.route(layout, &key).is_some() {
            reader.found = reader.found.wrapping_add(1);
        }
    }
}

/// The same, and takes the time.
fn read_all<R: Clock>(rt: &R, reader: &mut Reader, layout: &Layout) -> io::Result<()> {
    let start = Instant::now(rt)?;
    read_each(reader, layout);
    reader.nanoseconds = nanoseconds_since(rt, start)?;
    Ok(())
}

fn nanoseconds_since<R: Clock>(rt: &R, start: Instant) -> io::Result<u64> {
    Ok(u64::try_from(start.elapsed(rt)?.as_nanos()).unwrap_or(u64::MAX))
}

/// Looks up keys chosen at random, which are the bounds from this byte on, and answers the sum of the shards' numbers.
fn look_up_each(layout: &Layout, from: usize) -> u64
    requires { from ≤ 40 }
{
    let mut choice = FIRST_CHOICE;
    let mut sum = 0u64;
    for _ in 0..READS {
        choice = next(choice);
        let key = long_bound_of(((choice >> 40) & 4095) as u16);
        let shard = layout.shard_of(&key[from..]);
        sum = sum.wrapping_add(u64::from(shard.number()));
    }
    sum
}

/// The same, and answers the nanoseconds too.
fn look_up_all<R: Clock>(rt: &R, layout: &Layout, from: usize) -> io::Result<(u64, u64)>
    requires { from ≤ 40 }
{
    let start = Instant::now(rt)?;
    let sum = look_up_each(layout, from);
    Ok((nanoseconds_since(rt, start)?, sum))
}

/// A shard chosen at random, by the state of that choice.
fn shard_of(choice: u64) -> Option<ShardId> {
    ShardId::new(((choice >> 40) & 4095) as u16)
}

/// Reads the routes of shards chosen at random, and answers the sum of their generations.
fn read_copies(router: &mut Router) -> u64 {
    let mut choice = FIRST_CHOICE;
    let mut sum = 0u64;
    for _ in 0..READS {
        choice = next(choice);
        if let Some(shard) = shard_of(choice)
            && let Some(route) = router.shard_route(shard)
        {
            sum = sum.wrapping_add(route.generation);
        }
    }
    sum
}

/// The same by a router of words.
fn read_words(router: &mut WordRouter) -> u64 {
    let mut choice = FIRST_CHOICE;
    let mut sum = 0u64;
    for _ in 0..READS {
        choice = next(choice);
        if let Some(shard) = shard_of(choice)
            && let Some(route) = router.route(shard)
        {
            sum = sum.wrapping_add(route.generation);
        }
    }
    sum
}

/// Publishes each shard once, and times the reads: nanoseconds and the sum of the generations.
fn time_copies<R: Clock + Wait>(rt: &R, alloc: Global) -> Option<(u64, u64)> {
    let (mut publisher, mut routers) = Publisher::new(rt, alloc, SHARDS as usize, 1).ok()?;
    publish_all(rt, &mut publisher);
    let timed = match routers.pop() {
        Some(router) => time_router(rt, router),
        None => None,
    };
    publisher.end(rt);
    timed
}

fn time_router<R: Clock>(rt: &R, mut router: Router) -> Option<(u64, u64)> {
    let start = Instant::now(rt).ok()?;
    let sum = read_copies(&mut router);
    Some((nanoseconds_since(rt, start).ok()?, sum))
}

/// The same by words.
fn time_words<R: Clock>(rt: &R, alloc: Global) -> Option<(u64, u64)> {
    let mut publisher = WordPublisher::new(alloc, SHARDS as usize).ok()?;
    for shard in 0..SHARDS {
        let _refused = publisher.publish(route_of(shard, 1)?).is_err();
    }
    let mut router = publisher.router().ok()?;
    let start = Instant::now(rt).ok()?;
    let sum = read_words(&mut router);
    Some((nanoseconds_since(rt, start).ok()?, sum))
}

/// Sleeps until so many milliseconds have passed since the start.
fn sleep_until<R: Clock>(rt: &R, start: Instant, milliseconds: u64) -> io::Result<()> {
    let due = Duration::from_millis(milliseconds);
    thread::sleep(rt, due.saturating_sub(start.elapsed(rt)?));
    Ok(())
}

/// Publishes newer routes of all shards in turn until it is told to stop, and answers how many.
fn publish_until<R: Clock + Wait>(
    rt: &R,
    publisher: &mut Publisher,
    pace: Pace,
    stop: &AtomicBool,
) -> io::Result<u64> {
    if let Pace::AtRest = pace {
        return Ok(0);
    }
    let start = Instant::now(rt)?;
    for turn in 0..u64::MAX {
        if stop.load(Ordering::SeqCst) {
            return Ok(turn);
        }
        if let Pace::EachMillisecond = pace {
            sleep_until(rt, start, turn)?;
        }
        let shard = (turn % SHARDS as u64) as u16;
        if let Some(route) = route_of(shard, 2 + turn / SHARDS as u64) {
            let _refused = publisher.publish(rt, route).is_err();
        }
    }
    Ok(u64::MAX)
}

/// The bounds of all shards, of 40 bytes.
fn bounds_of(alloc: Global) -> Result<Vec<[u8; LONG_BOUND]>, AllocError> {
    let mut bounds = Vec::with_capacity(alloc, SHARDS as usize)?;
    for shard in 0..SHARDS {
        bounds.push(long_bound_of(shard))?;
    }
    Ok(bounds)
}

/// The empty bound, and these but the first after it, each from this byte on.
fn slices_of(
    alloc: Global,
    bounds: &[[u8; LONG_BOUND]],
    from: usize,
) -> Result<Vec<&[u8]>, AllocError>
    requires { from ≤ 40 }
{
    let mut slices: Vec<&[u8]> = Vec::new(alloc);
    for bound in bounds {
        let slice: &[u8] = if slices.is_empty() {
            b""
        } else {
            &bound[from..]
        };
        slices.push(slice)?;
    }
    Ok(slices)
}

/// The layout of all shards, whose bounds have the bytes from this one on.
fn layout_of(alloc: Global, from: usize) -> Option<Layout>
    requires { from ≤ 40 }
{
    let bounds = bounds_of(alloc).ok()?;
    let slices = slices_of(alloc, &bounds, from).ok()?;
    Layout::new(alloc, &slices).ok()
}

/// Publishes every shard once.
fn publish_all<R: Wait>(rt: &R, publisher: &mut Publisher) {
    for shard in 0..SHARDS {
        if let Some(route) = route_of(shard, 1) {
            let _refused = publisher.publish(rt, route).is_err();
        }
    }
}

/// Reads with all readers beside the publisher, and answers how many routes were published meanwhile.
fn measure<R: Threads + Sync + Clock + Wait>(
    rt: &R,
    publisher: &mut Publisher,
    readers: &mut [Reader],
    pace: Pace,
    layout: &Layout,
) -> u64 {
    let stop = AtomicBool::new(false);
    let (published, ()) = thread::join(
        rt,
        || publish_until(rt, publisher, pace, &stop).unwrap_or(u64::MAX),
        || {
            read_beside(rt, readers, layout);
            stop.store(true, Ordering::SeqCst);
        },
    );
    published
}

/// Reads with each reader in a thread of its own.
fn read_beside<R: Threads + Sync + Clock>(rt: &R, readers: &mut [Reader], layout: &Layout) {
    thread::for_each_mut(
        rt,
        readers,
        MOST_READERS,
        &|_, reader| {
            let _failed = read_all(rt, reader, layout).is_err();
        },
    );
}

/// A reader with each router.
fn readers_of(alloc: Global, routers: Vec<Router>) -> Result<Vec<Reader>, AllocError> {
    let mut readers = Vec::with_capacity(alloc, routers.len())?;
    for router in routers {
        readers.push(Reader {
            router,
            choice: FIRST_CHOICE,
            found: 0,
            nanoseconds: 0,
        })?;
    }
    Ok(readers)
}

/// The pace that a word names.
fn pace_of(word: &str) -> Option<Pace> {
    match word {
        "rest" => Some(Pace::AtRest),
        "millisecond" => Some(Pace::EachMillisecond),
        "always" => Some(Pace::NeverRests),
        _ => None,
    }
}

/// What the words after the program's name ask for.
fn asked(words: &[String]) -> Option<Task> {
    let (first, second) = (words.get(1)?.as_str(), words.get(2)?.as_str());
    match first {
        "bounds" if second == "2" => Some(Task::ShortBounds),
        "bounds" if second == "40" => Some(Task::LongBounds),
        "shards" if second == "copies" => Some(Task::Copies),
        "shards" if second == "words" => Some(Task::Words),
        _ => reads_of(first, second),
    }
}

fn reads_of(readers: &str, pace: &str) -> Option<Task> {
    Some(Task::Reads {
        readers: readers.parse().ok()?,
        pace: pace_of(pace)?,
    })
}

/// Times the look-ups, and answers nanoseconds and the sum of the shards.
fn time_look_ups<R: Clock>(rt: &R, alloc: Global, from: usize) -> Option<(u64, u64)>
    requires { from ≤ 40 }
{
    let layout = layout_of(alloc, from)?;
    look_up_all(rt, &layout, from).ok()
}

/// Prints picoseconds and the sum.
fn print_look_ups(rt: &impl Print, timed: Option<(u64, u64)>) -> anyhow::Result<ExitCode> {
    let Some((nanoseconds, sum)) = timed else {
        return Ok(ExitCode::FAILURE);
    };
    println!(rt; "{} {}", nanoseconds / (READS / 1000), sum)?;
    Ok(ExitCode::SUCCESS)
}

/// Times the reads of 1 to 8 readers, and answers the readers, and how many routes were published meanwhile.
fn time_reads<R: Threads + Sync + Clock + Wait>(
    rt: &R,
    alloc: Global,
    count: usize,
    pace: Pace,
) -> Option<(Vec<Reader>, u64)> {
    if count == 0 || count > MOST_READERS {
        return None;
    }
    let layout = layout_of(alloc, LONG_BOUND - 2)?;
    let (mut publisher, routers) = Publisher::new(rt, alloc, SHARDS as usize, count).ok()?;
    let timed = time_routers(rt, alloc, &mut publisher, routers, pace, &layout);
    publisher.end(rt);
    timed
}

/// Times the reads of these routers beside the publisher.
fn time_routers<R: Threads + Sync + Clock + Wait>(
    rt: &R,
    alloc: Global,
    publisher: &mut Publisher,
    routers: Vec<Router>,
    pace: Pace,
    layout: &Layout,
) -> Option<(Vec<Reader>, u64)> {
    let mut readers = readers_of(alloc, routers).ok()?;
    publish_all(rt, publisher);
    let published = measure(rt, publisher, &mut readers, pace, layout);
    Some((readers, published))
}

/// Prints picoseconds, how many routes the reader found, and how many were published meanwhile.
fn print_reader(rt: &impl Print, reader: &Reader, published: u64) -> io::Result<()> {
    println!(rt;
        "{} {} {}",
        reader.nanoseconds / (READS / 1000),
        reader.found,
        published
    )
}

/// Prints so of each reader.
fn print_reads(rt: &impl Print, timed: &Option<(Vec<Reader>, u64)>) -> anyhow::Result<ExitCode> {
    let Some((readers, published)) = timed else {
        return Ok(ExitCode::FAILURE);
    };
    for reader in readers {
        print_reader(rt, reader, *published)?;
    }
    Ok(ExitCode::SUCCESS)
}

/// Does what was asked, and prints what it took.
fn run<R: Threads + Sync + Clock + Wait + Print>(
    rt: &R,
    alloc: Global,
    task: Task,
) -> anyhow::Result<ExitCode> {
    match task {
        Task::Reads { readers, pace } => { print_reads(rt, &time_reads(rt, alloc, readers, pace)) }
        Task::ShortBounds => print_look_ups(rt, time_look_ups(rt, alloc, LONG_BOUND - 2)),
        Task::LongBounds => print_look_ups(rt, time_look_ups(rt, alloc, 0)),
        Task::Copies => print_look_ups(rt, time_copies(rt, alloc)),
        Task::Words => print_look_ups(rt, time_words(rt, alloc)),
    }
}

fn main(rt: HostRuntime) -> anyhow::Result<ExitCode> {
    let words: Vec<String> = env::args(&rt)?.collect(rt.alloc())?;
    match asked(&words) {
        Some(task) => run(&rt, rt.alloc(), task),
        None => {
            println!(rt;
                "usage: bench_publish READERS rest|millisecond|always, or bounds 2|40, or shards copies|words"
            )?;
            Ok(ExitCode::SUCCESS)
        }
    }
}
