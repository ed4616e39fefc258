//! Measures books, plans, approvals and changes at full size, and plans by sums and by counters at a smaller one. Without an
//! argument it measures nothing.
#![tactic(auto)]

mod changes;
mod plain;
mod rows;

use changes::{Changing, Controlled, Plain, assign_all, migrate};
use plain::PlainBooks;
use rows::{Rows, serve_all};
use sm_place::books::Books;
use sm_ranges::server_id::ServerId;
use sm_tasks::tasks::Tasks;
use std::alloc::Global;
use std::env;
use std::rt::Clock;
use std::time::Instant;

const USAGE: &str =
    "bench_place: give books, first, last, plain, counted, approve, control or board to measure";

const APPROVALS: u32 = 1000;

const MIGRATIONS: u64 = 100_000;

// How many shards there are at full size, and where plans by sums are measured too.
const FULL: u16 = 4096;

const SMALL: u16 = 512;

// How long something took, and how much was done and left.
#[derive(Clone, Copy, Drop)]
struct Figures {
    micros: u128,
    done: u64,
    left: u64,
}

fn main(rt: HostRuntime) -> anyhow::Result<()> {
    let words: Vec<String> = env::args(&rt)?.collect(rt.alloc())?;
    match asked(&rt, rt.alloc(), &words) {
        Some(it) => println!(rt; "{} {} {}", it.micros, it.done, it.left)?,
        None => println!(rt; "{USAGE}")?,
    }
    Ok(())
}

// The figures that the first word after the program's name asks for, or none where there is no such word, or memory or the time
// is refused.
fn asked(rt: &impl Clock, alloc: Global, words: &[String]) -> Option<Figures> {
    match words.get(1)?.as_str() {
        "books" => measure_books(rt, alloc),
        "first" => measure_plan(rt, alloc, FULL, 1),
        "last" => measure_plan(rt, alloc, FULL, FULL - 1),
        "plain" => measure_plain(rt, alloc),
        "counted" => measure_plan(rt, alloc, SMALL, SMALL - 1),
        "approve" => measure_approve(rt, alloc),
        "control" => measure_control(rt, alloc),
        "board" => measure_board(rt, alloc),
        _ => None,
    }
}

// The figures of so much that was done and left since the start.
fn since(rt: &impl Clock, start: Instant, done: usize, left: usize) -> Option<Figures> {
    Some(Figures {
        micros: start.elapsed(rt).ok()?.as_micros(),
        done: done as u64,
        left: left as u64,
    })
}

fn measure_books(rt: &impl Clock, alloc: Global) -> Option<Figures> {
    let rows = Rows::new(alloc, FULL, 1).ok()?;
    time_books(rt, alloc, &rows)
}

// Makes books and keeps them, so that the process has them at its peak.
fn time_books(rt: &impl Clock, alloc: Global, rows: &Rows) -> Option<Figures> {
    let start = Instant::now(rt).ok()?;
    let books = rows.books(alloc).ok()?;
    since(rt, start, books.shards().len(), 0)
}

// Makes books of so many shards and a plan of them, which fit no server below `roomy`.
fn measure_plan(rt: &impl Clock, alloc: Global, size: u16, roomy: u16) -> Option<Figures> {
    let books = books_of(alloc, size, roomy)?;
    time_plan(rt, alloc, &books)
}

fn time_plan(rt: &impl Clock, alloc: Global, books: &Books) -> Option<Figures> {
    let start = Instant::now(rt).ok()?;
    let plan = books.plan_assign(alloc).ok()?;
    since(rt, start, plan.moves().len(), plan.left().len())
}

// Books of so many shards, which fit no server below `roomy`.
fn books_of(alloc: Global, size: u16, roomy: u16) -> Option<Books> {
    let rows = Rows::new(alloc, size, roomy).ok()?;
    rows.books(alloc).ok()
}

// The same plan by sums and counts over all rows, where only the last server fits.
fn measure_plain(rt: &impl Clock, alloc: Global) -> Option<Figures> {
    let rows = Rows::new(alloc, SMALL, SMALL - 1).ok()?;
    let mut books = PlainBooks::new(alloc, rows).ok()?;
    time_plain(rt, alloc, &mut books)
}

fn time_plain(rt: &impl Clock, alloc: Global, books: &mut PlainBooks) -> Option<Figures> {
    let start = Instant::now(rt).ok()?;
    let moves = books.assign_all(alloc).ok()?;
    since(rt, start, moves.len(), 0)
}

// Has one server serve all shards, and looks again and again whether its restart may be approved.
fn measure_approve(rt: &impl Clock, alloc: Global) -> Option<Figures> {
    let mut books = books_of(alloc, FULL, 1)?;
    serve_all(&mut books, ServerId::of(1));
    time_approvals(rt, &mut books, ServerId::of(1))
}

fn time_approvals(rt: &impl Clock, books: &mut Books, a: ServerId) -> Option<Figures> {
    let tasks = Tasks::new(4095);
    if books.knows(a) {
        tasks.ask(books, a).ok()?;
    }
    let start = Instant::now(rt).ok()?;
    let approved = approvals(&tasks, books, a);
    since(rt, start, approved as usize, 0)
}

fn measure_control(rt: &impl Clock, alloc: Global) -> Option<Figures> {
    let mut to = Controlled::new(alloc)?;
    time_changes(rt, &mut to)
}

fn measure_board(rt: &impl Clock, alloc: Global) -> Option<Figures> {
    let mut to = Plain::new(alloc)?;
    time_changes(rt, &mut to)
}

// Gives all shards to servers, and then begins migrations and ends them.
fn time_changes<C: Changing>(rt: &impl Clock, to: &mut C) -> Option<Figures> {
    let assigned = assign_all(to);
    let start = Instant::now(rt).ok()?;
    let made = migrate(to, MIGRATIONS);
    since(rt, start, made as usize, assigned as usize)
}

// How many approvals in turn would be made.
fn approvals(tasks: &Tasks, books: &Books, a: ServerId) -> u32 {
    for made in 0..APPROVALS {
        if !books.knows(a) || tasks.check_approve(books, a).is_err() {
            return made;
        }
    }
    APPROVALS
}
