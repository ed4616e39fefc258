//! Times boards and the sample service of the library beside locks in Rust, and servers for Redis clients. Its words
//! say the sizes:
//!
//! ```text
//! bench-growth board|serve NAME=NUMBER ..  makes requests both ways in turn, round by round; prints a line of each
//! bench-growth load port=PORT ..           makes requests to a server, and prints one line
//! bench-growth locks port=PORT ..          runs a server whose shards are behind locks
//! ```
mod board;
mod client;
mod in_process;
mod keys;
mod load;
mod locked_server;
mod locks;
mod request_choice;
mod round;
mod round_result;
mod service;
mod shard_store;
mod sizes;

use sizes::Sizes;

fn board(sizes: &Sizes) {
    let ours = board::Counts::new(sizes.shards);
    in_process::beside(&ours, &locks::LockedCounts::new(sizes.shards), sizes);
}

fn serve(sizes: &Sizes) {
    let ours = in_process::filled(service::ServiceTexts::new(sizes), sizes);
    let locks = in_process::filled(locks::LockedTexts::new(sizes), sizes);
    in_process::beside(&ours, &locks, sizes);
}

fn main() {
    let words: Vec<String> = std::env::args().skip(1).collect();
    let (what, rest) = words.split_first().expect("board, serve, load or locks");
    let sizes = Sizes::of(rest);
    match what.as_str() {
        "board" => board(&sizes),
        "serve" => serve(&sizes),
        "load" => load::run(&sizes),
        "locks" => locked_server::run(&sizes),
        other => panic!("there is nothing that is called {other}"),
    }
}
