//! A service that counts, and clients that know which count comes next. These are the processes of
//! `tools/trial --fleet`.
//!
//! ```console
//! $ trial serve --name 1 --listen 127.0.0.1:7381   # a process of the service; further words are the fleet's options
//! $ trial call --etcd URL,.. --servers ADDRESS,..  # clients; each line of standard input tells of a fault
//! $ trial command 127.0.0.1:7381 MIGRATE 3 2       # what the fleet's control answers
//! ```
mod client;
mod client_process;
mod count_service;
mod key;
mod message;
mod moves;
mod permits;
mod tally;

use clap::Parser;
use client_process::ClientProcess;
use count_service::CountService;
use durkenzo_fleet::{Fleet, Options, Router};
use std::error::Error;
use std::process::ExitCode;
use std::time::Duration;

/// The longest time for a command.
const COMMAND: Duration = Duration::from_secs(15);

fn serve(words: Vec<String>) -> Result<ExitCode, Box<dyn Error>> {
    tracing_subscriber::fmt()
        .with_ansi(false)
        .with_max_level(tracing_subscriber::filter::LevelFilter::DEBUG)
        .init();
    let options = Options::parse_from(words);
    // So bodies move in pieces between some servers, and as a whole between others.
    let moves_in_pieces = options.name % 2 == 1;
    let fleet = Fleet::join(CountService::new(moves_in_pieces), options)?;
    println!("server {} at {}", fleet.server(), fleet.address());
    fleet.serve()?;
    Ok(ExitCode::SUCCESS)
}

/// Sends these words to the fleet's control, by way of the server at this address, and prints the answer.
fn command(words: &[String]) -> Result<ExitCode, Box<dyn Error>> {
    let (server, words) = words.split_first().ok_or("no server is named")?;
    let words: Vec<&str> = words.iter().map(String::as_str).collect();
    match Router::of(server)?.command(&words, COMMAND) {
        Ok(lines) => println!("{}", lines.join("\n")),
        Err(why) => println!("refused: {why}"),
    }
    Ok(ExitCode::SUCCESS)
}

fn main() -> Result<ExitCode, Box<dyn Error>> {
    let mut words: Vec<String> = std::env::args().collect();
    let what = if words.len() > 1 {
        words.remove(1)
    } else {
        String::new()
    };
    match &*what {
        "serve" => serve(words),
        "call" => ClientProcess::parse_from(words).run(),
        "command" => command(&words[1..]),
        _ => Err("the first word is serve, call or command".into()),
    }
}
