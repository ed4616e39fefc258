//! The program: `./sm serve` in the repository.
use clap::Parser;
use durkenzo_server::memory::{self, Allocator};
use durkenzo_server::options::Options;
use durkenzo_server::{log, run, NAME};
use std::process::ExitCode;

#[global_allocator]
static ALLOCATOR: Allocator = Allocator;

fn main() -> ExitCode {
    let options = Options::parse();
    memory::prepare();
    let _written = log::WrittenAtEnd;
    match log::begin(&options).and_then(|()| run::run(&options)) {
        Ok(()) => ExitCode::SUCCESS,
        Err(fault) => {
            log::say(&format!("{NAME}: {fault}"));
            ExitCode::FAILURE
        }
    }
}
