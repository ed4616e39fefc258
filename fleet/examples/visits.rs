//! A service that counts visits, and a client of it in the same program: the program of docs/FLEET.md.
//!
//! ```console
//! $ visits serve --name 1 --listen 127.0.0.1:7381    # and so with servers 2 and 3
//! $ visits visit home
//! 1 by server 2
//! ```
use clap::Parser;
use durkenzo_fleet::{Call, Came, Fault, Fleet, Options, Retry, Router, Service, Shard};
use std::{error::Error, time::Duration};

struct Visits;

impl Service for Visits {
    type Body = u64; // what is kept of a shard

    fn add(&self, _: Shard, came: Came<'_>) -> Result<u64, Fault> {
        let Came::Handed(bytes) = came else {
            return Ok(0);
        };
        Ok(u64::from_be_bytes(bytes.try_into()?))
    }

    fn answer(&self, visits: &mut u64, _: Call<'_>) -> Vec<u8> {
        *visits += 1;
        visits.to_string().into_bytes()
    }

    fn hand_over(&self, visits: &mut u64) -> Vec<u8> {
        visits.to_be_bytes().to_vec()
    }
}

#[derive(Parser)]
enum Command {
    /// Serves as a process of the fleet
    Serve {
        #[command(flatten)]
        options: Box<Options>,
    },
    /// Counts a visit of a page
    Visit {
        page: String,
        #[arg(default_value = "127.0.0.1:7381,127.0.0.1:7382,127.0.0.1:7383")]
        servers: String,
    },
}

fn main() -> Result<(), Box<dyn Error>> {
    match Command::parse() {
        Command::Serve { options } => {
            let fleet = Fleet::join(Visits, *options)?;
            println!("server {} at {}", fleet.server(), fleet.address());
            fleet.serve()?;
        }
        Command::Visit { page, servers } => {
            let (page, retry) = (page.as_bytes(), Retry::Until(Duration::from_secs(10)));
            let answer = Router::of(&servers)?.call(page, page, retry)?;
            let count = String::from_utf8_lossy(&answer.bytes);
            println!("{count} by server {}", answer.server);
        }
    }
    Ok(())
}
