//! A rate limiter. Each customer has a bucket of tokens, which is in one process at a time.
//!
//! ```console
//! $ rate_limiter --name 1 --listen 127.0.0.1:7381    # a server; 2 and 3 likewise
//! $ rate_limiter ask 127.0.0.1:7381 customer-17 200  # calls 200 times
//! ```
use durkenzo_fleet::{Call, CallError, Came, Fault, Fleet, Options, Retry, Router, Service, Shard};
use std::collections::HashMap;
use std::error::Error;
use std::time::{Duration, Instant};

/// How many calls of a customer are allowed a second, and how many at once.
struct Limiter {
    rate: f64,
    burst: f64,
}

struct Bucket {
    tokens: f64,
    filled: Instant,
}

type Buckets = HashMap<Vec<u8>, Bucket>;

impl Limiter {
    /// Fills the bucket with the tokens for the time since it was filled last.
    fn fill(&self, bucket: &mut Bucket) {
        let now = Instant::now();
        let come = now.duration_since(bucket.filled).as_secs_f64() * self.rate;
        (bucket.tokens, bucket.filled) = ((bucket.tokens + come).min(self.burst), now);
    }
}

impl Service for Limiter {
    type Body = Buckets;

    fn add(&self, _: Shard, came: Came<'_>) -> Result<Buckets, Fault> {
        match came {
            // If a bucket was lost, it begins full.
            Came::New | Came::Lost => Ok(Buckets::new()),
            Came::Handed(bytes) => read(bytes),
        }
    }

    fn answer(&self, buckets: &mut Buckets, call: Call<'_>) -> Vec<u8> {
        let full = || Bucket {
            tokens: self.burst,
            filled: Instant::now(),
        };
        let bucket = buckets.entry(call.request().to_vec()).or_insert_with(full);
        self.fill(bucket);
        let is_allowed = bucket.tokens >= 1.0;
        bucket.tokens -= f64::from(u8::from(is_allowed));
        vec![u8::from(is_allowed)]
    }

    fn hand_over(&self, buckets: &mut Buckets) -> Vec<u8> {
        let mut bytes = Vec::new();
        for (customer, bucket) in buckets {
            // Only tokens are handed over, because the clocks of machines differ.
            self.fill(bucket);
            bytes.extend((customer.len() as u32).to_be_bytes());
            bytes.extend(customer.as_slice());
            bytes.extend(bucket.tokens.to_be_bytes());
        }
        bytes
    }
}

/// Reads the bytes that `hand_over` wrote.
fn read(mut bytes: &[u8]) -> Result<Buckets, Fault> {
    let mut buckets = Buckets::new();
    while let Some((length, rest)) = bytes.split_first_chunk() {
        let length = u32::from_be_bytes(*length) as usize;
        let (customer, rest) = rest.split_at_checked(length).ok_or("a customer is cut")?;
        let (tokens, rest) = rest.split_first_chunk().ok_or("a bucket is cut")?;
        let (tokens, filled) = (f64::from_be_bytes(*tokens), Instant::now());
        buckets.insert(customer.to_vec(), Bucket { tokens, filled });
        bytes = rest;
    }
    Ok(buckets)
}

/// Calls this many times for the customer, and prints the outcomes of the calls.
fn ask(url: &str, customer: &str, times: u32) -> Result<(), Box<dyn Error>> {
    let router = Router::of(url)?;
    let retry = Retry::Until(Duration::from_secs(10));
    let (mut allowed, mut limited, mut unsure) = (0, 0, 0);
    for _ in 0..times {
        match router.call(customer.as_bytes(), customer.as_bytes(), retry) {
            Ok(answer) if answer.bytes == [1] => allowed += 1,
            Ok(_) => limited += 1,
            Err(CallError::Unsure(_)) => unsure += 1,
            Err(not_made @ CallError::NotMade(_)) => return Err(not_made.into()),
        }
    }
    println!("{customer}: {allowed} allowed, {limited} limited, {unsure} unsure");
    Ok(())
}

fn main() -> Result<(), Box<dyn Error>> {
    let words: Vec<String> = std::env::args().skip(1).collect();
    if let [command, url, customer, times] = &words[..] {
        if command == "ask" {
            return ask(url, customer, times.parse()?);
        }
    }
    let limiter = Limiter {
        rate: 50.0,
        burst: 100.0,
    };
    let fleet = Fleet::join(limiter, Options::parse())?;
    println!("server {} at {}", fleet.server(), fleet.address());
    Ok(fleet.serve()?)
}
