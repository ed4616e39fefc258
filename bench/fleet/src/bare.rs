//! A bare server of frames, which only counts how often it got each request. Each connection has a thread, and the
//! counts of each shard have a lock.
use std::collections::HashMap;
use std::io::{self, BufReader, Read, Write};
use std::net::{TcpListener, TcpStream};
use std::sync::{Arc, Mutex, PoisonError};
use std::thread;

const SHARDS: usize = 24;

type Counts = [Mutex<HashMap<Vec<u8>, u64>>; SHARDS];

/// Prints the address at which it listens, and serves until it is killed.
pub(crate) fn serve() -> io::Result<String> {
    let socket = TcpListener::bind("127.0.0.1:0")?;
    println!("{}", socket.local_addr()?);
    let counts = Arc::<Counts>::default();
    for stream in socket.incoming() {
        let (stream, counts) = (stream?, counts.clone());
        thread::spawn(move || serve_client(stream, &counts));
    }
    Ok(String::new())
}

fn serve_client(stream: TcpStream, counts: &Counts) -> io::Result<()> {
    stream.set_nodelay(true)?;
    let mut reader = BufReader::new(&stream);
    let (mut length, mut room, mut out) = ([0; 4], Vec::new(), Vec::new());
    loop {
        reader.read_exact(&mut length)?;
        room.resize(u32::from_be_bytes(length) as usize, 0);
        reader.read_exact(&mut room)?;
        let shard = room.iter().map(|it| usize::from(*it)).sum::<usize>() % SHARDS;
        let mut counts = counts[shard].lock().unwrap_or_else(PoisonError::into_inner);
        let count = counts.entry(room.clone()).or_default();
        *count += 1;
        let answer = count.to_be_bytes();
        drop(counts);
        out.clear();
        out.extend((answer.len() as u32).to_be_bytes());
        out.extend(answer);
        (&stream).write_all(&out)?;
    }
}
