//! A server for Redis clients, as one writes it with locks. Each connection has a thread, and each shard has a lock
//! round its owner and a `BTreeMap`. The server knows GET, SET, INCR and SM MIGRATE. It ends when its standard input
//! ends.
use crate::sizes::Sizes;
use std::collections::BTreeMap;
use std::io::{self, BufRead, BufReader, Read, Write};
use std::net::{TcpListener, TcpStream};
use std::sync::{Arc, Mutex};
use std::thread;

struct OwnedTexts {
    owner: u16,
    texts: BTreeMap<Vec<u8>, Vec<u8>>,
}

type ServedShards = Vec<Mutex<OwnedTexts>>;

/// Returns the words of the next command, or none if the connection has ended.
fn read(reader: &mut BufReader<TcpStream>, line: &mut String) -> io::Result<Option<Vec<Vec<u8>>>> {
    let Some(count) = head(reader, line)? else {
        return Ok(None);
    };
    let mut words = Vec::with_capacity(count);
    for _ in 0..count {
        let Some(length) = head(reader, line)? else {
            return Ok(None);
        };
        let mut word = vec![0; length + 2];
        reader.read_exact(&mut word)?;
        word.truncate(length);
        words.push(word);
    }
    Ok(Some(words))
}

/// Reads a line such as `*3` or `$5`, and returns its number.
fn head(reader: &mut BufReader<TcpStream>, line: &mut String) -> io::Result<Option<usize>> {
    line.clear();
    reader.read_line(line)?;
    Ok(line.get(1..).and_then(|it| it.trim_end().parse().ok()))
}

/// Returns the shard of a key, by FNV-1a.
fn shard_of(key: &[u8], count: usize) -> usize {
    let hash = key.iter().fold(0xcbf2_9ce4_8422_2325_u64, |hash, byte| {
        (hash ^ u64::from(*byte)).wrapping_mul(0x100_0000_01b3)
    });
    ((u128::from(hash) * count as u128) >> 64) as usize
}

fn number_of(word: &[u8]) -> Option<i64> {
    std::str::from_utf8(word).ok()?.parse().ok()
}

fn answer(shards: &ServedShards, words: Vec<Vec<u8>>, out: &mut Vec<u8>) {
    let kept = |key: &[u8]| {
        shards[shard_of(key, shards.len())]
            .lock()
            .expect("no thread panics")
    };
    let mut words = words.into_iter();
    match [(); 4].map(|()| words.next()) {
        [Some(get), Some(key), None, None] if get == b"GET" => match kept(&key).texts.get(&key) {
            Some(text) => {
                out.extend_from_slice(format!("${}\r\n", text.len()).as_bytes());
                out.extend_from_slice(text);
                out.extend_from_slice(b"\r\n");
            }
            None => out.extend_from_slice(b"$-1\r\n"),
        },
        [Some(set), Some(key), Some(text), None] if set == b"SET" => {
            kept(&key).texts.insert(key, text);
            out.extend_from_slice(b"+OK\r\n");
        }
        [Some(incr), Some(key), None, None] if incr == b"INCR" => {
            let mut held = kept(&key);
            let text = held.texts.entry(key).or_default();
            let count = number_of(text).unwrap_or(0) + 1;
            *text = count.to_string().into_bytes();
            out.extend_from_slice(format!(":{count}\r\n").as_bytes());
        }
        [Some(_), Some(_), Some(shard), Some(to)] => {
            let (shard, to) = (number_of(&shard).unwrap_or(0), number_of(&to).unwrap_or(1));
            let mut held = shards[shard as usize % shards.len()]
                .lock()
                .expect("no thread panics");
            if held.owner != to as u16 {
                held.owner = to as u16;
            }
            out.extend_from_slice(b"+OK\r\n");
        }
        _ => out.extend_from_slice(b"-ERR unknown command\r\n"),
    }
}

/// Answers the requests of a connection. If requests came together, their answers are sent together.
fn attend(shards: &ServedShards, stream: TcpStream) -> io::Result<()> {
    stream.set_nodelay(true)?;
    let (mut reader, mut line, mut out) = (
        BufReader::with_capacity(1 << 16, stream),
        String::new(),
        Vec::new(),
    );
    while let Some(words) = read(&mut reader, &mut line)? {
        answer(shards, words, &mut out);
        if reader.buffer().is_empty() {
            reader.get_mut().write_all(&out)?;
            out.clear();
        }
    }
    Ok(())
}

pub fn run(sizes: &Sizes) {
    let held = || OwnedTexts {
        owner: 1,
        texts: BTreeMap::new(),
    };
    let shards: Arc<ServedShards> =
        Arc::new((0..sizes.shards).map(|_| Mutex::new(held())).collect());
    let listener = TcpListener::bind(("127.0.0.1", sizes.port)).expect("a free port");
    thread::spawn(move || {
        for stream in listener.incoming().flatten() {
            let shards = shards.clone();
            thread::spawn(move || _ = attend(&shards, stream));
        }
    });
    // The read ends when the process that started this one ends.
    let _ = io::stdin().read_to_end(&mut Vec::new());
}
