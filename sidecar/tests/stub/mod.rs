//! An application for tests, which counts the calls of each shard. It answers HTTP by hand, and can be made to fail.
use std::collections::BTreeMap;
use std::io::{BufRead, BufReader, Read, Write};
use std::net::{SocketAddr, TcpListener, TcpStream};
use std::sync::atomic::{AtomicBool, Ordering};
use std::sync::{Arc, Mutex, MutexGuard};
use std::thread;
use std::time::Duration;

/// How the application answers.
#[derive(Clone, Copy, Debug, PartialEq, Eq)]
pub enum Mode {
    Well,
    /// It takes calls and doesn't answer them.
    Stuck,
    /// It answers calls with 500.
    Fails,
    /// It answers calls with more bytes than it may.
    Long,
    /// It ends the connection of each call, before it answers.
    Ends,
    /// It answers 500 if a shard is to be handed over.
    Keeps,
}

struct State {
    mode: Mode,
    counts: BTreeMap<u16, u64>,
    /// The requests to handlers that weren't calls, such as `3 add handed`.
    seen: Vec<String>,
    /// The headers and the body of the latest call.
    latest: String,
}

pub struct Stub {
    pub address: SocketAddr,
    state: Arc<Mutex<State>>,
    stops: Arc<AtomicBool>,
}

impl Stub {
    pub fn begin() -> Stub {
        Stub::begin_at("127.0.0.1:0".parse().unwrap())
    }

    /// Begins an application without shards at this address.
    pub fn begin_at(address: SocketAddr) -> Stub {
        let listener = TcpListener::bind(address).unwrap();
        let stub = Stub {
            address: listener.local_addr().unwrap(),
            state: Arc::new(Mutex::new(State {
                mode: Mode::Well,
                counts: BTreeMap::new(),
                seen: Vec::new(),
                latest: String::new(),
            })),
            stops: Arc::default(),
        };
        let (state, stops) = (stub.state.clone(), stub.stops.clone());
        thread::spawn(move || {
            for stream in listener.incoming().flatten() {
                if stops.load(Ordering::SeqCst) {
                    return;
                }
                let state = state.clone();
                thread::spawn(move || serve(&stream, &state));
            }
        });
        stub
    }

    fn state(&self) -> MutexGuard<'_, State> {
        self.state.lock().unwrap()
    }

    pub fn turn(&self, mode: Mode) {
        self.state().mode = mode;
    }

    pub fn seen(&self) -> Vec<String> {
        self.state().seen.clone()
    }

    pub fn latest(&self) -> String {
        self.state().latest.clone()
    }

    pub fn url(&self) -> String {
        format!("http://{}", self.address)
    }
}

impl Drop for Stub {
    /// Closes the socket, so that nobody is connected any more.
    fn drop(&mut self) {
        self.stops.store(true, Ordering::SeqCst);
        // The thread waits for the next connection, so this one wakes it.
        drop(TcpStream::connect(self.address));
        while TcpStream::connect(self.address).is_ok() {
            thread::sleep(Duration::from_millis(1));
        }
    }
}

/// Reads a request: its head in small letters, and its body.
fn read(stream: &TcpStream) -> Option<(String, String)> {
    let mut reader = BufReader::new(stream);
    let (mut head, mut line) = (String::new(), String::new());
    while reader.read_line(&mut line).ok()? > 2 {
        head += &line.to_lowercase();
        line.clear();
    }
    let length = value_of(&head, "content-length").parse().unwrap_or(0);
    let mut body = vec![0; length];
    reader.read_exact(&mut body).ok()?;
    Some((head, String::from_utf8(body).ok()?))
}

/// Returns the value of a header, or an empty text.
fn value_of<'a>(head: &'a str, name: &str) -> &'a str {
    let mut lines = head.lines();
    let value = lines.find_map(|it| it.strip_prefix(name)?.strip_prefix(": "));
    value.unwrap_or_default()
}

/// Answers one request, if it is one of a shard.
fn serve(stream: &TcpStream, state: &Mutex<State>) {
    let Some((head, body)) = read(stream) else {
        return;
    };
    let path = head.split(' ').nth(1).unwrap_or_default();
    let parts: Vec<_> = path.split('/').collect();
    let [_, "shard", shard, handler] = parts[..] else {
        return;
    };
    let (shard, mode) = (shard.parse().unwrap(), state.lock().unwrap().mode);
    if handler == "call" && mode == Mode::Stuck {
        thread::sleep(Duration::from_secs(2));
    }
    if handler == "call" && mode == Mode::Ends {
        return;
    }
    let came = value_of(&head, "durkenzo-came");
    let (status, answer) = match handler {
        "call" => called(&mut state.lock().unwrap(), shard, &head, &body),
        _ => handled(&mut state.lock().unwrap(), (shard, handler), came, &body),
    };
    let length = answer.len();
    let head =
        format!("HTTP/1.1 {status} It\r\ncontent-length: {length}\r\ncontent-type: text/plain\r\n");
    // The sidecar may have gone on already.
    let _ = (&*stream).write_all(format!("{head}connection: close\r\n\r\n{answer}").as_bytes());
}

fn called(state: &mut State, shard: u16, head: &str, body: &str) -> (u16, String) {
    state.latest = format!("{head}\n{body}");
    let mode = state.mode;
    let Some(count) = state.counts.get_mut(&shard) else {
        return (421, String::new());
    };
    *count += 1;
    match mode {
        Mode::Fails => (500, "it fails".to_owned()),
        Mode::Long => (200, "x".repeat(1_000_001)),
        Mode::Well | Mode::Stuck | Mode::Ends | Mode::Keeps => (200, count.to_string()),
    }
}

fn handled(
    state: &mut State,
    (shard, handler): (u16, &str),
    came: &str,
    body: &str,
) -> (u16, String) {
    state
        .seen
        .push(format!("{shard} {handler} {came}").trim_end().to_owned());
    match handler {
        "add" => {
            state.counts.insert(shard, body.parse().unwrap_or(0));
            (200, String::new())
        }
        "prepare_drop" if state.mode == Mode::Keeps => (500, "not now".to_owned()),
        "prepare_drop" => match state.counts.get(&shard) {
            Some(count) => (200, count.to_string()),
            None => (421, String::new()),
        },
        "drop" => {
            state.counts.remove(&shard);
            (200, String::new())
        }
        _ => (404, String::new()),
    }
}
