//! Runs the program beside a server of this file, which gives one wrong reply. The program must find it, whatever its
//! kind.
use durkenzo_trial::{KeyAnswer, KeyCommand, Model, Register};
use std::collections::HashMap;
use std::io::{BufRead, BufReader, Write};
use std::net::{TcpListener, TcpStream};
use std::process::{Command as Program, Output};
use std::sync::atomic::{AtomicU64, Ordering};
use std::sync::{Arc, Mutex};
use std::thread;

/// How many keys there are. Each is cleared first.
const KEYS: u64 = 4;
const TWO: [&str; 2] = ["--clients", "2"];

/// A command of this name isn't done, but gets this reply.
#[derive(Clone, Copy)]
struct Lie {
    name: &'static str,
    reply: &'static str,
    /// The connections before this one hear no lie.
    from: u64,
    /// How many commands of this name are done before the lie.
    after: u64,
}

impl Lie {
    /// Returns a lie that comes once the keys are cleared.
    fn new(name: &'static str, reply: &'static str) -> Lie {
        Lie {
            name,
            reply,
            from: 0,
            after: KEYS,
        }
    }
}

/// A map for Redis clients that lies once.
struct Server {
    lie: Lie,
    came: AtomicU64,
    texts: Mutex<HashMap<String, Option<String>>>,
}

impl Server {
    /// Starts a server, and returns its address.
    fn begin(lie: Lie) -> String {
        let listener = TcpListener::bind("127.0.0.1:0").expect("a port");
        let address = listener.local_addr().expect("its address").to_string();
        let (came, texts) = (AtomicU64::new(0), Mutex::default());
        let server = Arc::new(Server { lie, came, texts });
        thread::spawn(move || {
            for (number, stream) in (0..).zip(listener.incoming()) {
                let server = server.clone();
                thread::spawn(move || server.serve(number, &stream.expect("a connection")));
            }
        });
        address
    }

    /// Replies to commands until the client is gone.
    fn serve(&self, connection: u64, mut stream: &TcpStream) {
        let mut from = BufReader::new(stream);
        while let Some(words) = words(&mut from) {
            let words: Vec<&str> = words.iter().map(String::as_str).collect();
            let reply = match words[..] {
                ["SM", "CALL", _, _, ref numbered @ ..] => self.reply(connection, numbered),
                ref other => self.reply(connection, other),
            };
            if stream.write_all(reply.as_bytes()).is_err() {
                return;
            }
        }
    }

    fn reply(&self, connection: u64, words: &[&str]) -> String {
        if words[0] == self.lie.name && connection >= self.lie.from {
            let came = self.came.fetch_add(1, Ordering::Relaxed);
            if came == self.lie.after {
                return self.lie.reply.to_owned();
            }
        }
        let command = match words {
            ["GET", _] => KeyCommand::Get,
            ["SET", _, text] => KeyCommand::Set((*text).to_owned()),
            ["APPEND", _, text] => KeyCommand::Append((*text).to_owned()),
            ["INCR", _] => KeyCommand::Incr,
            ["DEL", _] => KeyCommand::Del,
            _ => return "-ERR unknown command\r\n".to_owned(),
        };
        match self.done(words[1], &command) {
            KeyAnswer::Done => "+OK\r\n".to_owned(),
            KeyAnswer::Text(None) => "$-1\r\n".to_owned(),
            KeyAnswer::Text(Some(text)) => format!("${}\r\n{text}\r\n", text.len()),
            KeyAnswer::Number(number) => format!(":{number}\r\n"),
            KeyAnswer::NoNumber => "-ERR value is not an integer or out of range\r\n".to_owned(),
        }
    }

    fn done(&self, key: &str, command: &KeyCommand) -> KeyAnswer {
        let mut texts = self.texts.lock().expect("no thread panics");
        let text = texts.entry(key.to_owned()).or_default();
        let (next, answer) = Register::step(text, command);
        *text = next;
        answer
    }
}

/// Returns the words of the next command.
fn words(from: &mut impl BufRead) -> Option<Vec<String>> {
    (0..number(from)?).map(|_| word(from)).collect()
}

fn word(from: &mut impl BufRead) -> Option<String> {
    let mut bytes = vec![0; number(from)? + 2];
    from.read_exact(&mut bytes).ok()?;
    bytes.truncate(bytes.len() - 2);
    String::from_utf8(bytes).ok()
}

/// Returns the number behind the first byte of a line.
fn number(from: &mut impl BufRead) -> Option<usize> {
    let mut line = String::new();
    from.read_line(&mut line).ok()?;
    line.trim_end().get(1..)?.parse().ok()
}

/// Returns the output of the program beside a server that lies in this way, and its exit status.
fn told(lie: Lie, options: &[&str]) -> (String, Option<i32>) {
    let (address, keys) = (Server::begin(lie), KEYS.to_string());
    let words = [
        "--address",
        &address,
        "--keys",
        &keys,
        "--shards",
        "0",
        "--seconds",
        "1",
    ];
    let mut program = Program::new(env!("CARGO_BIN_EXE_durkenzo-trial"));
    let ran = program.args(words).args(options).output();
    let ran: Output = ran.expect("the program runs");
    let said = [ran.stdout, ran.stderr].concat();
    (
        String::from_utf8_lossy(&said).into_owned(),
        ran.status.code(),
    )
}

/// Checks that the program finds each of these lies by itself: the answers without it are explained.
fn find_each(lies: &[Lie], options: &[&str]) {
    thread::scope(|threads| {
        for lie in lies {
            threads.spawn(move || {
                let (said, status) = told(*lie, options);
                let told = format!("{} answered by {:?}: {said}", lie.name, lie.reply);
                assert_eq!(status, Some(1), "{told}");
                assert!(said.contains("\ngarbled: "), "{told}");
                assert!(said.contains("\n1 replies were garbled\n"), "{told}");
                assert!(said.contains(" keys, 0 wrong, 0 undecided"), "{told}");
            });
        }
    });
}

#[test]
fn takes_answers() {
    let (said, status) = told(Lie::new("PING", ""), &TWO);
    assert_eq!(status, Some(0), "{said}");
}

#[test]
fn takes_refusals() {
    let (said, status) = told(Lie::new("SET", "-REFUSED NOBODY_OWNS\r\n"), &TWO);
    assert_eq!(status, Some(0), "{said}");
    assert!(
        said.contains("calls, 1 refused, 0 without answer"),
        "{said}"
    );
}

#[test]
fn finds_answers_of_another_kind() {
    let lies = [
        Lie::new("GET", "+OK\r\n"),
        Lie::new("GET", ":5\r\n"),
        Lie::new("SET", "$1\r\na\r\n"),
        Lie::new("DEL", "$-1\r\n"),
        Lie::new("APPEND", "+OK\r\n"),
        Lie::new("INCR", "*1\r\n:1\r\n"),
    ];
    find_each(&lies, &TWO);
}

#[test]
fn finds_what_is_no_reply() {
    let lies = [
        Lie::new("GET", "?\r\n"),
        Lie::new("GET", "\r\n"),
        Lie::new("GET", "$1\r\nabc"),
        Lie::new("GET", "$-2\r\n"),
        Lie::new("SET", "+OK\n"),
        Lie::new("DEL", ":five\r\n"),
    ];
    find_each(&lies, &TWO);
}

/// No client panics because of a text that is longer than memory.
#[test]
fn finds_a_text_longer_than_any() {
    let lies = [
        Lie::new("GET", "$67108865\r\n"),
        Lie::new("GET", "$9223372036854775807\r\n"),
        Lie::new("GET", "$18446744073709551615\r\n"),
    ];
    find_each(&lies, &TWO);
}

#[test]
fn finds_answers_of_another_kind_to_numbered_requests() {
    let numbered = ["--clients", "1", "--numbered", "1"];
    find_each(&[Lie::new("INCR", "+OK\r\n")], &numbered);
}

/// The first connections belong to the client and to the mover.
#[test]
fn finds_answers_of_another_kind_to_the_last_reads() {
    let lie = Lie {
        from: 2,
        after: 0,
        ..Lie::new("GET", "+OK\r\n")
    };
    find_each(&[lie], &["--clients", "1", "--epoch", "10"]);
}
