//! Times the steps of a proved server of a shared store. 10,000 clients put texts of 32 bytes at 10,000 keys of 16
//! bytes, in batches of 100. While the requests of a batch come, the 100 requests of the batch before are in a
//! transaction that isn't made yet. The program prints a line for each step, with the nanoseconds that it took on
//! average in one round.

use durkenzo_store_sys::calls::{self, AnswerNumbers, Forward, Handle, Reply, SentNumbers};
use std::time::Instant;

const CLIENTS: u64 = 10_000;
const BATCH: u64 = 100;
const BATCHES: u64 = 1_000;
const OK: u32 = 0;
const WAITS: u32 = 70;
/// A record that server 1 owns.
const WORD: u64 = (1 << 61) | (1 << 48) | 1;

/// Returns the next state of a pseudo-random choice (xorshift64).
fn next(state: u64) -> u64 {
    let state = state ^ (state << 13);
    let state = state ^ (state >> 7);
    state ^ (state << 17)
}

fn must(code: u32, wanted: u32, what: &str) {
    assert!(code == wanted, "{what}: code {code}");
}

/// Returns the bytes of a request of this kind, for the client's key, with a text if it puts one.
fn request(kind: u8, client: u64) -> Vec<u8> {
    let mut bytes = vec![kind, 16];
    bytes.extend(format!("account-{client:08}").into_bytes());
    if kind == 2 {
        bytes.extend(format!("{client:>32}").into_bytes());
    }
    bytes
}

/// A server, and the number of each client's last request.
struct MeasuredServer {
    handle: Handle,
    numbers: Vec<u64>,
    revision: u64,
    room: Vec<u8>,
    choice: u64,
}

/// The nanoseconds that each step took, all together.
#[derive(Default)]
struct Times {
    take: f64,
    again: f64,
    ask: f64,
    flush: f64,
    sending: f64,
    made: f64,
    answers: f64,
}

fn timed<T>(total: &mut f64, run: impl FnOnce() -> T) -> T {
    let start = Instant::now();
    let done = run();
    *total += start.elapsed().as_nanos() as f64;
    done
}

// All calls below are safe because only this value uses the handle, and each pointer is given with its length.
impl MeasuredServer {
    fn new() -> MeasuredServer {
        let mut handle = Handle::empty();
        must(
            unsafe { calls::durkenzo_server(&mut handle, 1, 0, 1, 1_000_000, 100, 1_000, 20_000) },
            OK,
            "a server",
        );
        let mut record = vec![1];
        record.extend(WORD.to_be_bytes());
        record.extend(1_u64.to_be_bytes());
        let mut head = [0; 25];
        head[0] = 1;
        must(
            unsafe {
                calls::durkenzo_server_read(
                    &mut handle,
                    record.as_ptr(),
                    record.len(),
                    1,
                    head.as_ptr(),
                    head.len(),
                    0,
                )
            },
            OK,
            "a reading",
        );
        MeasuredServer {
            handle,
            numbers: vec![0; CLIENTS as usize],
            revision: 1,
            room: vec![0; 1 << 20],
            choice: 88_172_645_463_325_252,
        }
    }

    fn take(&mut self, client: u64, number: u64, request: &[u8], wanted: u32) {
        let (mut reply, mut forward) = (Reply::default(), Forward::default());
        let code = unsafe {
            calls::durkenzo_server_take(
                &mut self.handle,
                client,
                number,
                0,
                0,
                0,
                request.as_ptr(),
                request.len(),
                &mut reply,
                &mut forward,
            )
        };
        must(code, wanted, "a request");
    }

    /// Returns the clients of a batch, all of them different. They have odd numbers if `from` is 0, and even ones if it
    /// is 1.
    fn chosen(&mut self, from: u64) -> Vec<u64> {
        self.choice = next(self.choice);
        let first = self.choice >> 32;
        // These differ, because 7,919 is prime to 5,000. Two batches in a row must have clients of different halves.
        (0..BATCH)
            .map(|at| 1 + ((first + at * 7_919) % (CLIENTS / 2)) * 2 + from)
            .collect()
    }

    fn take_all(&mut self, clients: &[u64], times: &mut Times) {
        let requests: Vec<Vec<u8>> = clients.iter().map(|it| request(2, *it)).collect();
        timed(&mut times.take, || {
            for (client, request) in clients.iter().zip(&requests) {
                let number = self.numbers[*client as usize - 1] + 1;
                self.numbers[*client as usize - 1] = number;
                self.take(*client, number, request, WAITS);
            }
        });
    }

    fn flush(&mut self) {
        let mut sends = false;
        must(
            unsafe { calls::durkenzo_server_flush(&mut self.handle, &mut sends) },
            OK,
            "a flush",
        );
        assert!(sends, "nothing is sent");
    }

    fn sending(&mut self) {
        let mut numbers = SentNumbers::default();
        let (into, room) = (self.room.as_mut_ptr(), self.room.len());
        must(
            unsafe { calls::durkenzo_server_sending(&mut self.handle, &mut numbers, into, room) },
            OK,
            "what is sent",
        );
        assert!(numbers.head_length == 25);
    }

    fn made(&mut self) -> (usize, usize) {
        let (mut made, mut read) = (0, 0);
        self.revision += 1;
        must(
            unsafe {
                calls::durkenzo_server_made(&mut self.handle, self.revision, &mut made, &mut read)
            },
            OK,
            "what was made",
        );
        (made, read)
    }

    fn answers(&mut self, made: usize, read: usize) {
        let mut answer = AnswerNumbers::default();
        let (into, room) = (self.room.as_mut_ptr(), self.room.len());
        for at in 0..made {
            must(
                unsafe { calls::durkenzo_server_answer(&mut self.handle, at, &mut answer) },
                OK,
                "an answer",
            );
        }
        for at in 0..read {
            must(
                unsafe {
                    calls::durkenzo_server_text(&mut self.handle, at, &mut answer, into, room)
                },
                OK,
                "a text",
            );
            assert!(answer.length == 32);
        }
    }

    /// Tells the server that its transaction was made, takes the answers, and sends the requests that came meanwhile.
    fn turn(&mut self, times: &mut Times) {
        let (made, read) = timed(&mut times.made, || self.made());
        timed(&mut times.answers, || self.answers(made, read));
        timed(&mut times.flush, || self.flush());
        timed(&mut times.sending, || self.sending());
    }

    /// Sends the last request of each of these clients again. They must be made already.
    fn again(&mut self, clients: &[u64], times: &mut Times) {
        let requests: Vec<Vec<u8>> = clients.iter().map(|it| request(2, *it)).collect();
        timed(&mut times.again, || {
            for (client, request) in clients.iter().zip(&requests) {
                self.take(*client, self.numbers[*client as usize - 1], request, OK);
            }
        });
    }
}

fn round(server: &mut MeasuredServer) {
    let mut times = Times::default();
    for batch in 0..BATCHES {
        let clients = server.chosen(batch % 2);
        server.take_all(&clients, &mut times);
        server.turn(&mut times);
        let others = server.chosen((batch + 1) % 2);
        server.again(&others, &mut times);
    }
    let mut reads = Times::default();
    for batch in 0..BATCHES {
        let clients = server.chosen(batch % 2);
        let requests: Vec<Vec<u8>> = clients.iter().map(|it| request(1, *it)).collect();
        timed(&mut reads.ask, || {
            for (client, request) in clients.iter().zip(&requests) {
                server.take(*client, batch, request, WAITS);
            }
        });
        let (made, read) = timed(&mut reads.made, || server.made());
        timed(&mut reads.answers, || server.answers(made, read));
        server.flush();
    }
    let one = |total: f64| total / (BATCHES * BATCH) as f64;
    let all = |total: f64| total / BATCHES as f64;
    println!("a request that waits\t{}", one(times.take));
    println!("one that was made, asked again\t{}", one(times.again));
    println!("a read that waits\t{}", one(reads.ask));
    println!("a batch of 100 is cut\t{}", all(times.flush));
    println!("it is spelled\t{}", all(times.sending));
    println!(
        "it was made: its requests are executed\t{}",
        all(times.made)
    );
    println!("its answers are told\t{}", all(times.answers));
    println!("100 reads are answered\t{}", all(reads.made));
    println!("their texts are told\t{}", all(reads.answers));
    println!(
        "a request, all of it\t{}",
        one(times.take + times.flush + times.sending + times.made + times.answers)
    );
}

fn main() {
    let rounds: u32 = std::env::args()
        .nth(1)
        .and_then(|it| it.parse().ok())
        .unwrap_or(1);
    let mut server = MeasuredServer::new();
    // Before anything is timed, the server must know each client, and each key must have a text.
    let mut untimed = Times::default();
    for batch in 0..CLIENTS / BATCH {
        let clients: Vec<u64> = (1 + batch * BATCH..=(batch + 1) * BATCH).collect();
        server.take_all(&clients, &mut untimed);
        server.flush();
        let (made, _) = server.made();
        assert!(made as u64 == BATCH);
    }
    let others = server.chosen(1);
    server.take_all(&others, &mut untimed);
    server.flush();
    for _ in 0..rounds {
        round(&mut server);
    }
    unsafe { calls::durkenzo_server_close(&mut server.handle) }
}
