//! Certificates for tests, and complete connections.
use super::memory_stream::MemoryStream;
use super::pem::{certificates, TlsIdentity};
use super::*;
use openssl::ssl::{SslContextBuilder, SslMethod, SslVersion};
use std::fs;
use std::io::{BufWriter, ErrorKind, Read, Write};
use std::net::{TcpListener, TcpStream};
use std::path::{Path, PathBuf};
use std::process::Command;
use std::time::{Duration, Instant};
use std::{env, process, thread};

const WITHIN: Duration = Duration::from_secs(60);
const BYTES: usize = 8 << 20;
const KEY: &str = "-newkey ec -pkeyopt ec_paramgen_curve:P-256 -nodes";
/// An alert that closes a connection.
const CLOSE_NOTIFY: [u8; 7] = [0x15, 3, 3, 0, 2, 1, 0];

/// A folder with authorities and certificates from them. It is removed after the test.
struct Folder(PathBuf);

impl Drop for Folder {
    fn drop(&mut self) {
        let _ = fs::remove_dir_all(&self.0);
    }
}

impl Folder {
    /// Makes the folder; returns nothing if there is no openssl.
    fn made(name: &str) -> Option<Folder> {
        Command::new("openssl").arg("version").output().ok()?;
        let folder = env::temp_dir().join(format!("durkenzo-{name}-{}", process::id()));
        fs::create_dir_all(&folder).unwrap();
        Some(Folder(folder))
    }

    fn at(&self, file: &str) -> PathBuf {
        self.0.join(file)
    }

    fn openssl(&self, words: &str) {
        let words = words.split_whitespace();
        let ran = Command::new("openssl")
            .args(words)
            .current_dir(&self.0)
            .output();
        let ran = ran.unwrap();
        assert!(
            ran.status.success(),
            "{}",
            String::from_utf8_lossy(&ran.stderr)
        );
    }

    /// Makes an authority, and a certificate from it for these names.
    fn certify(&self, authority: &str, name: &str, names: &str) {
        if !self.at(&format!("{authority}.pem")).exists() {
            let out = format!("-keyout {authority}.key -out {authority}.pem");
            self.openssl(&format!("req -x509 {KEY} {out} -subj /CN={authority}"));
        }
        let names = format!("subjectAltName=DNS:{names}\nbasicConstraints=CA:FALSE");
        self.certify_with(authority, name, &names, "");
    }

    /// Makes a certificate from this authority with these extensions, with these arguments.
    fn certify_with(&self, authority: &str, name: &str, extensions: &str, words: &str) {
        let out = format!("-keyout {name}.key -out {name}.csr");
        self.openssl(&format!("req {KEY} {out} -subj /CN={name}"));
        fs::write(self.at("names"), extensions).unwrap();
        let by = format!("-CA {authority}.pem -CAkey {authority}.key -CAcreateserial");
        let made = format!("-in {name}.csr -out {name}.pem -extfile names {words}");
        self.openssl(&format!("x509 -req {by} {made}"));
    }

    /// Returns a chain of `cluster` with so many authorities between it and a certificate of peers, all in one file.
    fn certify_below(&self, between: usize) -> String {
        let authority = |at: usize| match at {
            0 => "cluster".to_owned(),
            _ => format!("authority-{between}-{at}"),
        };
        for at in 1..=between {
            self.certify_with(
                &authority(at - 1),
                &authority(at),
                "basicConstraints=CA:TRUE",
                "",
            );
        }
        let name = format!("below-{between}");
        self.certify(&authority(between), &name, PEER_NAME);
        let above = (1..=between).rev().map(authority);
        let parts = std::iter::once(name.clone()).chain(above);
        let read = |it: String| fs::read_to_string(self.at(&format!("{it}.pem"))).unwrap();
        let chain: String = parts.map(read).collect();
        fs::write(self.at(&format!("{name}.pem")), chain).unwrap();
        name
    }

    /// Returns the settings of a client of this authority, which isn't a peer.
    fn client(&self, authority: &str, name: &str) -> SslContextBuilder {
        let file = |it: &str, kind: &str| self.at(&format!("{it}.{kind}"));
        let identity = TlsIdentity::read(&file(name, "pem"), &file(name, "key")).unwrap();
        let mut builder = context::builder(SslMethod::tls_client(), &identity).unwrap();
        let trusted = certificates(&file(authority, "pem")).unwrap();
        context::ask(&mut builder, &trusted).unwrap();
        builder
    }

    fn peers(&self, authority: &str, name: &str) -> Result<PeersTls, TlsFault> {
        let file = |it: &str, kind: &str| self.at(&format!("{it}.{kind}"));
        PeersTls::new(
            &file(authority, "pem"),
            &file(name, "pem"),
            &file(name, "key"),
        )
    }
}

fn sockets() -> (TcpStream, TcpStream) {
    let listener = TcpListener::bind("127.0.0.1:0").unwrap();
    let one = TcpStream::connect(listener.local_addr().unwrap()).unwrap();
    (one, listener.accept().unwrap().0)
}

type Halves = (ReadHalf, WriteHalf);

/// Returns both sides of a connection, or why there is none.
fn met(one: &PeersTls, two: &PeersTls) -> (std::io::Result<Halves>, std::io::Result<Halves>) {
    let (left, right) = sockets();
    thread::scope(|scope| {
        let accepted = scope.spawn(|| two.accept(right, WITHIN));
        let connected = one.connect(left, WITHIN);
        (connected, accepted.join().unwrap())
    })
}

fn byte(at: usize, seed: usize) -> u8 {
    (at.wrapping_mul(at).wrapping_add(at / 7 + seed) % 251) as u8
}

fn send(write: &mut WriteHalf, seed: usize) {
    let mut buffered = BufWriter::with_capacity(40_000, write);
    let all: Vec<u8> = (0..BYTES).map(|at| byte(at, seed)).collect();
    all.chunks(9_999)
        .for_each(|it| buffered.write_all(it).unwrap());
    buffered.flush().unwrap();
}

fn receive(read: &mut ReadHalf, seed: usize) {
    let mut all = Vec::with_capacity(BYTES);
    read.read_to_end(&mut all).unwrap();
    assert_eq!(all.len(), BYTES);
    assert!(all.iter().enumerate().all(|(at, it)| *it == byte(at, seed)));
}

/// Sends much in both directions at the same time, each half on its own thread.
fn converse(one: Halves, two: Halves) {
    thread::scope(|scope| {
        for (seed, (mut read, mut write)) in [one, two].into_iter().enumerate() {
            scope.spawn(move || {
                send(&mut write, seed);
                drop(write);
            });
            scope.spawn(move || receive(&mut read, 1 - seed));
        }
    });
}

#[test]
fn peers_converse_both_ways_at_once() {
    let Some(folder) = Folder::made("both-ways") else {
        return;
    };
    folder.certify("cluster", "one", PEER_NAME);
    folder.certify("cluster", "two", PEER_NAME);
    let one = folder.peers("cluster", "one").unwrap();
    let two = folder.peers("cluster", "two").unwrap();
    let (connected, accepted) = met(&one, &two);
    converse(connected.unwrap(), accepted.unwrap());
}

#[test]
fn halves_without_tls_do_the_same() {
    let (left, right) = sockets();
    let halves = |it: TcpStream| {
        let other = it.try_clone().unwrap();
        (ReadHalf::plain(it), WriteHalf::plain(other))
    };
    converse(halves(left), halves(right));
}

#[test]
fn who_is_no_peer_is_not_met() {
    let Some(folder) = Folder::made("no-peer") else {
        return;
    };
    folder.certify("cluster", "one", PEER_NAME);
    folder.certify("cluster", "client", "client.example");
    folder.certify("others", "stranger", PEER_NAME);
    let one = folder.peers("cluster", "one").unwrap();
    assert!(matches!(
        folder.peers("cluster", "client"),
        Err(TlsFault::NotTaken(..))
    ));
    let stranger = folder.peers("others", "stranger").unwrap();
    for (connected, accepted) in [met(&one, &stranger), met(&stranger, &one)] {
        // In TLS 1.3 the caller learns of a refusal only in its first read.
        let heard = connected.and_then(|(mut read, _write)| read.read(&mut [0; 9]));
        assert!(heard.is_err() && accepted.is_err());
    }
}

#[test]
fn a_client_of_the_same_authority_is_no_peer() {
    let Some(folder) = Folder::made("a-client") else {
        return;
    };
    folder.certify("cluster", "one", PEER_NAME);
    folder.certify("cluster", "client", "client.example");
    let one = folder.peers("cluster", "one").unwrap();
    let client = folder.client("cluster", "client").build();
    let mut client = TlsConnection::connecting(&client, PEER_NAME).unwrap();
    let (left, right) = sockets();
    let accepting = thread::spawn(move || one.accept(right, WITHIN).map(drop));
    handshake::shake(&mut client, &left, WITHIN).unwrap();
    let refused = accepting.join().unwrap().unwrap_err();
    assert_eq!(refused.kind(), ErrorKind::InvalidData, "{refused}");
}

/// Returns whether these two can connect.
fn do_meet(one: &PeersTls, two: &PeersTls) -> bool {
    let (connected, accepted) = met(one, two);
    accepted.is_ok() && connected.is_ok()
}

#[test]
fn a_certificate_is_of_its_name_its_time_and_its_use() {
    let Some(folder) = Folder::made("its-use") else {
        return;
    };
    folder.certify("cluster", "one", PEER_NAME);
    folder.certify("cluster", "any", "*.durkenzo");
    assert!(folder.peers("cluster", "any").is_err());
    let name = format!("subjectAltName=DNS:{PEER_NAME}\nbasicConstraints=CA:FALSE");
    let of_use = |it: &str| format!("{name}\nextendedKeyUsage={it}");
    folder.certify_with("cluster", "caller", &of_use("clientAuth"), "");
    folder.certify_with("cluster", "answerer", &of_use("serverAuth"), "");
    folder.certify_with("cluster", "both", &of_use("clientAuth,serverAuth"), "");
    folder.certify_with("cluster", "late", &name, "-days -1");
    let of = |name: &str| folder.peers("cluster", name).unwrap();
    let one = of("one");
    let meets = |name: &str| (do_meet(&of(name), &one), do_meet(&one, &of(name)));
    assert_eq!(meets("both"), (true, true));
    assert_eq!(meets("caller"), (true, false));
    assert!(meets("answerer").1);
    assert!(met(&of("answerer"), &one).1.is_err());
    assert!(met(&of("late"), &one).1.is_err() && met(&one, &of("late")).0.is_err());
}

#[test]
fn few_authorities_stand_between() {
    let Some(folder) = Folder::made("between") else {
        return;
    };
    folder.certify("cluster", "one", PEER_NAME);
    let one = folder.peers("cluster", "one").unwrap();
    let below = |it| folder.peers("cluster", &folder.certify_below(it)).unwrap();
    assert!(do_meet(&below(3), &one) && do_meet(&one, &below(3)));
    assert!(met(&below(4), &one).1.is_err() && met(&one, &below(4)).0.is_err());
}

#[test]
fn versions_of_before_are_not_spoken() {
    let Some(folder) = Folder::made("versions") else {
        return;
    };
    folder.certify("cluster", "one", PEER_NAME);
    let met = |version| {
        let one = folder.peers("cluster", "one").unwrap();
        let mut client = folder.client("cluster", "one");
        client.set_min_proto_version(None).unwrap();
        client.set_max_proto_version(Some(version)).unwrap();
        client.set_cipher_list("ALL:@SECLEVEL=0").unwrap();
        let mut client = TlsConnection::connecting(&client.build(), PEER_NAME).unwrap();
        let (left, right) = sockets();
        let accepting = thread::spawn(move || one.accept(right, WITHIN).map(drop));
        let shaken = handshake::shake(&mut client, &left, WITHIN);
        accepting.join().unwrap().and(shaken)
    };
    assert!(met(SslVersion::TLS1_2).is_ok());
    assert!(met(SslVersion::TLS1_1).is_err());
}

#[test]
fn an_alert_in_place_of_a_handshake_ends_it() {
    let Some(folder) = Folder::made("alert") else {
        return;
    };
    folder.certify("cluster", "one", PEER_NAME);
    let mut client = folder.client("cluster", "one");
    client
        .set_max_proto_version(Some(SslVersion::TLS1_2))
        .unwrap();
    let mut client = TlsConnection::connecting(&client.build(), PEER_NAME).unwrap();
    assert!(!client.shake().unwrap());
    let hello = client.unsent();
    for begun in [CLOSE_NOTIFY.to_vec(), [hello, &CLOSE_NOTIFY].concat()] {
        let one = folder.peers("cluster", "one").unwrap();
        let (mut left, right) = sockets();
        left.write_all(&begun).unwrap();
        // It waits neither for the socket's end nor for its deadline.
        let refused = one.accept(right, WITHIN).map(drop).unwrap_err();
        assert_eq!(refused.kind(), ErrorKind::InvalidData, "{refused}");
    }
}

#[test]
fn a_handshake_has_a_bound_of_bytes() {
    let Some(folder) = Folder::made("bound") else {
        return;
    };
    folder.certify("cluster", "one", PEER_NAME);
    let (chain, key) = (folder.at("one.pem"), folder.at("one.key"));
    let met = ClientsTls::new(&chain, &key, None).unwrap();
    let mut connection = met.connection().unwrap();
    // It sends the first message of a handshake, of 128 KiB, in records of one byte.
    let mut sent = 0;
    let told = (0..128 << 10).find_map(|at| {
        let byte = [1, 2, 0, 0].get(at).copied().unwrap_or(0);
        connection.feed(&[0x16, 3, 1, 0, 1, byte]);
        sent += 6;
        connection.shake().err()
    });
    let told = told.expect("it is refused").to_string();
    assert!((32 << 10..33 << 10).contains(&sent), "{sent}: {told}");
}

#[test]
fn records_in_vain_have_a_bound() {
    let mut memory = MemoryStream::new();
    memory.note_use();
    let (mut count, mut room) = (0, [0; 5]);
    memory.feed(&[0; 1_000]);
    while memory.read(&mut room).is_ok() {
        count += 1;
    }
    assert_eq!(count, 16);
    assert!(memory.note_use() && memory.read(&mut room).is_ok() && !memory.note_use());
    // No more is kept than another side can read, either.
    while memory.write(&[0; 10_000]).is_ok() {}
    assert!((256 << 10..300 << 10).contains(&memory.unsent().len()));
    memory.note_sent(memory.unsent().len());
    assert!(memory.unsent().is_empty() && memory.write(&[0]).is_ok());
}

#[test]
fn who_stalls_or_breaks_off_is_found_out() {
    let Some(folder) = Folder::made("stalls") else {
        return;
    };
    folder.certify("cluster", "one", PEER_NAME);
    let one = folder.peers("cluster", "one").unwrap();
    let (_silent, right) = sockets();
    let kind = one
        .accept(right, Duration::from_millis(50))
        .unwrap_err()
        .kind();
    assert!(
        matches!(kind, ErrorKind::WouldBlock | ErrorKind::TimedOut),
        "{kind:?}"
    );
    let (connected, accepted) = met(&one, &one);
    let ((mut read, write), (_, other)) = (connected.unwrap(), accepted.unwrap());
    read.set_timeout(Some(Duration::from_millis(50))).unwrap();
    let kind = uninterrupted(|| read.read(&mut [0; 9])).unwrap_err().kind();
    assert!(
        matches!(kind, ErrorKind::WouldBlock | ErrorKind::TimedOut),
        "{kind:?}"
    );
    // An end of the socket alone isn't announced by the peer.
    read.set_timeout(None).unwrap();
    other.end();
    assert_eq!(
        read.read(&mut [0; 9]).unwrap_err().kind(),
        ErrorKind::UnexpectedEof
    );
    drop(write);
}

#[test]
fn a_read_has_a_time_in_all_however_slowly_a_record_comes() {
    let Some(folder) = Folder::made("slow") else {
        return;
    };
    folder.certify("cluster", "one", PEER_NAME);
    let one = folder.peers("cluster", "one").unwrap();
    let (left, right) = sockets();
    let mut raw = right.try_clone().unwrap();
    thread::scope(|scope| {
        let accepted = scope.spawn(|| one.accept(right, WITHIN));
        let (mut read, _write) = one.connect(left, WITHIN).unwrap();
        let _halves = accepted.join().unwrap().unwrap();
        scope.spawn(move || {
            // A record of 16 KiB begins, until nobody reads it any more.
            raw.write_all(&[0x17, 3, 3, 0x40, 0]).unwrap();
            while raw.write_all(&[7]).is_ok() {
                thread::sleep(Duration::from_millis(10));
            }
        });
        read.set_timeout(Some(WITHIN)).unwrap();
        let began = Instant::now();
        let brief = began + Duration::from_millis(100);
        let late = uninterrupted(|| read.read_before(brief, &mut [0; 9]));
        assert_eq!(late.unwrap_err().kind(), ErrorKind::TimedOut);
        assert!(began.elapsed() < WITHIN);
        read.end();
    });
}

/// Repeats a call that fails because the process was stopped meanwhile and goes on. Returns its final result.
fn uninterrupted<T>(mut call: impl FnMut() -> std::io::Result<T>) -> std::io::Result<T> {
    loop {
        match call() {
            Err(error) if error.kind() == ErrorKind::Interrupted => {}
            found => return found,
        }
    }
}

/// Writes until the peer, which reads nothing, has no more room. Returns how many bytes were sent.
fn fill(write: &mut impl Write) -> usize {
    let (all, mut sent) = (vec![7; 100_000], 0);
    loop {
        match write.write(&all) {
            Ok(count) => sent += count,
            Err(error) => {
                let is_late = matches!(error.kind(), ErrorKind::WouldBlock | ErrorKind::TimedOut);
                assert!(is_late, "{error}");
                return sent;
            }
        }
    }
}

#[test]
fn of_bytes_by_which_a_write_fails_the_peer_reads_none() {
    let Some(folder) = Folder::made("fails") else {
        return;
    };
    folder.certify("cluster", "one", PEER_NAME);
    let one = folder.peers("cluster", "one").unwrap();
    for _ in 0..3 {
        let (connected, accepted) = met(&one, &one);
        let ((_own, mut write), (mut read, _other)) = (connected.unwrap(), accepted.unwrap());
        write.set_timeout(Some(Duration::from_millis(50))).unwrap();
        let sent = fill(&mut write);
        assert!(write.write(b"more").is_err());
        read.set_timeout(Some(WITHIN)).unwrap();
        let (mut came, mut room) = (0, [0; 5_000]);
        while came < sent {
            came += uninterrupted(|| read.read(&mut room)).unwrap();
        }
        read.set_timeout(Some(Duration::from_millis(300))).unwrap();
        let comes_more = matches!(uninterrupted(|| read.read(&mut room)), Ok(1..));
        assert!(came == sent && !comes_more);
    }
}

#[test]
fn files_that_have_nothing_are_named() {
    let nowhere = Path::new("/nowhere/key.pem");
    let fault = ClientsTls::new(nowhere, nowhere, None).unwrap_err();
    assert!(matches!(&fault, TlsFault::Unreadable(..)) && fault.to_string().contains("/nowhere/"));
    let empty = Path::new("/dev/null");
    assert!(matches!(
        PeersTls::new(empty, empty, empty),
        Err(TlsFault::NoCertificate(_))
    ));
}
