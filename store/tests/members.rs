//! The results of a store in etcd if members don't answer, or refuse. If etcd isn't installed, the tests do nothing.
mod beside;
#[path = "beside/scripted.rs"]
mod scripted;

use beside::relay::Relay;
use beside::{free_port, store_in, Folder, Member, PATIENCE};
use durkenzo_store::{
    Access, Etcd, EtcdProtocol, LeaseError, Outcome, ReadError, Revision, Seen, StartError, Store,
    StoreSize, Transaction, WriteError,
};
use scripted::{read_until, scripted, Scripted};
use std::iter;
use std::net::TcpListener;
use std::path::Path;
use std::process::{Command, Stdio};
use std::sync::mpsc;
use std::thread;
use std::time::{Duration, Instant};

/// A value by which a call is known to have come.
const GOT: &str = "it is written";
/// The answer to a transaction that was made at revision 5.
const MADE: &[u8] = b"\x0a\x02\x18\x05\x10\x01";
/// How many values are large, and how large.
const LARGE: usize = 32;
const MEBIBYTE: usize = 1 << 20;
const ASIDE: Duration = Duration::from_secs(60);
const SHORT: Duration = Duration::from_secs(2);
/// How many write at the same time.
const WRITERS: usize = 64;
/// How long they begin again as long as none of them is told wrongly.
const ENOUGH: Duration = Duration::from_secs(120);

by_each_protocol!(
    says_that_no_member_got_it,
    says_that_an_outcome_is_not_known,
    reads_and_watches_large_values,
    passes_over_members_that_are_not_there,
    passes_over_members_that_refuse_for_themselves,
    says_that_the_quota_is_reached,
    says_nothing_of_what_takes_the_last_room,
    says_that_it_is_too_large,
    compacts_history_though_a_member_is_away,
    a_reading_whose_moment_is_compacted_begins_again,
    watches_on_after_a_member_was_away,
    gives_its_name_and_password,
    knows_a_member_by_its_address,
    speaks_tls,
);

fn nobody() -> String {
    format!("http://127.0.0.1:{}", free_port())
}

#[test]
fn reads_addresses() {
    let of = |it: &str| Etcd::new(Access::new([it])).map(drop);
    assert!(of("http://127.0.0.1:2379").is_ok() && of("http://etcd.example:2379/").is_ok());
    assert!(of("https://127.0.0.1:2379").is_ok() && of("https://[::1]:2379").is_ok());
    for wrong in [
        "127.0.0.1:2379",
        "https://:2379",
        "unix:///tmp/it",
        "http://",
        "http://a:1/v3",
        "a b",
    ] {
        assert!(
            matches!(of(wrong), Err(StartError::BadEndpoint(it)) if it == wrong),
            "{wrong}"
        );
    }
    assert!(matches!(
        Etcd::new(Access::new::<String>([])),
        Err(StartError::NoEndpoint)
    ));
}

fn says_that_no_member_got_it(protocol: EtcdProtocol) {
    let store = store_in(&[&nobody(), &nobody()], PATIENCE, protocol);
    let made = store.make(Transaction::new().put("a", "1"));
    assert!(matches!(made, Err(WriteError::Unavailable(_))), "{made:?}");
    assert!(matches!(
        store.read(&[b"a"]),
        Err(ReadError::Unavailable(_))
    ));
}

/// Returns whether a member has the call that it is to have got. Before that it may have got only the head of the
/// connection.
fn is_got(protocol: EtcdProtocol, asked: &[u8]) -> bool {
    match protocol {
        EtcdProtocol::Json => asked.ends_with(b"}"),
        EtcdProtocol::Grpc => asked.windows(GOT.len()).any(|it| it == GOT.as_bytes()),
    }
}

/// A member takes a call and falls silent, or hangs up, so it may have made it.
fn says_that_an_outcome_is_not_known(protocol: EtcdProtocol) {
    for hangs_up in [true, false] {
        let listener = TcpListener::bind(("127.0.0.1", 0)).expect("a port");
        let endpoint = format!("http://{}", listener.local_addr().expect("its address"));
        thread::spawn(move || {
            let mut streams = Vec::new();
            for stream in listener.incoming() {
                let mut stream = stream.expect("a caller");
                read_until(&mut stream, |asked| is_got(protocol, asked));
                if !hangs_up {
                    streams.push(stream);
                }
            }
        });
        let store = store_in(&[&endpoint, &nobody()], SHORT, protocol);
        let made = store.make(Transaction::new().put("a", GOT));
        assert!(matches!(made, Err(WriteError::Unknown(_))), "{made:?}");
    }
}

/// Without its status, an answer by gRPC may not be whole. With one, it may still be about another call.
#[test]
fn an_answer_by_grpc_needs_its_status() {
    let answer = |code, message| {
        let json = ("200 OK", "{}");
        let script = iter::repeat(Scripted {
            json,
            grpc: (code, "no", message),
        });
        let endpoint = scripted(EtcdProtocol::Grpc, script);
        let store = store_in(&[&endpoint], PATIENCE, EtcdProtocol::Grpc);
        (
            store.make(Transaction::new().put("a", "1")),
            store.read(&[b"a"]),
        )
    };
    for (code, message) in [(None, Some(MADE)), (None, None), (Some(0), None)] {
        let (made, read) = answer(code, message);
        assert!(matches!(made, Err(WriteError::Unknown(_))), "{made:?}");
        assert!(matches!(read, Err(ReadError::Unavailable(_))), "{read:?}");
    }
    let (made, _) = answer(Some(0), Some(MADE));
    assert!(matches!(made, Ok(Outcome::Made(Revision(5)))), "{made:?}");
    for message in [None, Some(MADE)] {
        let (made, read) = answer(Some(7), message);
        assert!(matches!(made, Err(WriteError::Denied(_))), "{made:?}");
        assert!(matches!(read, Err(ReadError::Denied(_))), "{read:?}");
    }
}

/// All calls of a member by gRPC go on one connection, at the same time, too.
#[test]
fn calls_by_grpc_share_a_connection() {
    let Some(member) = Member::start(EtcdProtocol::Grpc, &[]) else {
        return;
    };
    let relay = Relay::before(&member.endpoint);
    let store = store_in(&[&relay.endpoint], PATIENCE, EtcdProtocol::Grpc);
    let put = |at: usize| store.make(Transaction::new().put(format!("{at}"), "1"));
    thread::scope(|scope| {
        let put = &put;
        let writers: Vec<_> = (0..WRITERS)
            .map(|at| scope.spawn(move || put(at)))
            .collect();
        for it in writers {
            made(it.join().expect("an outcome"));
        }
    });
    // On a machine that stops for a while, a connection may seem silent.
    assert!(relay.callers() < WRITERS / 8, "{}", relay.callers());
    relay.cut();
    relay.mend();
    let read = store.read(&[b"1"]).expect("it connects again");
    assert_eq!(read.pairs.len(), 1);
}

/// Pages and changes of many megabytes come whole.
fn reads_and_watches_large_values(protocol: EtcdProtocol) {
    let Some(member) = Member::start(protocol, &[]) else {
        return;
    };
    let store = member.store();
    let (tell, told) = mpsc::channel();
    let watcher = Box::new(move |seen| drop(tell.send(seen)));
    let _watch = store.watch(b"a/", watcher).expect("a watch");
    for at in 0..LARGE {
        made(store.make(Transaction::new().put(format!("a/{at}"), vec![7; MEBIBYTE])));
    }
    let read = store.read_all(b"a/").expect("a reading").pairs;
    assert_eq!(read.len(), LARGE);
    assert!(read.iter().all(|it| it.value == vec![7; MEBIBYTE]));
    let mut changes = 0;
    while changes < LARGE {
        match told.recv_timeout(ASIDE).expect("all are told") {
            Seen::All(it) => assert!(it.pairs.is_empty()),
            Seen::Changes(_, some) => {
                let is_whole = |it: &Option<Vec<u8>>| it.as_ref().map(Vec::len) == Some(MEBIBYTE);
                assert!(some.iter().all(|it| is_whole(&it.value)));
                changes += some.len();
            }
        }
    }
}

fn passes_over_members_that_are_not_there(protocol: EtcdProtocol) {
    let Some(member) = Member::start(protocol, &[]) else {
        return;
    };
    let store = store_in(
        &[&nobody(), &member.endpoint, &nobody()],
        PATIENCE,
        protocol,
    );
    for _ in 0..4 {
        store
            .make(Transaction::new().put("a", "1"))
            .expect("the second one has it");
    }
    assert_eq!(store.read(&[b"a"]).expect("a reading").pairs.len(), 1);
}

/// The answers of a learner, and of a member without a leader in place of a stream.
const FOR_ITSELF: [Scripted; 2] = [
    Scripted {
        json: (
            "503 No",
            r#"{"error":"no","message":"etcdserver: rpc not supported for learner","code":14}"#,
        ),
        grpc: (Some(14), "etcdserver: rpc not supported for learner", None),
    },
    Scripted {
        json: (
            "503 No",
            r#"{"error":{"grpc_code":14,"http_code":503,"message":"etcdserver: no leader"}}"#,
        ),
        grpc: (Some(14), "etcdserver: no leader", None),
    },
];

fn passes_over_members_that_refuse_for_themselves(protocol: EtcdProtocol) {
    let Some(member) = Member::start(protocol, &[]) else {
        return;
    };
    for told in FOR_ITSELF {
        let refuser = || scripted(protocol, iter::repeat(told));
        let beside = || store_in(&[&refuser(), &member.endpoint], PATIENCE, protocol);
        beside().read(&[b"a"]).expect("another one is read");
        let lease = beside().grant(ASIDE).expect("another one grants it");
        beside().keep(lease).expect("another one keeps it");
        // It may have made the call that it refuses with this.
        let (store, put) = (beside(), || Transaction::new().put("a", "1"));
        let made = store.make(put());
        assert!(matches!(made, Err(WriteError::Unknown(_))), "{made:?}");
        store.make(put()).expect("another one makes it");
        // No lease has ended because of that.
        let kept = store_in(&[&refuser()], PATIENCE, protocol).keep(lease);
        assert!(matches!(kept, Err(LeaseError::Unavailable(_))), "{kept:?}");
    }
}

fn says_that_the_quota_is_reached(protocol: EtcdProtocol) {
    let Some(member) = Member::start(protocol, &["--quota-backend-bytes", "4000000"]) else {
        return;
    };
    let store = member.store();
    let put = |at: usize| {
        let key = format!("{at}").into_bytes();
        let new = Transaction::new().compare(key.clone(), Revision::NEVER);
        let made = store.make(new.put(key.clone(), vec![7; 200_000]));
        let lies = !store.read(&[&key]).expect("reads go on").pairs.is_empty();
        made.err().map(|it| (it, lies))
    };
    let refused: Vec<_> = (0..100).filter_map(put).take(3).collect();
    // A transaction that takes the last room may be made, although a member says that there is none.
    let is_right = |it: &(WriteError, bool)| match it {
        (WriteError::Full(_), lies) => !lies,
        (error, _) => matches!(error, WriteError::Unknown(_)),
    };
    assert!(refused.iter().all(is_right), "{refused:?}");
    let is_full = |it: &(WriteError, bool)| matches!(it.0, WriteError::Full(_));
    assert!(refused.iter().any(is_full), "{refused:?}");
    assert_eq!(store.read(&[b"0"]).expect("reads go on").pairs.len(), 1);
    // Deleted keys make room once they are compacted.
    let delete = |it, at: usize| Transaction::delete(it, format!("{at}"));
    let deleted = store.make((1..100).fold(Transaction::new(), delete));
    assert!(matches!(deleted, Ok(Outcome::Made(_))), "{deleted:?}");
    store.compact().expect("it makes room");
    let made = store.make(Transaction::new().put("b", vec![7; 200_000]));
    assert!(matches!(made, Ok(Outcome::Made(_))), "{made:?}");
    store.compact().expect("again");
}

/// Makes writers fill the store at the same time, each until it is refused. Returns the refusals and the keys that they
/// were to write.
fn fill(store: &Etcd, round: usize) -> Vec<(Vec<u8>, WriteError)> {
    let write = |writer: usize| {
        let refused = |at: usize| {
            let key = format!("a/{round}/{writer}/{at}").into_bytes();
            let new = Transaction::new().compare(key.clone(), Revision::NEVER);
            let made = store.make(new.put(key.clone(), vec![7; 20_000]));
            made.err().map(|it| (key, it))
        };
        (0..1_000).find_map(refused).expect("there is a quota")
    };
    thread::scope(|scope| {
        let writers: Vec<_> = (0..WRITERS)
            .map(|it| scope.spawn(move || write(it)))
            .collect();
        let refused = writers.into_iter().map(|it| it.join().expect("a refusal"));
        refused.collect()
    })
}

/// Deletes the keys that those wrote, and has it return the room.
fn empty(store: &Etcd) {
    let all = store.read_all(b"a/").expect("reads go on").pairs;
    for some in all.chunks(100) {
        let keys = some.iter().map(|it| it.key.clone());
        let deleted = store.make(keys.fold(Transaction::new(), Transaction::delete));
        assert!(matches!(deleted, Ok(Outcome::Made(_))), "{deleted:?}");
    }
    store.compact().expect("it makes room");
}

/// Among the transactions under way while the last room is taken, a member makes some, and still answers that there is
/// no space. These aren't told as not made.
fn says_nothing_of_what_takes_the_last_room(protocol: EtcdProtocol) {
    let Some(member) = Member::start(protocol, &["--quota-backend-bytes", "4000000"]) else {
        return;
    };
    let (store, end) = (member.store(), Instant::now() + ENOUGH);
    let (mut taken, mut rounds) = (0, 0..);
    while taken == 0 && Instant::now() < end {
        for (key, error) in fill(&store, rounds.next().expect("a number")) {
            let lies = !store.read(&[&key]).expect("reads go on").pairs.is_empty();
            let is_full = matches!(error, WriteError::Full(_));
            let is_unknown = matches!(error, WriteError::Unknown(_));
            assert!(
                is_unknown || is_full && !lies,
                "{error:?}, and it lies: {lies}"
            );
            taken += usize::from(lies);
        }
        empty(&store);
    }
    assert!(taken > 0, "none of these was made");
}

fn says_that_it_is_too_large(protocol: EtcdProtocol) {
    let Some(member) = Member::start(protocol, &[]) else {
        return;
    };
    let made = member
        .store()
        .make(Transaction::new().put("a", vec![7; 3_000_000]));
    assert!(matches!(made, Err(WriteError::TooLarge(_))), "{made:?}");
    let many = (0..200).fold(Transaction::new(), |it, at| it.put(format!("{at}"), "1"));
    let made = member.store().make(many);
    assert!(matches!(made, Err(WriteError::TooLarge(_))), "{made:?}");
}

/// Waits until the store uses at most so many bytes. A member counts room as free from its next write on, so all members
/// get writes meanwhile.
fn uses_at_most(store: &Etcd, all: &Etcd, bytes: u64) {
    let end = Instant::now() + ASIDE;
    loop {
        made(all.make(Transaction::new().put("b", "")));
        let size = store.size().expect("it answers").expect("members tell it");
        assert!(size.used <= size.file, "{size:?}");
        if size.used <= bytes {
            return;
        }
        assert!(Instant::now() < end, "{size:?} isn't {bytes}");
        thread::sleep(Duration::from_millis(100));
    }
}

/// Waits until the store uses more than so many bytes. A member counts a write some time after it was made.
fn uses_more_than(store: &Etcd, bytes: u64) -> StoreSize {
    let end = Instant::now() + ASIDE;
    loop {
        let size = store.size().expect("it answers").expect("members tell it");
        if size.used > bytes {
            return size;
        }
        assert!(Instant::now() < end, "{size:?} isn't more than {bytes}");
        thread::sleep(Duration::from_millis(100));
    }
}

/// A member that is away compacts once it is back.
fn compacts_history_though_a_member_is_away(protocol: EtcdProtocol) {
    let Some(mut members) = Member::start_cluster(protocol, 3) else {
        return;
    };
    let endpoints: Vec<_> = members.iter().map(|it| it.endpoint.clone()).collect();
    let endpoints: Vec<_> = endpoints.iter().map(String::as_str).collect();
    let store = store_in(&endpoints, PATIENCE, protocol);
    for _ in 0..100 {
        made(store.make(Transaction::new().put("a", vec![7; 200_000])));
    }
    let size = uses_more_than(&store, 20_000_000);
    members[0].kill();
    store.compact_history().expect("two are enough");
    uses_at_most(&store, &store, size.used / 4);
    members[0].begin_again();
    uses_at_most(&members[0].store(), &store, size.used / 4);
    assert_eq!(store.read(&[b"a"]).expect("a reading").pairs.len(), 1);
    store.compact_history().expect("again");
}

/// The first page of a reading, the refusal of the second one after a compaction, and both pages at a later moment.
const PAGES: [Scripted; 4] = [
    Scripted {
        json: (
            "200 OK",
            r#"{"header":{"revision":"5"},"kvs":[{"key":"YS8x","value":"","mod_revision":"3"}],"more":true}"#,
        ),
        grpc: (
            Some(0),
            "",
            Some(b"\x0a\x02\x18\x05\x12\x07\x0a\x03a/1\x18\x03\x18\x01"),
        ),
    },
    Scripted {
        json: (
            "400 No",
            r#"{"code":11,"message":"etcdserver: mvcc: required revision has been compacted"}"#,
        ),
        grpc: (
            Some(11),
            "etcdserver: mvcc: required revision has been compacted",
            None,
        ),
    },
    Scripted {
        json: (
            "200 OK",
            r#"{"header":{"revision":"7"},"kvs":[{"key":"YS8x","value":"","mod_revision":"6"}],"more":true}"#,
        ),
        grpc: (
            Some(0),
            "",
            Some(b"\x0a\x02\x18\x07\x12\x07\x0a\x03a/1\x18\x06\x18\x01"),
        ),
    },
    Scripted {
        json: (
            "200 OK",
            r#"{"header":{"revision":"8"},"kvs":[{"key":"YS8y","value":"","mod_revision":"4"}]}"#,
        ),
        grpc: (
            Some(0),
            "",
            Some(b"\x0a\x02\x18\x08\x12\x07\x0a\x03a/2\x18\x04"),
        ),
    },
];

fn a_reading_whose_moment_is_compacted_begins_again(protocol: EtcdProtocol) {
    let read = store_in(&[&scripted(protocol, PAGES)], PATIENCE, protocol).read_all(b"a/");
    let read = read.expect("it begins again");
    assert_eq!(read.revision, Revision(7));
    let revisions: Vec<u64> = read.pairs.iter().map(|it| it.revision.0).collect();
    assert_eq!(revisions, [6, 4]);
}

/// A member is killed and starts again, and then one whose past is compacted meanwhile.
fn watches_on_after_a_member_was_away(protocol: EtcdProtocol) {
    let Some(mut member) = Member::start(protocol, &[]) else {
        return;
    };
    let (store, (tell, told)) = (member.store(), mpsc::channel());
    let _watch = store
        .watch(b"a", Box::new(move |seen| drop(tell.send(seen))))
        .expect("a watch");
    assert!(matches!(told.recv_timeout(ASIDE), Ok(Seen::All(it)) if it.pairs.is_empty()));
    member.begin_again();
    store
        .make(Transaction::new().put("a", "1"))
        .expect("it is there again");
    assert!(matches!(told.recv_timeout(ASIDE), Ok(Seen::Changes(_, it)) if it.len() == 1));

    member.kill();
    member.begin_again();
    let beside = member.store();
    let last = (0..5)
        .map(|it| made(beside.make(Transaction::new().put("a", it.to_string()))))
        .last();
    let revision = last.expect("five were made");
    member.post(
        "/v3/kv/compaction",
        &format!("{{\"revision\":\"{revision}\"}}"),
    );
    let end = Instant::now() + ASIDE;
    let mut value = Vec::new();
    while value != b"4" {
        assert!(Instant::now() < end, "the last change isn't told");
        value = match told.recv_timeout(ASIDE).expect("the watch goes on") {
            Seen::All(reading) => reading.pairs[0].value.clone(),
            Seen::Changes(_, changes) => changes[changes.len() - 1]
                .value
                .clone()
                .expect("nothing is deleted"),
        };
    }
}

fn made(found: Result<Outcome, WriteError>) -> Revision {
    match found {
        Ok(Outcome::Made(revision)) => revision,
        other => panic!("{other:?}"),
    }
}

fn gives_its_name_and_password(protocol: EtcdProtocol) {
    let Some(member) = Member::start(protocol, &[]) else {
        return;
    };
    member.post("/v3/auth/user/add", r#"{"name":"root","password":"open"}"#);
    member.post("/v3/auth/role/add", r#"{"name":"root"}"#);
    member.post("/v3/auth/user/grant", r#"{"user":"root","role":"root"}"#);
    member.post("/v3/auth/enable", "{}");
    let as_user = |password: &str| {
        let user = Some(("root".to_owned(), password.to_owned()));
        Etcd::new(Access {
            user,
            patience: PATIENCE,
            protocol,
            ..Access::new([member.endpoint.as_str()])
        })
        .expect("an address")
    };
    let put = || Transaction::new().put("a", "1");
    as_user("open").make(put()).expect("it is let in");
    for stranger in [as_user("shut"), member.store()] {
        let made = stranger.make(put());
        assert!(matches!(made, Err(WriteError::Denied(_))), "{made:?}");
        assert!(matches!(stranger.read(&[b"a"]), Err(ReadError::Denied(_))));
    }
}

/// Makes our own authority in this folder, and certificates from it for localhost and for a client.
fn vouch(folder: &Path) -> bool {
    let script = "
        openssl req -x509 -newkey rsa:2048 -nodes -days 2 -subj /CN=authority -keyout ca.key -out ca.pem
        for it in localhost client; do
            openssl req -newkey rsa:2048 -nodes -subj /CN=$it -keyout $it.key -out $it.csr
            printf 'subjectAltName=DNS:%s,IP:127.0.0.1' $it > $it.ext
            openssl x509 -req -days 2 -in $it.csr -CA ca.pem -CAkey ca.key -CAcreateserial -extfile $it.ext -out $it.pem
        done";
    Command::new("sh")
        .args(["-ec", script])
        .current_dir(folder)
        .output()
        .is_ok_and(|it| it.status.success())
}

/// In the handshake a member must choose HTTP/2 for gRPC. Otherwise it gets no call.
#[test]
fn calls_by_grpc_no_member_that_speaks_no_http2() {
    let folder = Folder::new();
    if !vouch(folder.path()) {
        eprintln!("openssl isn't installed: nobody speaks TLS");
        return;
    }
    let (port, end) = (free_port(), Instant::now() + ASIDE);
    let mut member = Command::new("openssl")
        .args([
            "s_server",
            "-quiet",
            "-accept",
            &format!("127.0.0.1:{port}"),
        ])
        .args(["-cert", "localhost.pem", "-key", "localhost.key"])
        .current_dir(folder.path())
        .stdin(Stdio::piped())
        .stdout(Stdio::null())
        .stderr(Stdio::null())
        .spawn()
        .expect("openssl runs");
    let access = Access {
        roots: Some(folder.path().join("ca.pem")),
        patience: PATIENCE,
        protocol: EtcdProtocol::Grpc,
        ..Access::new([format!("https://localhost:{port}")])
    };
    let store = Etcd::new(access).expect("a file");
    let made = || store.make(Transaction::new().put("a", "1"));
    // It may not listen yet.
    let mut told = made();
    while !matches!(&told, Err(WriteError::Unavailable(it)) if it.contains("HTTP/2")) {
        assert!(Instant::now() < end, "{told:?}");
        thread::sleep(Duration::from_millis(100));
        told = made();
    }
    member.kill().expect("it runs");
    member.wait().expect("it has ended");
}

/// Checks that something is written within some time.
fn writes(store: &Etcd) {
    let end = Instant::now() + ASIDE;
    while let Err(error) = store.make(Transaction::new().put("a", "1")) {
        assert!(Instant::now() < end, "{error}");
        thread::sleep(Duration::from_millis(100));
    }
}

/// A member is identified by its certificate, by a name or by an address.
fn knows_a_member_by_its_address(protocol: EtcdProtocol) {
    let folder = Folder::new();
    let file = |name: &str| folder.path().join(name);
    if !vouch(folder.path()) {
        eprintln!("openssl isn't installed: nobody speaks TLS");
        return;
    }
    let text = |name: &str| file(name).to_string_lossy().into_owned();
    // This certificate has the address, and another name.
    let options = [
        "--cert-file",
        &text("client.pem"),
        "--key-file",
        &text("client.key"),
    ];
    let Some(member) = Member::start_with_tls(protocol, &options) else {
        return;
    };
    let of = |endpoint: &str| {
        let roots = Some(file("ca.pem"));
        Etcd::new(Access {
            roots,
            patience: PATIENCE,
            protocol,
            ..Access::new([endpoint])
        })
        .expect("a file")
    };
    writes(&of(&member.endpoint.replace("localhost", "127.0.0.1")));
    let made = of(&member.endpoint).make(Transaction::new().put("a", "2"));
    assert!(matches!(made, Err(WriteError::Unavailable(_))), "{made:?}");
}

fn speaks_tls(protocol: EtcdProtocol) {
    let folder = Folder::new();
    let file = |name: &str| folder.path().join(name);
    let text = |name: &str| file(name).to_string_lossy().into_owned();
    if !vouch(folder.path()) {
        eprintln!("openssl isn't installed: nobody speaks TLS");
        return;
    }
    let options = [
        "--cert-file",
        &text("localhost.pem"),
        "--key-file",
        &text("localhost.key"),
    ];
    let asks = ["--client-cert-auth", "--trusted-ca-file", &text("ca.pem")];
    let Some(member) = Member::start_with_tls(protocol, &[&options[..], &asks].concat()) else {
        return;
    };
    let of = |roots: Option<&str>, identity: Option<(&str, &str)>| {
        let identity = identity.map(|(chain, key)| (file(chain), file(key)));
        let roots = roots.map(file);
        Etcd::new(Access {
            roots,
            identity,
            patience: PATIENCE,
            protocol,
            ..Access::new([member.endpoint.as_str()])
        })
    };
    writes(&of(Some("ca.pem"), Some(("client.pem", "client.key"))).expect("files"));
    let stranger = of(Some("client.pem"), None)
        .expect("a file")
        .make(Transaction::new().put("a", "2"));
    assert!(
        matches!(stranger, Err(WriteError::Unavailable(_))),
        "{stranger:?}"
    );
    assert!(of(Some("ca.pem"), None)
        .expect("a file")
        .make(Transaction::new().put("a", "2"))
        .is_err());
    assert!(matches!(
        of(Some("client.key"), None),
        Err(StartError::BadFile(..))
    ));
    assert!(matches!(
        of(Some("nowhere"), None),
        Err(StartError::BadFile(..))
    ));
}
