//! Tests sidecars over a store in memory, with applications that are in this process too.
mod http_client;
mod stub;

use clap::Parser;
use durkenzo_sidecar::{drain, Sidecar, SidecarError, SidecarOptions, MOST};
use durkenzo_store::{Embedded, Store};
use http_client::{asked, begun, get, post, reply, PATIENCE};
use std::net::SocketAddr;
use std::sync::Arc;
use std::thread;
use std::time::{Duration, Instant};
use stub::{Mode, Stub};

const SHARDS: u16 = 4;
const SHARD: u16 = 2;
const CALL: &str = "/call/2";
const SERVERS: u16 = 2;

fn options(server: u16, stub: &Stub, words: &str) -> SidecarOptions {
    let words = format!(
        "sidecar --servers {SERVERS} --shards {SHARDS} --name {server} --application {} --margin 100 {words}",
        stub.url()
    );
    SidecarOptions::parse_from(words.split_whitespace())
}

/// Sidecars, each beside an application of its own.
struct Sidecars {
    stubs: Vec<Stub>,
    sidecars: Vec<Sidecar>,
}

impl Sidecars {
    /// Begins all sidecars with these options, and waits until shards have owners.
    fn begin(words: &str) -> Sidecars {
        let store: Arc<dyn Store> = Arc::new(Embedded::in_memory());
        let stubs: Vec<_> = (0..SERVERS).map(|_| Stub::begin()).collect();
        let sidecars = (1..=SERVERS).zip(&stubs).map(|(server, stub)| {
            Sidecar::begin_over(options(server, stub, words), store.clone()).unwrap()
        });
        let fleet = Sidecars {
            sidecars: sidecars.collect(),
            stubs,
        };
        let routes = || {
            get(fleet.at(1), "/v1/map?wait=0")
                .body
                .matches("\"shard\"")
                .count()
        };
        until("all shards have owners", || routes() == usize::from(SHARDS));
        fleet
    }

    /// Returns the address of this server's sidecar for clients.
    fn at(&self, server: u16) -> SocketAddr {
        self.sidecars[usize::from(server) - 1].clients()
    }

    fn stub(&self, server: u16) -> &Stub {
        &self.stubs[usize::from(server) - 1]
    }

    /// Moves the shard to this server, unless it is there.
    fn migrate(&self, to: u16) {
        let reply = post(self.at(1), "/v1/command", &format!("MIGRATE {SHARD} {to}"));
        assert!(
            reply.status == 200 || reply.body.contains("SameServer"),
            "{reply:?}"
        );
    }

    /// Returns the count that the shard's application answers.
    fn count(&self) -> u64 {
        let reply = post(self.at(2), CALL, "hit");
        assert_eq!(reply.status, 200, "{reply:?}");
        reply.body.parse().unwrap()
    }
}

fn until(what: &str, holds: impl Fn() -> bool) {
    let end = Instant::now() + PATIENCE;
    while !holds() {
        assert!(Instant::now() < end, "it never was that {what}");
        thread::sleep(Duration::from_millis(10));
    }
}

#[test]
fn a_call_at_any_sidecar_is_executed_by_the_owner() {
    let fleet = Sidecars::begin("");
    fleet.migrate(1);
    for count in 1..=4 {
        let at = fleet.at(1 + count % SERVERS);
        let headers = [("content-type", "text/x-hit")];
        let reply = asked(at, &format!("POST {CALL}"), &headers, "hit").unwrap();
        assert_eq!(
            (reply.status, &*reply.body),
            (200, &*count.to_string()),
            "{reply:?}"
        );
        assert_eq!(reply.header("durkenzo-server"), "1");
        assert_eq!(reply.header("content-type"), "text/plain");
        assert!(reply.header("durkenzo-fence").parse::<u64>().unwrap() > 0);
    }
    let latest = fleet.stub(1).latest();
    assert!(
        latest.contains("content-type: text/x-hit") && latest.ends_with("\nhit"),
        "{latest}"
    );
    // By key, the application gets the key.
    let reply = post(fleet.at(2), "/key/a%2Fb", "hit");
    assert!(reply.status == 200 && !reply.body.is_empty(), "{reply:?}");
    let owner: u16 = reply.header("durkenzo-server").parse().unwrap();
    assert!(fleet.stub(owner).latest().contains("durkenzo-key: a%2fb"));
    // A client that asks for it is sent to the owner.
    let redirect = [("durkenzo-redirect", "yes")];
    let sent = asked(fleet.at(2), &format!("POST {CALL}"), &redirect, "hit").unwrap();
    assert_eq!(
        (sent.status, sent.header("location")),
        (307, &*format!("http://{}{CALL}", fleet.at(1)))
    );
    let here = asked(fleet.at(1), &format!("POST {CALL}"), &redirect, "hit").unwrap();
    assert_eq!(here.status, 200);
}

#[test]
fn no_count_is_lost_while_the_shard_moves_and_each_application_is_told() {
    let fleet = Sidecars::begin("");
    fleet.migrate(1);
    assert_eq!(fleet.count(), 1);
    let before = get(fleet.at(2), "/v1/map?wait=0").body;
    let since = before.split(&[':', ','][..]).nth(1).unwrap();
    thread::scope(|scope| {
        let counts = scope.spawn(|| (2..200).all(|it| fleet.count() == it));
        let changed = scope.spawn(|| get(fleet.at(2), &format!("/v1/map?since={since}&wait=50")));
        for turn in 0..6 {
            fleet.migrate(2 - turn % SERVERS);
        }
        let changed = changed.join().unwrap().body;
        assert_ne!(changed, before);
        assert!(counts.join().unwrap());
    });
    let seen: Vec<_> = fleet.stub(1).seen();
    let of_shard = |word: &str| seen.iter().any(|it| it == &format!("{SHARD} {word}"));
    for word in ["prepare_add", "add handed", "prepare_drop", "drop"] {
        assert!(of_shard(word), "{word}: {seen:?}");
    }
}

#[test]
fn a_call_has_a_named_error_if_its_application_fails_and_the_shard_stays() {
    let fleet = Sidecars::begin("");
    fleet.migrate(1);
    assert_eq!(fleet.count(), 1);
    let call = |headers: &[_]| asked(fleet.at(2), &format!("POST {CALL}"), headers, "hit").unwrap();
    for (mode, fault) in [
        (Mode::Stuck, (504, "Unsure")),
        (Mode::Fails, (500, "Unsure")),
        (Mode::Long, (502, "Unsure")),
        (Mode::Ends, (502, "Unsure")),
    ] {
        fleet.stub(1).turn(mode);
        // An application that is stuck takes longer than this.
        let brief = [("durkenzo-budget", "800")];
        let told = call(&brief[usize::from(mode != Mode::Stuck)..]);
        assert_eq!(told.fault(), fault, "{mode:?}: {told:?}");
    }
    fleet.stub(1).turn(Mode::Well);
    // A call that is unsure may have been made, so the count is any of those.
    assert!((4..=5).contains(&fleet.count()));
}

#[test]
fn an_application_that_is_begun_anew_gets_its_shards_as_lost() {
    let mut fleet = Sidecars::begin("");
    fleet.migrate(1);
    assert_eq!(fleet.count(), 1);
    let address = fleet.stub(1).address;
    // The application's socket is closed.
    drop(fleet.stubs.remove(0));
    let brief = [("durkenzo-budget", "4000")];
    let told = asked(fleet.at(2), &format!("POST {CALL}"), &brief, "hit").unwrap();
    assert_eq!(
        (told.fault(), told.header("retry-after")),
        ((503, "NotMade"), "1"),
        "{told:?}"
    );
    assert_eq!(get(fleet.at(1), "/ready").status, 503);
    thread::scope(|scope| {
        // A call waits until the application is there again.
        let waits = scope.spawn(|| post(fleet.at(2), CALL, "hit"));
        thread::sleep(Duration::from_millis(100));
        let anew = Stub::begin_at(address);
        let told = waits.join().unwrap();
        assert_eq!((told.status, &*told.body), (200, "1"), "{told:?}");
        assert_eq!(anew.seen(), [format!("{SHARD} add lost")]);
        assert_eq!(fleet.count(), 2);
    });
}

#[test]
fn a_shard_that_the_application_does_not_hand_over_waits_until_it_does() {
    let fleet = Sidecars::begin("");
    fleet.migrate(1);
    assert_eq!(fleet.count(), 1);
    fleet.stub(1).turn(Mode::Keeps);
    let tries = || {
        fleet
            .stub(1)
            .seen()
            .iter()
            .filter(|it| it.contains("prepare_drop"))
            .count()
    };
    thread::scope(|scope| {
        let moved = scope.spawn(|| fleet.migrate(2));
        until("the application is asked again", || tries() > 2);
        fleet.stub(1).turn(Mode::Well);
        moved.join().unwrap();
    });
    assert_eq!(fleet.count(), 2);
}

#[test]
fn what_is_too_much_is_refused_by_name() {
    let fleet = Sidecars::begin("--calls 1 --connections 3");
    fleet.migrate(1);
    let at = fleet.at(1);
    let whole = "x".repeat(MOST);
    assert_eq!(post(at, CALL, &whole).status, 200);
    assert_eq!(
        post(at, CALL, &format!("{whole}x")).fault(),
        (413, "TooLong")
    );
    assert_eq!(post(at, "/call/4", "").fault(), (404, "UnknownShard"));
    assert_eq!(post(at, "/calls", "").fault(), (404, "UnknownPath"));
    assert_eq!(get(at, CALL).fault(), (405, "BadMethod"));
    assert_eq!(post(at, "/v1/command", "JUMP").fault(), (409, "Refused"));
    let bad = [("durkenzo-budget", "soon")];
    assert_eq!(
        asked(at, &format!("POST {CALL}"), &bad, "")
            .unwrap()
            .fault(),
        (400, "BadRequest")
    );
    // A body that doesn't come, and another call in the meantime.
    let slow = [("content-length", "9"), ("durkenzo-budget", "3000")];
    let mut stream = begun(at, &format!("POST {CALL}"), &slow).unwrap();
    until("the other call is under way", || {
        post(at, CALL, "hit").fault() == (503, "Busy")
    });
    assert_eq!(reply(&mut stream).unwrap().fault(), (408, "Slow"));
    // More connections than may be.
    let idle: Vec<_> = (0..3)
        .map(|_| std::net::TcpStream::connect(at).unwrap())
        .collect();
    until("no more are served", || {
        post(at, CALL, "hit").fault() == (503, "Busy")
    });
    drop(idle);
    until("others are served again", || {
        post(at, CALL, "hit").status == 200
    });
}

#[test]
fn probes_and_numbers_tell_the_state() {
    let fleet = Sidecars::begin("");
    fleet.migrate(1);
    let at = fleet.at(2);
    assert_eq!(
        (get(at, "/live").status, get(at, "/ready").status),
        (200, 200)
    );
    fleet.count();
    assert_eq!(post(at, "/call/9", "").status, 404);
    let text = get(at, "/metrics").body;
    for line in [
        "durkenzo_sidecar_calls_total{forwarded=\"yes\"} 1",
        "durkenzo_sidecar_errors_total{name=\"UnknownShard\"} 1",
        "durkenzo_sidecar_errors_total{name=\"Unsure\"} 0",
        "durkenzo_sidecar_leased 1",
    ] {
        assert!(text.lines().any(|it| it == line), "{line} of {text}");
    }
}

#[test]
fn a_sidecar_that_is_drained_hands_its_shards_over_and_ends() {
    let mut fleet = Sidecars::begin("");
    fleet.migrate(1);
    assert_eq!(fleet.count(), 1);
    let first = fleet.sidecars.remove(0);
    let at = first.clients();
    let served = thread::spawn(move || first.serve());
    drain(&at.to_string(), PATIENCE).unwrap();
    served.join().unwrap().unwrap();
    assert!(begun(at, "GET /live", &[]).is_err());
    let reply = post(fleet.sidecars[0].clients(), CALL, "hit");
    assert_eq!((reply.status, &*reply.body), (200, "2"), "{reply:?}");
    assert!(drain(&at.to_string(), PATIENCE).is_err());
}

#[test]
fn sidecars_pass_calls_on_with_the_secret_of_their_fleet_and_tell_the_address_that_they_are_given()
{
    let file = std::env::temp_dir().join(format!("durkenzo-sidecar-{}", std::process::id()));
    std::fs::write(&file, "word\n").unwrap();
    let words = format!(
        "--secret-file {} --clients-advertise name.of.it:7480",
        file.display()
    );
    let fleet = Sidecars::begin(&words);
    std::fs::remove_file(&file).unwrap();
    fleet.migrate(1);
    assert_eq!([fleet.count(), fleet.count()], [1, 2]);
    let map = get(fleet.at(2), "/v1/map?wait=0").body;
    assert!(map.contains("\"url\":\"http://name.of.it:7480\""), "{map}");
}

#[test]
fn options_that_do_not_go_together_are_named() {
    let stub = Stub::begin();
    let begun = |options: SidecarOptions| {
        let store: Arc<dyn Store> = Arc::new(Embedded::in_memory());
        Sidecar::begin_over(options, store).map(drop)
    };
    let with = |words| options(1, &stub, words);
    let open = begun(with("--clients 0.0.0.0:0"));
    assert!(matches!(open, Err(SidecarError::Open(_))));
    assert!(matches!(
        begun(with("--calls 0")),
        Err(SidecarError::NoCalls)
    ));
    let mut gone = with("--application-start 0");
    gone.application = "http://127.0.0.1:1".parse().unwrap();
    assert!(matches!(begun(gone), Err(SidecarError::NoApplication(..))));
    begun(with("--clients 0.0.0.0:0 --open")).unwrap();
}
