//! Tests of who may reach a fleet over sockets: with a secret, with TLS, with both and with neither. A refusal must
//! have a name, and nothing may be executed.
use crate::connections::Connections;
use crate::frame::{receive, CallFrame, Request, Response, LONGEST};
use crate::introduction::Introduction;
use crate::settings::identity;
use crate::{
    Call, CallError, Came, Fault, Fleet, JoinError, MeetError, Options, Retry, Router, Safety,
    SafetyOptions, Service, Shard,
};
use durkenzo_control::tls::PEER_NAME;
use durkenzo_store::{Embedded, Store};
use std::io::{Read, Write};
use std::net::TcpStream;
use std::path::PathBuf;
use std::process::Command;
use std::sync::atomic::{AtomicUsize, Ordering};
use std::sync::Arc;
use std::time::{Duration, Instant};
use std::{env, fs, process, thread};

/// The longest wait for an event that must come, on a machine that may be busy.
const SOON: Duration = Duration::from_secs(60);
/// The time for a call that must not be made.
const BRIEF: Duration = Duration::from_millis(500);
const KEY: &str = "-newkey ec -pkeyopt ec_paramgen_curve:P-256 -nodes";

/// Counts the calls that are executed.
struct Executing(Arc<AtomicUsize>);

impl Service for Executing {
    type Body = ();

    fn add(&self, _: Shard, _: Came<'_>) -> Result<(), Fault> {
        Ok(())
    }

    fn answer(&self, _: &mut (), call: Call<'_>) -> Vec<u8> {
        self.0.fetch_add(1, Ordering::SeqCst);
        call.request().to_vec()
    }

    fn hand_over(&self, _: &mut ()) -> Vec<u8> {
        b"body".to_vec()
    }
}

/// A fleet of two processes, which ask for a proof.
struct Guarded {
    store: Arc<dyn Store>,
    fleets: Vec<Fleet<Executing>>,
    executed: Arc<AtomicUsize>,
}

fn options(server: u16, safety: SafetyOptions) -> Options {
    let words = ["fleet", "--servers", "3", "--shards", "1", "--lease", "60"];
    let mut options = <Options as clap::Parser>::parse_from(words);
    (options.name, options.safety) = (server, safety);
    options
}

impl Guarded {
    fn new(safety: &SafetyOptions) -> Guarded {
        Guarded::of(|it| options(it, safety.clone()))
    }

    fn of(options: impl Fn(u16) -> Options) -> Guarded {
        let store: Arc<dyn Store> = Arc::new(Embedded::in_memory());
        let executed = Arc::<AtomicUsize>::default();
        let join = |server| {
            let service = Executing(executed.clone());
            Fleet::join_over(service, options(server), store.clone()).unwrap()
        };
        let fleets = [1, 2].map(join).into();
        Guarded {
            store,
            fleets,
            executed,
        }
    }

    fn join(&self, server: u16, safety: SafetyOptions) -> Result<Fleet<Executing>, JoinError> {
        let service = Executing(self.executed.clone());
        Fleet::join_over(service, options(server, safety), self.store.clone())
    }

    fn address(&self) -> String {
        self.fleets[0].address().to_string()
    }

    fn asks(&self, safety: Safety) -> Result<Router, JoinError> {
        Router::of_with(&self.address(), safety)
    }

    /// Returns why a client with this proof is refused. Checks that nothing is executed.
    fn refusal(&self, safety: Safety) -> MeetError {
        let before = self.executed.load(Ordering::SeqCst);
        let watching = Router::watch_with(&*self.store, safety.clone()).unwrap();
        let told = watching.call(b"key", b"request", Retry::Until(BRIEF));
        assert!(matches!(told, Err(CallError::NotMade(_))), "{told:?}");
        #[cfg(feature = "tokio")]
        {
            let router =
                crate::AsyncRouter::from(Router::watch_with(&*self.store, safety.clone()).unwrap());
            let told = tasks().block_on(router.call(b"key", b"request", Retry::Until(BRIEF)));
            assert!(matches!(told, Err(CallError::NotMade(_))), "{told:?}");
        }
        let refused = self.asks(safety).unwrap_err();
        assert_eq!(self.executed.load(Ordering::SeqCst), before);
        match refused {
            JoinError::NotMet(_, why) => why,
            other => panic!("{other}"),
        }
    }

    /// Calls, and moves the shard to and fro. In the meantime, calls go by old maps too.
    fn works(&self, safety: &Safety) {
        let watching = Router::watch_with(&*self.store, safety.clone()).unwrap();
        let until = Retry::Until(SOON);
        watching.call(b"first", b"first", until).unwrap();
        let asking = self.asks(safety.clone()).unwrap();
        for server in ["2", "1", "2", "1"] {
            let told = watching.command(&["MIGRATE", "0", server], SOON);
            // The shard may be there already.
            let is_there = |it: &String| it.contains("SameServer");
            assert!(told.as_ref().err().is_none_or(is_there), "{told:?}");
            for key in 0..4_u8 {
                let answer = asking.call(&[key], &[key], until).unwrap();
                assert_eq!(answer.bytes, [key]);
            }
        }
        #[cfg(feature = "tokio")]
        self.works_for_tasks(safety);
    }

    /// Calls from a task. Some calls have more bytes than a record of TLS.
    #[cfg(feature = "tokio")]
    fn works_for_tasks(&self, safety: &Safety) {
        let calling = async {
            let router = crate::AsyncRouter::of(&self.address(), safety.clone()).await;
            let router = router.unwrap();
            for length in [0, 7, 200_000, 1 << 20] {
                let request = vec![7; length];
                let answer = router.call(b"key", &request, Retry::Until(SOON)).await;
                assert!(answer.unwrap().bytes == request);
            }
        };
        tasks().block_on(calling);
    }
}

#[cfg(feature = "tokio")]
fn tasks() -> tokio::runtime::Runtime {
    let mut builder = tokio::runtime::Builder::new_current_thread();
    builder.enable_all().build().unwrap()
}

fn by_secret(secret: &str) -> Safety {
    Safety::default().with_secret(secret.as_bytes()).unwrap()
}

/// A folder with secrets, and with authorities and their certificates. It is removed after the test.
struct Folder(PathBuf);

impl Drop for Folder {
    fn drop(&mut self) {
        let _ = fs::remove_dir_all(&self.0);
    }
}

impl Folder {
    fn made(name: &str) -> Folder {
        let folder = env::temp_dir().join(format!("durkenzo-fleet-{name}-{}", process::id()));
        fs::create_dir_all(&folder).unwrap();
        Folder(folder)
    }

    fn secret(&self, secret: &str) -> SafetyOptions {
        let file = self.0.join(secret);
        fs::write(&file, format!("{secret}\n")).unwrap();
        SafetyOptions {
            secret_file: Some(file),
            ..SafetyOptions::default()
        }
    }

    fn openssl(&self, words: &str) {
        let mut program = Command::new("openssl");
        let ran = program
            .args(words.split_whitespace())
            .current_dir(&self.0)
            .output();
        let ran = ran.unwrap();
        assert!(
            ran.status.success(),
            "{}",
            String::from_utf8_lossy(&ran.stderr)
        );
    }

    /// Makes a certificate of this authority for this name, with these words. Returns the options that use it.
    fn certify(&self, authority: &str, name: &str, dns: &str, words: &str) -> SafetyOptions {
        if !self.0.join(format!("{authority}.pem")).exists() {
            let out = format!("-keyout {authority}.key -out {authority}.pem");
            self.openssl(&format!("req -x509 {KEY} {out} -subj /CN={authority}"));
        }
        let extensions = format!("subjectAltName=DNS:{dns}\nbasicConstraints=CA:FALSE");
        fs::write(self.0.join("names"), extensions).unwrap();
        let out = format!("-keyout {name}.key -out {name}.csr");
        self.openssl(&format!("req {KEY} {out} -subj /CN={name}"));
        let by = format!("-CA {authority}.pem -CAkey {authority}.key -CAcreateserial");
        let made = format!("-in {name}.csr -out {name}.pem -extfile names {words}");
        self.openssl(&format!("x509 -req {by} {made}"));
        let file = |it: &str| Some(self.0.join(it));
        SafetyOptions {
            secret_file: None,
            tls_ca: file(&format!("{authority}.pem")),
            tls_cert: file(&format!("{name}.pem")),
            tls_key: file(&format!("{name}.key")),
        }
    }
}

/// Returns whether openssl is installed. The tests make certificates with it.
fn is_openssl_there() -> bool {
    Command::new("openssl").arg("version").output().is_ok()
}

#[test]
fn who_shows_another_secret_or_none_is_refused_by_name() {
    let folder = Folder::made("secret");
    let guarded = Guarded::new(&folder.secret("right"));
    guarded.works(&by_secret("right"));
    for shown in ["wrong", "", "righ", "rightright"] {
        let why = guarded.refusal(by_secret(shown));
        assert!(matches!(why, MeetError::OtherSecret), "{shown}: {why}");
        assert!(why.to_string().contains("--secret-file"), "{why}");
    }
    for shown in [folder.secret("wrong"), SafetyOptions::default()] {
        let refused = guarded.join(3, shown).map(drop).unwrap_err();
        let is_named = matches!(refused, JoinError::NotMet(_, MeetError::OtherSecret));
        assert!(is_named, "{refused}");
    }
    drop(guarded.join(3, folder.secret("right")).unwrap());
    // A client that gives a secret must learn it too if the fleet has none.
    let open = Guarded::new(&SafetyOptions::default());
    let why = open.refusal(by_secret("right"));
    assert!(matches!(why, MeetError::OtherSecret), "{why}");
    open.works(&Safety::default());
}

#[test]
fn of_two_that_begin_together_with_different_secrets_only_one_joins() {
    let folder = Folder::made("together");
    let secrets = ["one", "other"].map(|it| folder.secret(it));
    for _ in 0..20 {
        let store: Arc<dyn Store> = Arc::new(Embedded::in_memory());
        let join = |server, secret: &SafetyOptions| {
            let options = options(server, secret.clone());
            Fleet::join_over(Executing(Arc::default()), options, store.clone())
        };
        let joined = thread::scope(|scope| {
            let other = scope.spawn(|| join(2, &secrets[1]));
            [join(1, &secrets[0]), other.join().unwrap()]
        });
        // Both are still there, so the one that joined wasn't asked in vain.
        let refusals: Vec<_> = joined.iter().filter_map(|it| it.as_ref().err()).collect();
        assert_eq!(refusals.len(), 1, "{refusals:?}");
        let is_named = matches!(refusals[0], JoinError::NotMet(_, MeetError::OtherSecret));
        assert!(is_named, "{}", refusals[0]);
    }
}

#[test]
fn by_tls_only_certificates_of_the_authority_are_taken_within_their_time() {
    if !is_openssl_there() {
        return println!("openssl isn't installed, so nothing was tried");
    }
    let folder = Folder::made("tls");
    let own = folder.certify("fleet", "one", PEER_NAME, "");
    let client = folder.certify("fleet", "client", "client.example", "");
    let foreign = folder.certify("foreign", "other", PEER_NAME, "");
    let late = folder.certify("fleet", "late", PEER_NAME, "-days -1");
    // This side trusts the fleet, but has a certificate of another authority.
    let mixed = SafetyOptions {
        tls_ca: own.tls_ca.clone(),
        ..foreign.clone()
    };
    let of = |options: &SafetyOptions| Safety::of(options).unwrap();
    let guarded = Guarded::new(&own);
    guarded.works(&of(&client));
    for shown in [&foreign, &late, &mixed] {
        let why = guarded.refusal(of(shown));
        assert!(matches!(why, MeetError::Tls(_)), "{why:?}");
        assert!(why.to_string().contains("--tls-ca"), "{why}");
        let refused = guarded.join(3, shown.clone()).map(drop).unwrap_err();
        assert!(
            matches!(refused, JoinError::NotMet(_, MeetError::Tls(_))),
            "{refused}"
        );
    }
    for shown in [Safety::default(), by_secret("right")] {
        let why = guarded.refusal(shown);
        assert!(matches!(why, MeetError::SpeaksTls), "{why:?}");
    }
    let refused = guarded.join(3, client.clone()).map(drop).unwrap_err();
    assert!(matches!(refused, JoinError::NoProcess), "{refused}");
    drop(guarded.join(3, own.clone()).unwrap());
    // A client that speaks TLS must learn it too if the fleet doesn't.
    let open = Guarded::new(&SafetyOptions::default());
    let why = open.refusal(of(&client));
    assert!(matches!(why, MeetError::Tls(_)), "{why:?}");
}

#[test]
fn by_tls_too_whoever_loses_its_place_learns_that_nothing_was_done() {
    if !is_openssl_there() {
        return println!("openssl isn't installed, so nothing was tried");
    }
    let folder = Folder::made("place");
    let own = folder.certify("fleet", "one", PEER_NAME, "");
    let shown = folder.certify("fleet", "client", "client.example", "");
    let shown = Safety::of(&shown).unwrap();
    let guarded = Guarded::of(|it| Options {
        connections: 1,
        ..options(it, own.clone())
    });
    let settings = identity(&guarded.fleets[0].inner.settings);
    let client = || Connections::new(Introduction::of_client(&shown, settings));
    let (mut asked, mut room) = (Vec::new(), Vec::new());
    Request::Routes.write(&mut asked);
    let mut idle = client().connect(&guarded.address(), SOON).unwrap();
    idle.set_read_timeout(SOON).unwrap();
    idle.write_all(&asked).unwrap();
    receive(&mut idle, &mut room).unwrap();
    assert!(matches!(Response::read(&room), Ok(Response::Text(_))));
    let (other, end) = (client(), Instant::now() + SOON);
    let is_answered = || {
        let answered = other.ask(&guarded.address(), &Request::Routes, SOON);
        matches!(Response::read(&answered.unwrap()), Ok(Response::Text(_)))
    };
    // The first client becomes idle a moment after it was answered.
    while !is_answered() {
        assert!(Instant::now() < end, "it has its place still");
    }
    receive(&mut idle, &mut room).unwrap();
    assert!(matches!(Response::read(&room), Ok(Response::Again(_))));
}

#[test]
fn a_secret_and_tls_are_both_asked_for() {
    if !is_openssl_there() {
        return println!("openssl isn't installed, so nothing was tried");
    }
    let folder = Folder::made("both");
    let certificate = folder.certify("fleet", "one", PEER_NAME, "");
    let both = SafetyOptions {
        secret_file: folder.secret("right").secret_file,
        ..certificate.clone()
    };
    let guarded = Guarded::new(&both);
    guarded.works(&Safety::of(&both).unwrap());
    let why = guarded.refusal(Safety::of(&certificate).unwrap());
    assert!(matches!(why, MeetError::OtherSecret), "{why:?}");
    let why = guarded.refusal(by_secret("right"));
    assert!(matches!(why, MeetError::SpeaksTls), "{why:?}");
}

#[test]
fn a_client_never_speaks_for_a_server() {
    if !is_openssl_there() {
        return println!("openssl isn't installed, so nothing was tried");
    }
    let folder = Folder::made("roles");
    let guarded = Guarded::new(&folder.certify("fleet", "one", PEER_NAME, ""));
    let client = Safety::of(&folder.certify("fleet", "client", "client.example", "")).unwrap();
    guarded.works(&client);
    let settings = identity(&guarded.fleets[0].inner.settings);
    let before = guarded.executed.load(Ordering::SeqCst);
    // The client says that it is server 2, but its certificate is one of a client.
    let introduction = Introduction::of_process(&client, settings, (2, 9));
    let call = CallFrame {
        shard: 0,
        from: 2,
        hops: 1,
        revision: 0,
        budget: 1_000,
        request: b"request",
    };
    let connections = Connections::new(introduction);
    let told = connections
        .ask(&guarded.address(), &Request::Call(call), SOON)
        .unwrap();
    let told = Response::read(&told).unwrap();
    let is_refused = matches!(told, Response::Again(why) if why.contains(PEER_NAME));
    assert!(is_refused, "{told:?}");
    assert_eq!(guarded.executed.load(Ordering::SeqCst), before);
}

#[test]
fn strangers_keep_nobody_out_and_fill_no_memory() {
    let folder = Folder::made("strangers");
    let guarded = Guarded::new(&folder.secret("right"));
    guarded.works(&by_secret("right"));
    // Half of these say nothing. The others begin a frame of the greatest length, without a greeting.
    let strangers: Vec<_> = (0..600)
        .map(|turn| {
            let mut stranger = TcpStream::connect(guarded.fleets[0].address()).unwrap();
            if turn % 2 == 0 {
                // The connection may have been ended already.
                let _ = stranger.write_all(&(LONGEST as u32).to_be_bytes());
            }
            stranger
        })
        .collect();
    guarded.works(&by_secret("right"));
    // The connections that came first gave way.
    let mut first = &strangers[1];
    first.set_read_timeout(Some(SOON)).unwrap();
    let ended = first.read(&mut [0; 16]);
    assert!(ended.as_ref().is_ok_and(|it| *it == 0) || ended.is_err_and(is_reset));
}

fn is_reset(error: std::io::Error) -> bool {
    error.kind() == std::io::ErrorKind::ConnectionReset
}

#[test]
fn who_greets_byte_by_byte_has_no_more_time() {
    let folder = Folder::made("slow");
    let guarded = Guarded::new(&folder.secret("right"));
    let mut slow = TcpStream::connect(guarded.fleets[0].address()).unwrap();
    let began = Instant::now();
    // The whole greeting would take almost a minute. It fails as soon as the other side has ended the connection.
    let mut bytes = b"SMP\0\x02\0\0\x04\0".iter().chain(&[0; 1_024]);
    while bytes
        .next()
        .is_some_and(|it| slow.write_all(&[*it]).is_ok())
    {
        assert!(began.elapsed() < SOON);
        thread::sleep(Duration::from_millis(50));
    }
}

#[test]
fn only_a_guarded_process_listens_beyond_its_machine() {
    let folder = Folder::made("beyond");
    let beyond = |safety| {
        let mut options = options(1, safety);
        options.listen = "0.0.0.0:0".parse().unwrap();
        options
    };
    let join = |options| {
        let service = Executing(Arc::default());
        Fleet::join_over(service, options, Arc::new(Embedded::in_memory())).map(drop)
    };
    let refused = join(beyond(SafetyOptions::default())).unwrap_err();
    assert!(matches!(refused, JoinError::Open(_)), "{refused}");
    assert!(refused.to_string().contains("--secret-file"), "{refused}");
    join(beyond(folder.secret("right"))).unwrap();
    let mut open = beyond(SafetyOptions::default());
    open.open = true;
    join(open).unwrap();
    let unreadable = SafetyOptions {
        secret_file: Some("/nowhere/secret".into()),
        ..SafetyOptions::default()
    };
    let refused = join(options(1, unreadable)).unwrap_err();
    assert!(matches!(refused, JoinError::Secret(_)), "{refused}");
}
