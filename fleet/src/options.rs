use crate::frame::MOST;
use crate::settings::Settings;
use crate::{JoinError, Safety, SafetyOptions, Sharding};
use clap::{Args, Parser};
use durkenzo::LayoutFault;
use durkenzo_control::control::Balance;
use durkenzo_control::links::Secret;
use durkenzo_store::{Access, Etcd, EtcdProtocol, KeyPrefix, PrefixedStore, Store};
use std::net::{SocketAddr, TcpListener};
use std::path::PathBuf;
use std::sync::Arc;
use std::time::Duration;

/// Runs this process as a server of a fleet. Each option is a flag or a variable `DURKENZO_*`.
#[derive(Clone, Debug, Parser)]
pub struct Options {
    /// Addresses of etcd's members, which store the fleet's records
    #[arg(
        long,
        env = "DURKENZO_ETCD",
        value_name = "URL,..",
        value_delimiter = ',',
        default_value = "http://127.0.0.1:2379"
    )]
    pub etcd: Vec<String>,

    /// Which part of etcd this process uses, and who it is there
    #[command(flatten)]
    pub etcd_access: EtcdOptions,

    /// Number of the server that this process runs as, from 1 to the number of servers
    #[arg(
        long,
        env = "DURKENZO_NAME",
        value_name = "SERVER",
        default_value_t = 1
    )]
    pub name: u16,

    /// File with settings as for ./sm serve --settings: capacities, groups, domains, caps and bounds [default: none]
    #[arg(
        long,
        env = "DURKENZO_SETTINGS",
        value_name = "FILE",
        conflicts_with_all = ["servers", "shards", "bounds"]
    )]
    pub settings: Option<PathBuf>,

    /// Spread keys over shards by hash even if settings or bounds are given, which then give the number of shards
    #[arg(long, env = "DURKENZO_HASH")]
    pub hash: bool,

    /// Number of servers, if this process is the first one of the fleet: later, RESIZE changes it
    #[arg(
        long,
        env = "DURKENZO_SERVERS",
        value_name = "COUNT",
        default_value_t = 3
    )]
    pub servers: u16,

    /// Number of shards over which keys are spread by hash
    #[arg(
        long,
        env = "DURKENZO_SHARDS",
        value_name = "COUNT",
        default_value_t = 24
    )]
    pub shards: u16,

    /// First key of each shard except the first one, in order: keys then go to shards by ranges, and not by hash
    #[arg(
        long,
        env = "DURKENZO_BOUNDS",
        value_name = "KEY,..",
        value_delimiter = ','
    )]
    pub bounds: Vec<String>,

    /// Address at which clients and other servers reach this process; port 0 takes a free one
    #[arg(
        long,
        env = "DURKENZO_LISTEN",
        value_name = "ADDRESS:PORT",
        default_value = "127.0.0.1:0"
    )]
    pub listen: SocketAddr,

    /// Address at which they reach this process, if it is another one
    #[arg(long, env = "DURKENZO_ADVERTISE", value_name = "ADDRESS:PORT")]
    pub advertise: Option<String>,

    /// Address for clients of a service with frames of its own; the other servers are told of it
    #[arg(long, env = "DURKENZO_CLIENTS", value_name = "ADDRESS:PORT")]
    pub clients: Option<String>,

    /// Let other machines connect even if they need neither a secret nor TLS: for a private network
    #[arg(long, env = "DURKENZO_OPEN")]
    pub open: bool,

    /// The proof that other processes and clients must give
    #[command(flatten)]
    pub safety: SafetyOptions,

    /// Time after the last sign of life until a process counts as failed
    #[arg(
        long,
        env = "DURKENZO_LEASE",
        value_name = "SECONDS",
        default_value_t = 3,
        value_parser = clap::value_parser!(u64).range(2..=600)
    )]
    pub lease: u64,

    /// Greatest difference in speed of two clocks, in parts of a thousand
    #[arg(
        long,
        env = "DURKENZO_DRIFT",
        value_name = "PER MILLE",
        default_value_t = 10,
        value_parser = clap::value_parser!(u64).range(0..=500)
    )]
    pub drift: u64,

    /// Time before the end of its lease at which a process stops executing, so that its last answers arrive
    #[arg(
        long,
        env = "DURKENZO_MARGIN",
        value_name = "MILLISECONDS",
        default_value_t = 200
    )]
    pub margin: u64,

    /// Longest time for a stop by SIGTERM; after that, the process leaves with the shards that it still has
    #[arg(
        long,
        env = "DURKENZO_GRACE",
        value_name = "SECONDS",
        default_value_t = 60
    )]
    pub grace: u64,

    /// Longest time that a call waits at a server while nobody executes for its shard, within the call's budget
    #[arg(
        long,
        env = "DURKENZO_WAIT",
        value_name = "MILLISECONDS",
        default_value_t = 1_000
    )]
    pub wait: u64,

    /// Most calls that wait for one shard
    #[arg(
        long,
        env = "DURKENZO_WAITING",
        value_name = "COUNT",
        default_value_t = 10_000
    )]
    pub waiting: usize,

    /// Most bytes that should come here for a shard's body, including its changes while it is copied
    #[arg(
        long,
        env = "DURKENZO_BODY",
        value_name = "BYTES",
        default_value_t = 2 << 30
    )]
    pub body: u64,

    /// Most bytes of a body that are on their way at once, if the service moves bodies in pieces
    #[arg(long, env = "DURKENZO_PIECE", value_name = "BYTES", default_value_t = 256 << 10, value_parser = piece)]
    pub piece: usize,

    /// Most bodies that come to this process at once; others wait with their owners
    #[arg(
        long,
        env = "DURKENZO_MOVES",
        value_name = "COUNT",
        default_value_t = 4,
        value_parser = clap::value_parser!(u16).range(1..=64)
    )]
    pub moves: u16,

    /// How fast the process that leads moves shards by itself, so that servers have as much to do as others
    #[arg(
        long,
        env = "DURKENZO_BALANCE",
        value_name = "off|slow|fast",
        default_value_t = Balance::Slow
    )]
    pub balance: Balance,

    /// Most connections of clients that are served at once; as many connections of others are served besides
    #[arg(
        long,
        env = "DURKENZO_CONNECTIONS",
        value_name = "COUNT",
        default_value_t = 1_024
    )]
    pub connections: usize,

    /// The wrong rule that a test or a trial plants.
    #[cfg(any(test, feature = "plants", feature = "simulated"))]
    #[arg(long, env = "DURKENZO_PLANT", hide = true)]
    pub(crate) plant: Option<crate::plant::Plant>,

    /// By how many parts in a thousand a trial slows down the clock that judges the lease.
    #[cfg(any(test, feature = "plants", feature = "simulated"))]
    #[arg(
        long,
        env = "DURKENZO_SLOW_CLOCK",
        hide = true,
        default_value_t = 0,
        allow_hyphen_values = true
    )]
    pub(crate) slow_clock: i16,
}

/// The part of etcd that a process uses, and its identity for etcd, if etcd asks for one.
#[derive(Args, Clone, Debug, Default)]
pub struct EtcdOptions {
    /// Prefix of the fleet's keys, such as /orders/, in an etcd that others use too [default: nothing]
    #[arg(long, env = "DURKENZO_PREFIX", value_name = "/NAME/")]
    pub prefix: Option<KeyPrefix>,

    /// Name of the user, if etcd asks for one [default: none]
    #[arg(
        long,
        env = "DURKENZO_ETCD_USER",
        value_name = "NAME",
        requires = "etcd_password_file"
    )]
    pub etcd_user: Option<String>,

    /// File whose first line is the user's password
    #[arg(
        long,
        env = "DURKENZO_ETCD_PASSWORD_FILE",
        value_name = "FILE",
        requires = "etcd_user"
    )]
    pub etcd_password_file: Option<PathBuf>,

    /// File in PEM with the authority that signed the certificates of etcd's members [default: the system's]
    #[arg(long, env = "DURKENZO_ETCD_CA", value_name = "FILE")]
    pub etcd_ca: Option<PathBuf>,

    /// File in PEM with this process's certificate, if etcd asks for one [default: none]
    #[arg(
        long,
        env = "DURKENZO_ETCD_CERT",
        value_name = "FILE",
        requires = "etcd_key"
    )]
    pub etcd_cert: Option<PathBuf>,

    /// File in PEM with the certificate's key
    #[arg(
        long,
        env = "DURKENZO_ETCD_KEY",
        value_name = "FILE",
        requires = "etcd_cert"
    )]
    pub etcd_key: Option<PathBuf>,

    /// How etcd is called: in JSON by its gateways, or by gRPC, which costs it less
    #[arg(
        long,
        env = "DURKENZO_ETCD_PROTOCOL",
        value_name = "json|grpc",
        default_value_t
    )]
    pub etcd_protocol: EtcdProtocol,
}

impl EtcdOptions {
    /// Opens the fleet's part of the etcd that has these members.
    pub(crate) fn store(&self, members: &[String]) -> Result<Arc<dyn Store>, JoinError> {
        let etcd = Etcd::new(self.access(members)?)?;
        let prefix = self.prefix.clone().unwrap_or_default();
        Ok(Arc::new(PrefixedStore::new(etcd, prefix)))
    }

    /// Returns the access to these members of etcd.
    pub(crate) fn access(&self, members: &[String]) -> Result<Access, JoinError> {
        // The password of etcd is never in a variable of the environment.
        let file = self.etcd_password_file.as_deref();
        let password = file.map(|it| Secret::given(Some(it), "")).transpose()?;
        let text = |it: Secret| String::from_utf8_lossy(it.reveal()).into_owned();
        Ok(Access {
            user: self.etcd_user.clone().zip(password.flatten().map(text)),
            roots: self.etcd_ca.clone(),
            identity: self.etcd_cert.clone().zip(self.etcd_key.clone()),
            protocol: self.etcd_protocol,
            ..Access::new(members)
        })
    }
}

impl Options {
    /// Reads the flags of this program and the environment. If the flags ask for help, or are wrong, prints that and
    /// ends the program.
    pub fn parse() -> Options {
        <Options as Parser>::parse()
    }

    /// Opens the store.
    ///
    /// # Errors
    ///
    /// If an address or a file can't be read, or the system gives no thread.
    pub fn store(&self) -> Result<Arc<dyn Store>, JoinError> {
        self.etcd_access.store(&self.etcd)
    }

    /// Returns the proof that other processes and clients must give, if this process may listen with it.
    pub(crate) fn guarded(&self) -> Result<Safety, JoinError> {
        let safety = Safety::of(&self.safety)?;
        if !self.listen.ip().is_loopback() && !self.open && !safety.is_guarded() {
            return Err(JoinError::Open(self.listen));
        }
        match &safety.tls {
            Some(tls) if !tls.is_process() => Err(JoinError::NoProcess),
            _ => Ok(safety),
        }
    }

    /// Listens for the clients of a service with frames of its own, at `--clients`. If `--clients` isn't given, listens
    /// at a free port of this machine, and notes it in these options, so that the other servers are told of it. This
    /// must be called before [`Fleet::join`](crate::Fleet::join).
    ///
    /// # Errors
    ///
    /// If the address isn't one of this machine, or is in use.
    pub fn listen_for_clients(&mut self) -> Result<TcpListener, JoinError> {
        let at = self.clients.as_deref().unwrap_or("127.0.0.1:0");
        let listener = TcpListener::bind(at).and_then(|it| Ok((it.local_addr()?, it)));
        let (bound, listener) =
            listener.map_err(|error| JoinError::Address(at.to_owned(), error))?;
        self.clients = Some(bound.to_string());
        Ok(listener)
    }

    /// Returns the settings of the fleet, if all options are within their bounds.
    pub(crate) fn settings(&self) -> Result<Settings, JoinError> {
        let settings = match &self.settings {
            Some(file) => Settings::of_file(file, self.hash)?,
            None => Settings::of_servers(self.sharding()?, self.servers),
        };
        let (servers, most) = (settings.servers, durkenzo::MAX_SERVER);
        // Only the settings in force say whether such a server exists.
        for (flag, given) in [("--servers", servers), ("--name", self.name)] {
            if !(1..=most).contains(&given) {
                let why = format!("{flag} {given}: servers are 1 to {most}");
                return Err(JoinError::Options(why));
            }
        }
        if self.connections == 0 {
            let why = "--connections 0 lets nobody connect: it is at least 1";
            return Err(JoinError::Options(why.to_owned()));
        }
        if self.allowed(Duration::from_secs(self.lease)).is_zero() {
            let why = "--margin and --drift leave nothing of --lease";
            return Err(JoinError::Options(why.to_owned()));
        }
        Ok(settings)
    }

    /// Returns the sharding, if no file of settings gives it.
    fn sharding(&self) -> Result<Sharding, LayoutFault> {
        let bounds = std::iter::once(String::new()).chain(self.bounds.iter().cloned());
        match (self.bounds.is_empty(), self.hash) {
            (true, _) => Sharding::hashes(self.shards),
            // A layout has at most 4,096 shards.
            (false, true) => Sharding::hashes(u16::try_from(bounds.count()).unwrap_or(u16::MAX)),
            (false, false) => Sharding::ranges(bounds.collect()),
        }
    }

    /// Returns how long a process may rely on a lease of this length, by its own clock. The time begins when the
    /// process asks for the lease to be kept.
    pub(crate) fn allowed(&self, length: Duration) -> Duration {
        let slow = length / 1_000 * self.drift as u32;
        length.saturating_sub(slow + Duration::from_millis(self.margin))
    }

    /// Returns the longest time that a call waits here.
    pub(crate) fn patience(&self) -> Duration {
        Duration::from_millis(self.wait)
    }
}

/// Reads the size of a piece. One frame must be able to carry it.
fn piece(text: &str) -> Result<usize, String> {
    let is_meant = |it: &usize| (1..=MOST).contains(it);
    let read = text.parse().ok().filter(is_meant);
    read.ok_or_else(|| format!("a piece has 1 to {MOST} bytes"))
}

#[cfg(test)]
mod tests {
    use super::*;
    use std::path::Path;
    use std::{env, fs, process};

    fn parsed(words: &str) -> Result<Options, String> {
        let words = ["fleet"].into_iter().chain(words.split_whitespace());
        Options::try_parse_from(words).map_err(|it| it.to_string())
    }

    #[test]
    fn etcd_is_reached_as_options_say() {
        let file = env::temp_dir().join(format!("durkenzo-fleet-password-{}", process::id()));
        fs::write(&file, "word\n").unwrap();
        let words = format!(
            "--etcd https://a:1,https://b:2 --etcd-user fleet --etcd-password-file {} --etcd-ca ca.pem \
             --etcd-cert own.pem --etcd-key own.key --etcd-protocol grpc",
            file.display()
        );
        let options = parsed(&words).unwrap();
        let access = options.etcd_access.access(&options.etcd).unwrap();
        assert_eq!(access.endpoints, ["https://a:1", "https://b:2"]);
        assert_eq!(access.user, Some(("fleet".to_owned(), "word".to_owned())));
        assert_eq!(access.roots.as_deref(), Some(Path::new("ca.pem")));
        let identity = access.identity.unwrap();
        assert_eq!(identity, ("own.pem".into(), "own.key".into()));
        assert_eq!(access.protocol, EtcdProtocol::Grpc);
        fs::remove_file(&file).unwrap();
        let gone = options.etcd_access.access(&options.etcd);
        assert!(matches!(gone, Err(JoinError::Secret(_))));
        let plain = parsed("").unwrap();
        let access = plain.etcd_access.access(&plain.etcd).unwrap();
        assert!(access.user.is_none() && access.roots.is_none() && access.identity.is_none());
        assert_eq!(access.protocol, EtcdProtocol::Json);
    }

    #[test]
    fn what_is_out_of_bounds_is_named() {
        for (words, named) in [
            ("--connections 0", "--connections"),
            ("--name 0", "--name"),
            ("--name 4096", "--name"),
            ("--servers 0", "--servers"),
            ("--servers 4096", "--servers"),
            ("--margin 3000", "--margin"),
        ] {
            let told = parsed(words).unwrap().settings().map(drop).unwrap_err();
            assert!(told.to_string().contains(named), "{words}: {told}");
        }
        assert!(parsed("--connections 1").unwrap().settings().is_ok());
    }

    #[test]
    fn what_does_not_go_together_is_named() {
        for (words, named) in [
            ("--etcd-user x", "--etcd-password-file"),
            ("--etcd-cert x", "--etcd-key"),
            ("--etcd-protocol http", "json or grpc"),
            ("--tls-ca x", "--tls-cert"),
            ("--tls-cert x", "--tls-ca"),
            ("--settings x --servers 3", "--servers"),
            ("--settings x --shards 3", "--shards"),
            ("--settings x --bounds a", "--bounds"),
        ] {
            let told = parsed(words).map(drop).unwrap_err();
            assert!(told.contains(named), "{words}: {told}");
        }
        let by_name = |words| parsed(words).unwrap().safety.secret_file.unwrap();
        assert_eq!(by_name("--secret-file x"), by_name("--secret x"));
    }
}
