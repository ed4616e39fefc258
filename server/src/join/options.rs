//! The options for a cluster of several processes.
use crate::run::BoxError;
use clap::{Args, ValueEnum};
use durkenzo_control::control::Balance;
use durkenzo_driver::{Addresses, Reads};
use durkenzo_store::{Access, EtcdProtocol, KeyPrefix};
use std::fs;
use std::net::SocketAddr;
use std::path::PathBuf;

const CLUSTER: &str = "Cluster";

/// How this process is a server of a cluster of several processes.
#[derive(Args, Clone, Debug)]
pub struct JoinOptions {
    /// Members of etcd; processes that name the same members are one cluster, in which each runs one server [default:
    /// none, all servers are in this process]
    #[arg(
        long,
        value_name = "URL,..",
        value_delimiter = ',',
        requires = "name",
        conflicts_with = "data",
        help_heading = CLUSTER
    )]
    pub etcd: Vec<String>,

    /// What the keys of this cluster begin with, in an etcd that others use too, as /orders/ [default: nothing]
    #[arg(long, value_name = "/NAME/", requires = "etcd", help_heading = CLUSTER)]
    pub prefix: Option<KeyPrefix>,

    /// The server that this process runs, 1 to the number of servers
    #[arg(
        long,
        value_name = "SERVER",
        requires = "etcd",
        value_parser = clap::value_parser!(u16).range(1..=4095),
        help_heading = CLUSTER
    )]
    pub name: Option<u16>,

    /// Address and port at which other processes reach this one; port 0 takes a free one
    #[arg(
        long,
        value_name = "ADDRESS:PORT",
        default_value = "127.0.0.1:7381",
        requires = "etcd",
        help_heading = CLUSTER
    )]
    pub listen: SocketAddr,

    /// How other processes reach this one, if not at --listen [default: as --listen]
    #[arg(long, value_name = "ADDRESS:PORT", requires = "etcd", help_heading = CLUSTER)]
    pub advertise: Option<String>,

    /// How clients reach it, as SM ROUTES shows [default: the address of --advertise, and --port]
    #[arg(long, value_name = "ADDRESS:PORT", requires = "etcd", help_heading = CLUSTER)]
    pub advertise_clients: Option<String>,

    /// How long after the last sign of life of a process its server counts as failed
    #[arg(
        long,
        value_name = "SECONDS",
        default_value_t = 3,
        value_parser = clap::value_parser!(u64).range(1..=600),
        requires = "etcd",
        help_heading = CLUSTER
    )]
    pub lease: u64,

    /// How single reads are answered: by a transaction, or while the lease is kept from memory, which may miss writes
    /// of other servers in the last --lease seconds, and in a paused guest older ones, too, until its clock is set
    #[arg(
        long,
        value_name = "exact|lease",
        value_enum,
        hide_possible_values = true,
        default_value_t = ReadsOption::Exact,
        requires = "etcd",
        help_heading = CLUSTER
    )]
    pub reads: ReadsOption,

    /// How fast the process that leads moves shards by itself, so that servers have as much to do as others
    #[arg(
        long,
        value_name = "off|slow|fast",
        default_value_t = Balance::Slow,
        requires = "etcd",
        help_heading = CLUSTER
    )]
    pub balance: Balance,

    /// The user's name, if etcd asks for one [default: none]
    #[arg(long, value_name = "NAME", requires_all = ["etcd", "etcd_password_file"], help_heading = CLUSTER)]
    pub etcd_user: Option<String>,

    /// File whose first line is the user's password
    #[arg(long, value_name = "FILE", requires = "etcd_user", help_heading = CLUSTER)]
    pub etcd_password_file: Option<PathBuf>,

    /// PEM file with the authorities of etcd's members [default: the system's]
    #[arg(long, value_name = "FILE", requires = "etcd", help_heading = CLUSTER)]
    pub etcd_ca: Option<PathBuf>,

    /// PEM file with this process's certificate, if etcd asks for one [default: none]
    #[arg(long, value_name = "FILE", requires = "etcd_key", help_heading = CLUSTER)]
    pub etcd_cert: Option<PathBuf>,

    /// PEM file with its key
    #[arg(long, value_name = "FILE", requires = "etcd_cert", help_heading = CLUSTER)]
    pub etcd_key: Option<PathBuf>,

    /// How etcd is called: in JSON by its gateways, or by gRPC, which costs it less
    #[arg(
        long,
        value_name = "json|grpc",
        default_value_t,
        requires = "etcd",
        help_heading = CLUSTER
    )]
    pub etcd_protocol: EtcdProtocol,
}

/// How reads are answered.
#[derive(Clone, Copy, Debug, PartialEq, Eq, ValueEnum)]
pub enum ReadsOption {
    /// By a transaction
    Exact,
    /// From memory, as long as the lease is kept
    Lease,
}

impl From<ReadsOption> for Reads {
    fn from(option: ReadsOption) -> Reads {
        match option {
            ReadsOption::Exact => Reads::Exact,
            ReadsOption::Lease => Reads::Lease,
        }
    }
}

impl JoinOptions {
    /// Returns the server that this process runs, if the cluster has several processes.
    pub fn server(&self) -> Option<u16> {
        self.name.filter(|_| !self.etcd.is_empty())
    }

    /// Returns what the keys of this cluster begin with.
    pub fn key_prefix(&self) -> KeyPrefix {
        self.prefix.clone().unwrap_or_default()
    }

    /// Returns the access to etcd.
    ///
    /// # Errors
    ///
    /// If the file with the password can't be read, or has no password.
    pub fn access(&self) -> Result<Access, BoxError> {
        let user = match (&self.etcd_user, &self.etcd_password_file) {
            (Some(name), Some(file)) => {
                let text = fs::read_to_string(file);
                let text = text.map_err(|error| format!("{}: {error}", file.display()))?;
                let line = text.lines().next().filter(|it| !it.is_empty());
                let none = || format!("{}: its first line is empty", file.display());
                Some((name.clone(), line.ok_or_else(none)?.to_owned()))
            }
            _ => None,
        };
        Ok(Access {
            user,
            roots: self.etcd_ca.clone(),
            identity: self.etcd_cert.clone().zip(self.etcd_key.clone()),
            protocol: self.etcd_protocol,
            ..Access::new(self.etcd.iter().cloned())
        })
    }

    /// Returns the addresses of this process, which listens at these for other processes and for clients.
    pub fn addresses(&self, listens: SocketAddr, clients: SocketAddr) -> Addresses {
        let servers = match &self.advertise {
            Some(advertised) => advertised.clone(),
            None => listens.to_string(),
        };
        let clients = match &self.advertise_clients {
            Some(advertised) => advertised.clone(),
            None => {
                let host = servers.rsplit_once(':').map_or(&*servers, |it| it.0);
                format!("{host}:{}", clients.port())
            }
        };
        Addresses { servers, clients }
    }
}

#[cfg(test)]
mod tests {
    use crate::options::Options;
    use clap::Parser;
    use durkenzo_driver::Addresses;
    use durkenzo_store::EtcdProtocol;

    fn parsed(words: &str) -> Result<Options, String> {
        let words = ["sm serve"].into_iter().chain(words.split_whitespace());
        Options::try_parse_from(words).map_err(|it| it.to_string())
    }

    #[test]
    fn what_does_not_go_together_is_named() {
        for (words, named) in [
            ("--etcd http://a:1", "--name"),
            ("--name 3", "--etcd"),
            ("--etcd http://a:1 --name 3 --data x", "--data"),
            ("--listen 127.0.0.1:1", "--etcd"),
            (
                "--etcd http://a:1 --name 3 --etcd-user x",
                "--etcd-password-file",
            ),
            ("--etcd http://a:1 --name 3 --etcd-cert x", "--etcd-key"),
            ("--etcd http://a:1 --name 0", "--name"),
            ("--etcd http://a:1 --name 1 --lease 0", "--lease"),
            ("--etcd http://a:1 --name 1 --listen here", "--listen"),
            ("--log-batches 9", "--data"),
            ("--reads lease", "--etcd"),
            ("--data x --reads lease", "--etcd"),
            ("--prefix /x/", "--etcd"),
            ("--etcd http://a:1 --name 1 --prefix x", "--prefix"),
            ("--etcd-protocol grpc", "--etcd"),
            (
                "--etcd http://a:1 --name 1 --etcd-protocol http",
                "json or grpc",
            ),
        ] {
            let told = parsed(words).unwrap_err();
            assert!(told.contains(named), "{words}: {told}");
        }
        let options = parsed("--etcd http://a:1,https://b:2 --name 3 --log-batches 9").unwrap();
        assert_eq!(options.join.etcd, ["http://a:1", "https://b:2"]);
        assert_eq!((options.join.server(), options.join.lease), (Some(3), 3));
        assert_eq!(parsed("").unwrap().join.server(), None);
        let by_grpc = parsed("--etcd http://a:1 --name 3 --etcd-protocol grpc").unwrap();
        let protocols = [options, by_grpc].map(|it| it.join.access().unwrap().protocol);
        assert_eq!(protocols, [EtcdProtocol::Json, EtcdProtocol::Grpc]);
    }

    #[test]
    fn who_is_told_no_address_takes_those_where_it_listens() {
        let told = |words: &str| {
            let join = parsed(&format!("--etcd http://a:1 --name 1 {words}"))
                .unwrap()
                .join;
            let here = "127.0.0.1:7000".parse().unwrap();
            let Addresses { servers, clients } =
                join.addresses(here, "0.0.0.0:7379".parse().unwrap());
            (servers, clients)
        };
        let both = |servers: &str, clients: &str| (servers.to_owned(), clients.to_owned());
        assert_eq!(told(""), both("127.0.0.1:7000", "127.0.0.1:7379"));
        assert_eq!(
            told("--advertise b.example:5"),
            both("b.example:5", "b.example:7379")
        );
        let apart = "--advertise [::1]:5 --advertise-clients c.example:6";
        assert_eq!(told(apart), both("[::1]:5", "c.example:6"));
    }
}
