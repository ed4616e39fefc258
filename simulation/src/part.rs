use std::fmt;
use std::str::FromStr;

/// The part of the system that a schedule runs.
#[derive(Clone, Copy, Debug, PartialEq, Eq)]
pub enum Part {
    /// Processes with the driver, the control and the links. The simulator takes the place of the store's client.
    Processes,
    /// The client of etcd in the store's crate. The members answer it in JSON.
    EtcdClient,
    /// Processes and clients of a fleet, over the same store as `Processes`.
    Fleet,
    /// A store in a folder: SQLite over a disk that fails.
    Folder,
    /// Processes and clients of a server, over the same store as `Processes`. The clients speak RESP.
    Server,
    /// A server of one process, in memory or in a folder, and clients that speak RESP.
    Alone,
}

impl Part {
    /// All parts, in their order.
    pub const ALL: [Part; 6] = [
        Part::Processes,
        Part::EtcdClient,
        Part::Fleet,
        Part::Folder,
        Part::Server,
        Part::Alone,
    ];

    /// The parts that each seed runs if none is named. A fleet isn't among them, because its schedules take eight times
    /// as long. A folder and servers aren't among them either.
    pub const USUAL: [Part; 2] = [Part::Processes, Part::EtcdClient];

    fn name(self) -> &'static str {
        match self {
            Part::Processes => "processes",
            Part::EtcdClient => "etcd-client",
            Part::Fleet => "fleet",
            Part::Folder => "folder",
            Part::Server => "server",
            Part::Alone => "alone",
        }
    }
}

impl fmt::Display for Part {
    fn fmt(&self, f: &mut fmt::Formatter<'_>) -> fmt::Result {
        f.write_str(self.name())
    }
}

impl FromStr for Part {
    type Err = String;

    fn from_str(name: &str) -> Result<Part, String> {
        let found = Part::ALL.into_iter().find(|it| it.name() == name);
        found.ok_or_else(|| format!("{name} is no part"))
    }
}
