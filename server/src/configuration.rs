//! The configuration of a server, from the command line and the files that it names.
use crate::descriptors::{Descriptors, MOST_OF_PAGE};
use crate::domains::Domains;
use crate::dump::USUAL_FOLDER;
use crate::keyspace::{Keyspace, Rule};
use crate::options::Options;
use crate::run::BoxError;
use crate::safety::Safety;
use crate::settings::{self, even_bounds, Settings, MAX_CEILING};
use durkenzo_control::control::Balance;
use durkenzo_driver::{split_settings, Reads, ShardOptions};
use std::fs;
use std::path::{Path, PathBuf};
use std::time::Duration;

/// How many clients may always be connected at once before they have logged in.
const LEAST_STRANGERS: usize = 64;
/// If there are few descriptors for clients, one in so many is for clients that haven't logged in.
const STRANGERS: usize = 5;

/// The configuration of a server.
#[derive(Clone, Debug)]
pub struct Configuration {
    /// How keys are assigned to shards.
    pub rule: Rule,
    /// The number of servers, which are numbered from 1 on.
    pub servers: u16,
    /// The most servers that may be away for a restart at once.
    pub restarts: u16,
    /// The greatest generation of a shard.
    pub ceiling: u64,
    /// The servers that fail together, by domain.
    pub domains: Domains,
    /// The most connections of clients that have logged in, or needn't.
    pub most_clients: usize,
    /// The most connections beside these, of clients that haven't logged in.
    pub most_strangers: usize,
    /// The most connections to the page.
    pub most_of_page: usize,
    /// How long a command waits for a shard that no server executes.
    pub wait: Duration,
    /// How often a thread tries a shard that another thread has, before it goes on with other connections.
    pub spins: u32,
    /// How long a thread polls for events before it sleeps.
    pub busy_poll: Duration,
    /// The least time that a step of a migration takes.
    pub pace: Duration,
    /// The most time that a stop takes while clients still send, or read their answers.
    pub grace: Duration,
    /// How many batches the log of a shard in a folder has before a new base replaces them.
    pub log_batches: u64,
    /// How reads are answered, if servers have leases.
    pub reads: Reads,
    /// How fast the process that leads evens out servers, if there are several processes.
    pub balance: Balance,
    /// The folder of dumps.
    pub folder: PathBuf,
    /// Who may connect, and what they may do.
    pub safety: Safety,
    /// The settings as a line, if a file gave some. Their capacities, groups and caps apply, too.
    pub settings: Option<Box<str>>,
}

impl Configuration {
    /// Makes the configuration of one server with keys of these shards, and defaults for everything else.
    pub fn new(rule: Rule) -> Configuration {
        Configuration {
            rule,
            servers: 1,
            restarts: 1,
            ceiling: MAX_CEILING,
            domains: Domains::default(),
            most_clients: 20_000,
            most_strangers: 20_000 / 4,
            most_of_page: MOST_OF_PAGE,
            wait: Duration::from_secs(1),
            spins: 64,
            busy_poll: Duration::ZERO,
            pace: Duration::ZERO,
            grace: Duration::from_secs(2),
            log_batches: ShardOptions::default().most_batches,
            reads: Reads::Exact,
            balance: Balance::default(),
            folder: PathBuf::from(USUAL_FOLDER),
            safety: Safety::default(),
            settings: None,
        }
    }

    /// Makes the configuration from these options and the settings file that they name.
    ///
    /// # Errors
    ///
    /// If a file that they name can't be read or is malformed, or if options contradict each other.
    pub fn of(options: &Options) -> Result<Configuration, BoxError> {
        let settings = options.settings.as_deref().map(settings_of).transpose()?;
        let (servers, restarts, ceiling) = match &settings {
            Some(it) => (it.servers(), it.restarts(), it.ceiling()),
            None => (options.servers, options.restarts, MAX_CEILING),
        };
        Ok(Configuration {
            rule: rule(options, settings.as_ref())?,
            servers,
            restarts,
            ceiling,
            domains: domains(options, settings.as_ref())?,
            most_clients: options.max_clients as usize,
            most_strangers: 0,
            most_of_page: MOST_OF_PAGE,
            wait: Duration::from_millis(options.wait),
            spins: options.spins,
            busy_poll: Duration::from_micros(options.busy_poll),
            pace: Duration::from_millis(options.pace),
            grace: Duration::from_millis(options.grace),
            log_batches: options.log_batches,
            reads: options.join.reads.into(),
            balance: options.join.balance,
            folder: options.folder.clone(),
            safety: Safety::of(&options.safety)?,
            settings: settings.map(|it| it.line().into()),
        })
    }

    /// Lowers the numbers of connections to the descriptors that there are.
    pub fn fit(&mut self, descriptors: Descriptors) {
        let wanted = self.most_clients;
        let strangers = match self.safety.is_guarded() {
            true => (wanted / 4).max(LEAST_STRANGERS),
            false => 0,
        };
        let least = strangers.min(descriptors.of_clients / STRANGERS);
        let most = descriptors.of_clients - least;
        self.most_clients = wanted.min(most);
        self.most_strangers = strangers.min(descriptors.of_clients - self.most_clients);
        self.most_of_page = descriptors.of_page;
        if most < wanted {
            tracing::warn!(
                "there are at most {most} clients at a time, not {wanted}: the system lets this process have {} files \
                 open; `ulimit -Hn`, or LimitNOFILE of its unit, lets it have more",
                descriptors.most
            );
        }
    }

    /// Adopts the settings that lie in the store of several processes, if they differ from its own.
    ///
    /// # Errors
    ///
    /// If their servers aren't numbered from 1 without gaps.
    pub fn go_by(&mut self, stored: &str) -> Result<(), BoxError> {
        let line = split_settings(stored).1;
        if settings::line(self) == line {
            return Ok(());
        }
        let settings = Settings::of(line)?;
        self.servers = settings.servers();
        self.restarts = settings.restarts();
        self.domains = settings.domains();
        self.settings = Some(line.into());
        Ok(())
    }

    /// Returns the options by which shards of a store are driven.
    pub fn shard_options(&self) -> ShardOptions {
        ShardOptions {
            wait: self.wait,
            most_batches: self.log_batches,
            reads: self.reads,
        }
    }

    /// Returns what limits plans and restarts.
    pub fn limits(&self) -> &'static str {
        match self.settings {
            Some(_) => "capacities, groups, domains and caps of the settings",
            None => "domains and restarts at once",
        }
    }
}

fn settings_of(path: &Path) -> Result<Settings, BoxError> {
    let text = fs::read_to_string(path).map_err(|error| format!("{}: {error}", path.display()))?;
    // If the file is a script, only its first line counts.
    let first = text.lines().next().unwrap_or_default();
    let settings = Settings::of(if first.ends_with('}') { first } else { &text });
    Ok(settings.map_err(|fault| format!("{}: {fault}", path.display()))?)
}

fn rule(options: &Options, settings: Option<&Settings>) -> Result<Rule, BoxError> {
    let bounds = if let Some(settings) = settings {
        settings.bounds()
    } else if let Some(ranges) = options.ranges {
        even_bounds(ranges)
    } else if !options.bounds.is_empty() {
        let above = options.bounds.iter().map(|it| it.clone().into_bytes());
        std::iter::once(Vec::new()).chain(above).collect()
    } else {
        return Ok(Rule::Hash(options.shards));
    };
    let rule = Rule::Bounds(bounds);
    let keyspace = Keyspace::new(&rule).map_err(|fault| format!("bounds: {fault}"))?;
    match options.hash {
        true => Ok(Rule::Hash(keyspace.shards())),
        false => Ok(rule),
    }
}

fn domains(options: &Options, settings: Option<&Settings>) -> Result<Domains, BoxError> {
    if let Some(settings) = settings {
        return Ok(settings.domains());
    }
    let servers = options.servers;
    let domains = options.domains.unwrap_or(servers);
    match domains <= servers {
        true => Ok(Domains::in_turn(domains, servers)),
        false => {
            Err(format!("{domains} domains need a server each, and there are {servers}").into())
        }
    }
}

#[cfg(test)]
mod tests {
    use super::*;
    use clap::Parser;
    use durkenzo_control::links::Secret;

    fn configured(words: &str) -> Result<Configuration, String> {
        let words = ["sm serve"].into_iter().chain(words.split_whitespace());
        let options = Options::try_parse_from(words).map_err(|it| it.to_string())?;
        Configuration::of(&options).map_err(|it| it.to_string())
    }

    #[test]
    fn keys_go_by_hash_where_nothing_is_said() {
        let rule = |words| configured(words).unwrap().rule;
        assert_eq!(rule(""), Rule::Hash(64));
        assert_eq!(rule("--shards 8"), Rule::Hash(8));
        assert_eq!(rule("--ranges 2"), Rule::Bounds(even_bounds(2)));
        assert_eq!(rule("--bounds g,n").shards(), 3);
        assert_eq!(rule("--bounds g,n --hash"), Rule::Hash(3));
    }

    #[test]
    fn what_goes_together_is_checked() {
        for words in [
            "--ranges 2 --bounds a",
            "--settings x --servers 2",
            "--servers 4096",
            "--domains 5",
            "--bounds b,a",
            "--settings /nowhere",
        ] {
            assert!(configured(words).is_err(), "{words}");
        }
        assert_eq!(
            configured("--domains 2").unwrap().domains,
            Domains::in_turn(2, 4)
        );
    }

    /// Returns how many clients and strangers there may be if so many are wanted, with so many descriptors for them.
    fn fitted(wanted: usize, of_clients: usize, is_guarded: bool) -> (usize, usize) {
        let mut configuration = Configuration {
            most_clients: wanted,
            ..Configuration::new(Rule::Hash(1))
        };
        configuration.safety.password = Secret::of(b"secret").filter(|_| is_guarded);
        configuration.fit(Descriptors {
            most: of_clients,
            of_clients,
            of_page: 9,
        });
        assert_eq!(configuration.most_of_page, 9);
        (configuration.most_clients, configuration.most_strangers)
    }

    #[test]
    fn clients_and_strangers_have_no_more_places_than_descriptors() {
        assert_eq!(fitted(1_000, 5_000, false), (1_000, 0));
        assert_eq!(fitted(1_000, 500, false), (500, 0));
        assert_eq!(fitted(1_000, 5_000, true), (1_000, 250));
        assert_eq!(fitted(100, 5_000, true), (100, 64));
        assert_eq!(fitted(1_000, 500, true), (400, 100));
        assert_eq!(fitted(1_000, 1_100, true), (880, 220));
    }
}
