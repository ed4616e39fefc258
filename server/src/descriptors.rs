//! How many files the system lets the process open, and for what some of them are reserved.
use durkenzo_control::descriptors::raise_limit;

/// Reserved for the files that the process opens itself: its log, listeners, files of the store and of dumps.
const OWN: usize = 64;
/// How many a thread for clients takes.
const OF_THREAD: usize = 4;
/// The most connections of the page.
pub const MOST_OF_PAGE: usize = 256;
/// How many a process takes that has just connected, times the most of these.
const STRANGERS: usize = 3 * 64;
/// How many each other process of the cluster takes: a connection to it and one from it, each with copies.
const OF_PEER: usize = 6;

/// The needs for descriptors beside those of clients.
#[derive(Clone, Copy, Debug)]
pub struct Needs {
    /// The number of threads for clients.
    pub threads: usize,
    /// Whether there is a page.
    pub has_page: bool,
    /// The number of other processes of the cluster, if it has several.
    pub peers: Option<usize>,
}

impl Needs {
    /// Returns how many descriptors that takes.
    fn count(self) -> usize {
        let page = if self.has_page { MOST_OF_PAGE } else { 0 };
        let peers = self.peers.map_or(0, |it| STRANGERS + OF_PEER * it);
        OWN + OF_THREAD * self.threads + page + peers
    }
}

/// How the descriptors of the process are shared out.
#[derive(Clone, Copy, Debug, PartialEq, Eq)]
pub struct Descriptors {
    /// How many there are in all.
    pub most: usize,
    /// How many the connections of clients may have.
    pub of_clients: usize,
    /// How many the connections to the page may have.
    pub of_page: usize,
}

impl Descriptors {
    /// Raises the soft limit of the process to its hard one, as Redis does, and shares out the descriptors.
    pub fn raised(needs: Needs) -> Descriptors {
        Descriptors::shared(raise_limit(), needs)
    }

    /// Shares out so many descriptors. Clients get at least half, however few there are.
    fn shared(most: usize, needs: Needs) -> Descriptors {
        let kept = needs.count().min(most / 2);
        Descriptors {
            most,
            of_clients: most - kept,
            of_page: MOST_OF_PAGE.min(kept / 2).max(1),
        }
    }
}

#[cfg(test)]
mod tests {
    use super::*;
    use rustix::process::{getrlimit, Resource};

    const NEEDS: Needs = Needs {
        threads: 3,
        has_page: true,
        peers: None,
    };

    #[test]
    fn what_is_kept_back_isnt_for_clients() {
        let shared = Descriptors::shared(1_024, NEEDS);
        assert_eq!(shared.of_clients, 1_024 - 64 - 12 - 256);
        let without_page = Needs {
            has_page: false,
            ..NEEDS
        };
        let shared = Descriptors::shared(1_024, without_page);
        assert_eq!(shared.of_clients, 1_024 - 64 - 12);
        let among_others = Needs {
            peers: Some(2),
            ..NEEDS
        };
        let shared = Descriptors::shared(65_536, among_others);
        assert_eq!(shared.of_clients, 65_536 - 64 - 12 - 256 - 192 - 12);
        assert_eq!(shared.of_page, MOST_OF_PAGE);
    }

    #[test]
    fn few_descriptors_are_halved() {
        let shared = Descriptors::shared(100, NEEDS);
        assert_eq!((shared.of_clients, shared.of_page), (50, 25));
    }

    #[test]
    fn the_soft_limit_is_the_hard_one() {
        let most = raise_limit();
        let limit = getrlimit(Resource::Nofile);
        assert_eq!(limit.current, limit.maximum);
        assert!(limit.current.is_none_or(|it| it as usize == most));
    }
}
