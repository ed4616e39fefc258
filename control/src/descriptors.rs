//! How many files the system lets the process have open.
use rustix::process::{getrlimit, setrlimit, Resource, Rlimit};

/// Raises the process's soft limit of open files to its hard one, as Redis does. Returns the new limit.
pub fn raise_limit() -> usize {
    let Rlimit { current, maximum } = getrlimit(Resource::Nofile);
    let raised = Rlimit {
        current: maximum,
        maximum,
    };
    let current = match setrlimit(Resource::Nofile, raised) {
        Ok(()) => maximum,
        Err(error) => {
            tracing::warn!(%error, "the soft limit of open files stays");
            current
        }
    };
    // No value means no limit.
    current.map_or(usize::MAX, |it| usize::try_from(it).unwrap_or(usize::MAX))
}
