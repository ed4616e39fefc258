//! The names of the errors by which clients are answered.
use durkenzo_control::control;

/// The names that Redis has, too.
const OF_REDIS: [&str; 7] = [
    "ERR",
    "EXECABORT",
    "NOAUTH",
    "NOPERM",
    "NOPROTO",
    "OOM",
    "WRONGPASS",
];

/// Returns the name of each error. A name may come twice.
pub fn error_names() -> impl Iterator<Item = &'static str> {
    OF_REDIS.into_iter().chain(control::error_names())
}
