use crate::error_name::ErrorName;
use crate::refusal::Refusal;
use hyper::{Method, Uri};
use std::time::Duration;

/// The longest time that a client may wait for a change of the map.
const LONGEST_WAIT: Duration = Duration::from_secs(60);
/// How long it waits if it doesn't say it.
const WAIT: Duration = Duration::from_secs(30);
/// What a sidecar answers.
const PATHS: &str =
    "/call/SHARD, /key/KEY, /v1/map, /v1/command, /v1/drain, /live, /ready, /metrics";

/// What a client asks of a sidecar.
#[derive(Clone, Debug, PartialEq, Eq)]
pub(crate) enum Target {
    /// A call of the shard with this number.
    Shard(u16),
    /// A call of the shard that has this key, which is written as in the path.
    Key(String),
    /// The owners of shards, once there is a later revision than this, or this time is over.
    Map {
        since: u64,
        wait: Duration,
    },
    /// A command for the control.
    Command,
    /// A stop of this process.
    Drain,
    Live,
    Ready,
    Metrics,
}

impl Target {
    /// Returns what this request asks.
    ///
    /// # Errors
    ///
    /// `UnknownPath` or `BadMethod` if nothing is asked so, and `BadRequest` if a number can't be read.
    pub(crate) fn of(method: &Method, uri: &Uri) -> Result<Target, Refusal> {
        let (target, asked_by) = Target::of_path(uri)?;
        if *method == asked_by || (*method == Method::HEAD && asked_by == Method::GET) {
            return Ok(target);
        }
        let why = format!("{} is asked by {asked_by}", uri.path());
        Err(Refusal::new(ErrorName::BadMethod, why))
    }

    fn of_path(uri: &Uri) -> Result<(Target, Method), Refusal> {
        let path = uri.path();
        if let Some(shard) = path.strip_prefix("/call/") {
            return Ok((Target::Shard(number(shard)?), Method::POST));
        }
        if let Some(key) = path.strip_prefix("/key/") {
            key_of(key)?;
            return Ok((Target::Key(key.to_owned()), Method::POST));
        }
        Ok(match path {
            "/v1/map" => (map_of(uri.query().unwrap_or_default())?, Method::GET),
            "/v1/command" => (Target::Command, Method::POST),
            "/v1/drain" => (Target::Drain, Method::POST),
            "/live" => (Target::Live, Method::GET),
            "/ready" => (Target::Ready, Method::GET),
            "/metrics" => (Target::Metrics, Method::GET),
            _ => {
                return Err(Refusal::new(
                    ErrorName::UnknownPath,
                    format!("there are {PATHS}"),
                ))
            }
        })
    }
}

/// Returns the bytes of a key that is written as in a path: `%` and two digits are a byte.
pub(crate) fn key_of(text: &str) -> Result<Vec<u8>, Refusal> {
    let bad = || {
        Refusal::new(
            ErrorName::BadRequest,
            "after a % of a key come two digits, as in %2F",
        )
    };
    let mut parts = text.split('%');
    let mut key = parts.next().unwrap_or_default().as_bytes().to_vec();
    for part in parts {
        let digits = part.get(..2).ok_or_else(bad)?;
        let is_hexadecimal = digits.bytes().all(|it| it.is_ascii_hexdigit());
        let byte = u8::from_str_radix(digits, 16)
            .ok()
            .filter(|_| is_hexadecimal);
        key.push(byte.ok_or_else(bad)?);
        key.extend_from_slice(&part.as_bytes()[2..]);
    }
    match key.is_empty() {
        true => Err(Refusal::new(
            ErrorName::BadRequest,
            "a key has at least one byte",
        )),
        false => Ok(key),
    }
}

/// Returns which change of the map a client waits for.
fn map_of(query: &str) -> Result<Target, Refusal> {
    let (mut since, mut wait) = (0, WAIT);
    for pair in query.split('&').filter(|it| !it.is_empty()) {
        match pair.split_once('=') {
            Some(("since", value)) => since = number(value)?,
            Some(("wait", value)) => wait = Duration::from_secs(number(value)?).min(LONGEST_WAIT),
            _ => {
                let why = "the map takes since=REVISION and wait=SECONDS";
                return Err(Refusal::new(ErrorName::BadRequest, why));
            }
        }
    }
    Ok(Target::Map { since, wait })
}

fn number<N: std::str::FromStr>(text: &str) -> Result<N, Refusal> {
    let bad = |_| {
        Refusal::new(
            ErrorName::BadRequest,
            "a number is out of its bounds, or isn't one",
        )
    };
    text.parse().map_err(bad)
}

#[cfg(test)]
mod tests {
    use super::*;

    fn target(method: &Method, uri: &str) -> Result<Target, ErrorName> {
        Target::of(method, &uri.parse().unwrap()).map_err(|it| it.name)
    }

    #[test]
    fn paths_are_read_and_others_are_named() {
        let (post, get) = (&Method::POST, &Method::GET);
        let map = |since, wait| {
            let wait = Duration::from_secs(wait);
            Ok(Target::Map { since, wait })
        };
        assert_eq!(target(post, "/call/7"), Ok(Target::Shard(7)));
        assert_eq!(
            target(post, "/key/a%2Fb"),
            Ok(Target::Key("a%2Fb".to_owned()))
        );
        assert_eq!(target(get, "/v1/map"), map(0, 30));
        assert_eq!(target(get, "/v1/map?since=9&wait=900"), map(9, 60));
        assert_eq!(target(&Method::HEAD, "/live"), Ok(Target::Live));
        for uri in [
            "/call/x",
            "/call/-1",
            "/call/70000",
            "/key/",
            "/key/%",
            "/key/%2",
            "/key/%+1",
        ] {
            assert_eq!(target(post, uri), Err(ErrorName::BadRequest), "{uri}");
        }
        assert_eq!(target(get, "/v1/map?until=3"), Err(ErrorName::BadRequest));
        assert_eq!(target(get, "/call/7"), Err(ErrorName::BadMethod));
        assert_eq!(target(post, "/ready"), Err(ErrorName::BadMethod));
        assert_eq!(target(get, "/"), Err(ErrorName::UnknownPath));
    }

    #[test]
    fn keys_have_any_bytes() {
        assert_eq!(key_of("a%2Fb%00c").unwrap(), b"a/b\0c");
        assert_eq!(key_of("%ff%FF").unwrap(), [255, 255]);
    }
}
