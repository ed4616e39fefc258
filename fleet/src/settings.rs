//! The settings of a fleet: its shards and servers, and the rule that gives the shard of a key. All processes agree on
//! them through the store.
use crate::JoinError;
use durkenzo::{Board, Layout, LayoutFault};
use durkenzo_control::links::checksum;
use durkenzo_driver::keys;
use durkenzo_store::{Outcome, Revision, Store, Transaction};
use serde_json::{json, Map, Value};
use std::fmt;
use std::fs;
use std::path::Path;

/// The most differences of settings that a message names.
const TOLD: usize = 5;
/// The most characters of a value that a message shows.
const CUT: usize = 80;

/// The settings of a fleet: the rule by which keys go to shards, and the line that the proved control reads.
#[derive(Debug)]
pub(crate) struct Settings {
    pub(crate) sharding: Sharding,
    /// The number of servers. They are numbered from 1.
    pub(crate) servers: u16,
    line: String,
}

impl Settings {
    /// Returns the settings of a fleet of this many servers that restart in turn. They have enough room for all shards
    /// if one server is away.
    pub(crate) fn of_servers(sharding: Sharding, servers: u16) -> Settings {
        let line = sharding.line(servers);
        Settings {
            sharding,
            servers,
            line,
        }
    }

    /// Reads the settings in this file. The file is a script, or has only settings. If `hashes` is set, keys go by hash
    /// to as many shards as the file has. If it isn't, keys go by the bounds in the file.
    ///
    /// # Errors
    ///
    /// If the file can't be read, or its settings break a rule of the proved library.
    pub(crate) fn of_file(file: &Path, hashes: bool) -> Result<Settings, JoinError> {
        let text = fs::read_to_string(file);
        let text = text.map_err(|error| JoinError::Unreadable(file.to_owned(), error))?;
        // If the file is a script, its first line has the settings.
        let first = text.lines().next().unwrap_or_default();
        let text = if first.ends_with('}') { first } else { &text };
        Settings::of_text(text.trim_end(), hashes).map_err(|why| why.of_file(file))
    }

    fn of_text(text: &str, hashes: bool) -> Result<Settings, SettingsError> {
        // A text in JSON never contains an unescaped end of line, so this changes only the space between the values.
        let line = text.replace(['\r', '\n'], " ");
        let members = serde_json::from_str(&line).unwrap_or(Value::Null);
        let rows = |name: &str| members[name].as_array().map_or(&[][..], Vec::as_slice);
        let bodies = vec![(); rows("bounds").len()];
        let (_, layout) = Board::by_settings(&line, bodies)?;
        let mut servers = (1..=u64::MAX).zip(rows("servers"));
        if servers.any(|(number, row)| row["id"] != number) {
            return Err(SettingsError::Gaps);
        }
        let sharding = match hashes {
            true => Sharding::hashes(layout.count() as u16)?,
            false => Sharding {
                layout,
                hashes,
                bounds: Vec::new(),
            },
        };
        Ok(Settings {
            sharding,
            servers: servers_of(&members),
            line,
        })
    }

    /// Returns the settings in the form that the store has.
    pub(crate) fn written(&self) -> String {
        let rule = if self.sharding.hashes { HASHES } else { RANGES };
        format!("{rule}\n{}", self.line)
    }
}

/// Why a text isn't the settings of a fleet.
#[derive(Debug, thiserror::Error)]
pub enum SettingsError {
    /// The settings break a rule of the library.
    #[error(transparent)]
    Fault(#[from] durkenzo::SettingsFault),
    /// The servers aren't numbered 1, 2 and so on.
    #[error("BadServers: servers have the numbers 1, 2 and so on, without gaps")]
    Gaps,
    /// Keys can't be spread over this many shards by hash.
    #[error(transparent)]
    Layout(#[from] LayoutFault),
}

impl SettingsError {
    fn of_file(self, file: &Path) -> JoinError {
        JoinError::Settings(file.to_owned(), self)
    }
}

/// The rule by which keys go to shards, with the proved layout.
pub struct Sharding {
    layout: Layout,
    /// Whether the layout looks up the hash of a key, and not the key itself.
    hashes: bool,
    bounds: Vec<String>,
}

impl Sharding {
    /// Spreads keys over this many shards by their hashes.
    ///
    /// # Errors
    ///
    /// If the number of shards isn't 1 to 4,096.
    pub(crate) fn hashes(shards: u16) -> Result<Sharding, LayoutFault> {
        let steps = (1..u64::from(shards)).map(|it| (it << 32) / u64::from(shards));
        let text = |it: u64| String::from_utf8_lossy(&hexadecimal(it as u32)).into_owned();
        let bounds = std::iter::once(String::new()).chain(steps.map(text));
        Sharding::of(bounds.take(usize::from(shards)).collect(), true)
    }

    /// Gives each shard the keys from its bound up to the next bound. The first bound must be empty.
    ///
    /// # Errors
    ///
    /// If the bounds don't rise, or the first one isn't empty.
    pub(crate) fn ranges(bounds: Vec<String>) -> Result<Sharding, LayoutFault> {
        Sharding::of(bounds, false)
    }

    fn of(bounds: Vec<String>, hashes: bool) -> Result<Sharding, LayoutFault> {
        let layout = Layout::new(&bounds)?;
        Ok(Sharding {
            layout,
            hashes,
            bounds,
        })
    }

    /// Reads the sharding from the settings of a fleet, as they are in the store. Returns nothing if the text isn't
    /// such settings.
    pub(crate) fn written(settings: &str) -> Option<Result<Sharding, LayoutFault>> {
        let (rule, line) = settings.split_once('\n')?;
        let line: Value = serde_json::from_str(line).ok()?;
        let bounds = line.get("bounds")?.as_array()?;
        if rule == HASHES {
            // A layout has at most 4,096 shards.
            return Some(Sharding::hashes(u16::try_from(bounds.len()).ok()?));
        }
        let bounds = bounds.iter();
        let bounds = bounds
            .map(|it| it.as_str().map(str::to_owned))
            .collect::<Option<_>>()?;
        Some(Sharding::of(bounds, false))
    }

    /// Returns the number of shards.
    pub fn shards(&self) -> u16 {
        // A layout has at most 4,096 shards.
        self.layout.count() as u16
    }

    /// Returns the shard of a key. The key may be any bytes.
    pub fn shard_of(&self, key: &[u8]) -> u16 {
        let shard = match self.hashes {
            true => self.layout.shard_of(hexadecimal(hash(key))),
            false => self.layout.shard_of(key),
        };
        shard.get()
    }

    /// Returns the line of settings for this sharding and this many servers.
    fn line(&self, servers: u16) -> String {
        let shards = self.shards();
        // If any one server is away, the others have room for all shards.
        let capacity = shards.div_ceil(servers.saturating_sub(1).max(1));
        let rows: Vec<Value> = (1..=servers)
            .map(|it| json!({"id": it, "domain": it, "capacity": capacity}))
            .collect();
        let domains: Vec<Value> = (1..=servers)
            .map(|it| json!({"domain": it, "down": 1}))
            .collect();
        let each = json!({"group": 0, "load": 1, "cap": 1});
        let line = json!({
            "version": 2,
            "bounds": self.bounds,
            "servers": rows,
            "groups": [{"limit": durkenzo::MAX_SHARD, "down": durkenzo::MAX_SHARD}],
            "shards": vec![each; usize::from(shards)],
            "ops": 1,
            "kept": 1,
            "ceiling": durkenzo::MAX_GENERATION,
            "workers": 1,
            "domains": domains,
        });
        line.to_string()
    }
}

impl fmt::Debug for Sharding {
    fn fmt(&self, f: &mut fmt::Formatter<'_>) -> fmt::Result {
        f.debug_struct("Sharding")
            .field("shards", &self.shards())
            .field("hashes", &self.hashes)
            .finish_non_exhaustive()
    }
}

const HASHES: &str = "hash";
const RANGES: &str = "ranges";

/// Writes the settings, if the store has none and they have a row for this server. Returns the settings in force. This
/// process must use those, even if its own settings differ.
///
/// # Errors
///
/// If a part that never changes is different in the store, if the store's settings have no row for this server, or if
/// the store can't be read or written.
pub(crate) fn agree(store: &dyn Store, wanted: &str, server: u16) -> Result<String, JoinError> {
    let servers = servers_of(&read(wanted).1);
    if server > servers && store.read(&[keys::SETTINGS])?.get(keys::SETTINGS).is_none() {
        return Err(JoinError::NotFirst { server, servers });
    }
    let first = Transaction::new()
        .compare(keys::SETTINGS, Revision::NEVER)
        .put(keys::SETTINGS, wanted)
        .or_read(keys::SETTINGS);
    let Outcome::Lost(reading) = store.make(first)? else {
        return Ok(wanted.to_owned());
    };
    let found = reading.get(keys::SETTINGS).map_or(&[][..], |it| &it.value);
    let found = String::from_utf8_lossy(found).into_owned();
    let differences = differences(&found, wanted);
    if lasting(&found) != lasting(wanted) {
        return Err(JoinError::OtherSettings(differences));
    }
    if server > servers_of(&read(&found).1) {
        return Err(JoinError::NotNamed(server));
    }
    if !differences.is_empty() {
        let advice = "SM CONFIGURE has other settings come in force";
        tracing::warn!(
            differences,
            advice,
            "other settings are in force than this process has"
        );
    }
    Ok(found)
}

/// Returns a checksum of the part of a fleet's settings that never changes. Processes and clients of the same fleet
/// have the same number.
pub(crate) fn identity(settings: &str) -> u64 {
    checksum(lasting(settings).as_bytes())
}

/// Returns the part of the settings that never changes: the rule, the shards and the ceiling.
fn lasting(settings: &str) -> String {
    let (rule, members) = read(settings);
    let of = |name: &str| members.get(name).cloned().unwrap_or_default();
    let shards = of("shards").as_array().map_or(0, Vec::len);
    json!([rule, of("bounds"), shards, of("ceiling")]).to_string()
}

/// Returns the rule, and the members of the line.
fn read(settings: &str) -> (&str, Value) {
    let (rule, line) = settings.split_once('\n').unwrap_or((settings, ""));
    (rule, serde_json::from_str(line).unwrap_or_default())
}

/// Returns the number of servers in these settings.
fn servers_of(members: &Value) -> u16 {
    let rows = members["servers"].as_array().map_or(0, Vec::len);
    // The library takes at most 4,095 servers.
    u16::try_from(rows).unwrap_or(u16::MAX)
}

/// Returns the first differences of these settings, by name. Returns an empty text if the settings say the same.
fn differences(found: &str, wanted: &str) -> String {
    let read = |text: &str| {
        let (rule, line) = text.split_once('\n').unwrap_or((text, ""));
        let members = serde_json::from_str::<Map<_, _>>(line);
        (rule.to_owned(), members.unwrap_or_default())
    };
    let ((rule, there), (other, here)) = (read(found), read(wanted));
    let by_rule = (rule != other).then(|| differing("keys go to shards", &rule, &other));
    let names: std::collections::BTreeSet<&String> = there.keys().chain(here.keys()).collect();
    let members = names.into_iter().filter_map(|name| {
        let of = |members: &Map<String, Value>| members.get(name).cloned().unwrap_or_default();
        difference(name, &of(&there), &of(&here))
    });
    let told: Vec<_> = by_rule.into_iter().chain(members).take(TOLD).collect();
    told.join("; ")
}

/// Returns how a member differs: the numbers of rows, or the first row that differs.
fn difference(name: &str, there: &Value, here: &Value) -> Option<String> {
    match (there, here) {
        (there, here) if there == here => None,
        (Value::Array(there), Value::Array(here)) if there.len() != here.len() => {
            let rows = |it: &[Value]| format!("{} rows", it.len());
            Some(differing(name, &rows(there), &rows(here)))
        }
        (Value::Array(there), Value::Array(here)) => {
            let mut rows = (0..).zip(there.iter().zip(here));
            rows.find_map(|(at, (there, here))| difference(&format!("{name}[{at}]"), there, here))
        }
        (there, here) => Some(differing(name, &there.to_string(), &here.to_string())),
    }
}

fn differing(name: &str, there: &str, here: &str) -> String {
    let cut = |it: &str| it.chars().take(CUT).collect::<String>();
    format!("{name}: {} there, {} here", cut(there), cut(here))
}

/// Returns the line of the settings that the proved control reads.
pub(crate) fn line(settings: &str) -> &str {
    settings.split_once('\n').map_or("", |it| it.1)
}

/// Returns a number of 32 bits as a text. The texts are in the order of the numbers.
fn hexadecimal(number: u32) -> [u8; 8] {
    std::array::from_fn(|at| {
        let digit = number >> (28 - 4 * at) & 0xf;
        b"0123456789abcdef"[digit as usize]
    })
}

/// Returns the hash of a key: FNV-1a, with its upper bits mixed once more. The hash is part of the format, and must
/// never change.
fn hash(key: &[u8]) -> u32 {
    let mixed = key.iter().fold(0xcbf2_9ce4_8422_2325_u64, |hash, byte| {
        (hash ^ u64::from(*byte)).wrapping_mul(0x0100_0000_01b3)
    });
    let spread = (mixed ^ mixed >> 32).wrapping_mul(0x9e37_79b9_7f4a_7c15);
    (spread >> 32) as u32
}

#[cfg(test)]
mod tests {
    use super::*;

    #[test]
    fn keys_spread_over_shards() {
        let sharding = Sharding::hashes(24).unwrap();
        let mut counts = [0; 24];
        for number in 0..24_000 {
            let key = format!("customer-{number}");
            counts[usize::from(sharding.shard_of(key.as_bytes()))] += 1;
        }
        assert!(
            counts.iter().all(|it| (800..1200).contains(it)),
            "{counts:?}"
        );
    }

    #[test]
    fn ranges_keep_the_order_of_keys() {
        let bounds = ["", "g", "n\"q"].map(str::to_owned).to_vec();
        let sharding = Sharding::ranges(bounds).unwrap();
        let shards = ["", "apple", "g", "mango", "zoo"].map(|it| sharding.shard_of(it.as_bytes()));
        assert_eq!(shards, [0, 0, 1, 1, 2]);
    }

    #[test]
    fn clients_read_the_settings_that_servers_wrote() {
        for sharding in [
            Sharding::hashes(5).unwrap(),
            Sharding::ranges(["", "a\"],b", "c\\"].map(str::to_owned).to_vec()).unwrap(),
        ] {
            let settings = Settings::of_servers(sharding, 3);
            let read = Sharding::written(&settings.written()).unwrap().unwrap();
            assert_eq!(Settings::of_servers(read, 3).written(), settings.written());
            let read = Sharding::written(&settings.written()).unwrap().unwrap();
            for key in ["", "a", "b", "customer-17", "zz"] {
                let key = key.as_bytes();
                assert_eq!(read.shard_of(key), settings.sharding.shard_of(key));
            }
        }
    }

    const LINE: &str = r#"{"version":2,"bounds":["","m"],"servers":[{"id":1,"domain":0,"capacity":3},
        {"id":2,"domain":1,"capacity":1}],"groups":[{"limit":2,"down":2}],"shards":[{"group":0,"load":1,"cap":1},
        {"group":0,"load":1,"cap":1}],"ops":1,"kept":9,"ceiling":1000,"workers":1,"domains":[{"domain":0,"down":1},
        {"domain":1,"down":1}]}"#;

    #[test]
    fn settings_of_scripts_are_read_by_the_library() {
        let settings = Settings::of_text(LINE, false).unwrap();
        let written = settings.written();
        assert!(
            written.starts_with("ranges\n{") && written.lines().count() == 2,
            "{written}"
        );
        let shards = ["a", "m", "z"].map(|it| settings.sharding.shard_of(it.as_bytes()));
        assert_eq!((settings.servers, shards), (2, [0, 1, 1]));
        let hashed = Settings::of_text(LINE, true).unwrap();
        let read = Sharding::written(&hashed.written()).unwrap().unwrap();
        let keys = ["a", "m", "customer-17", "zz"].map(str::as_bytes);
        assert_eq!(
            keys.map(|it| read.shard_of(it)),
            keys.map(|it| hashed.sharding.shard_of(it))
        );
        for (from, to, name) in [
            ("\"id\":2", "\"id\":3", "BadServers"),
            ("\"ops\":1", "\"ops\":5000", "BadOps"),
            ("\"ops\":1", "\"oops\":1", "BadShape"),
            ("\"m\"", "\"\"", "BadLayout"),
            ("]}", "", "BadJson"),
        ] {
            let fault = Settings::of_text(&LINE.replace(from, to), false).unwrap_err();
            assert!(fault.to_string().starts_with(name), "{fault}");
        }
    }

    #[test]
    fn it_is_told_in_what_settings_differ() {
        let settings = |line: &str| format!("ranges\n{line}");
        let found = settings(LINE);
        assert_eq!(
            differences(&found, &settings(&LINE.replace([' ', '\n'], ""))),
            ""
        );
        for (from, to, told) in [
            ("\"ops\":1", "\"ops\":2", "ops: 1 there, 2 here"),
            ("\"m\"", "\"n\"", "bounds[1]: \"m\" there, \"n\" here"),
            (
                ",{\"domain\":1,\"down\":1}",
                "",
                "domains: 2 rows there, 1 rows here",
            ),
        ] {
            let line = LINE.replace([' ', '\n'], "");
            assert_eq!(
                differences(&found, &settings(&line.replace(from, to))),
                told
            );
        }
        let hashed = found.replace(RANGES, HASHES);
        assert_eq!(
            differences(&found, &hashed),
            "keys go to shards: ranges there, hash here"
        );
        assert!(!differences("", &found).is_empty());
    }

    #[test]
    fn bounds_that_make_no_layout_are_refused() {
        assert!(Sharding::hashes(0).is_err());
        assert!(Sharding::ranges(vec!["b".to_owned()]).is_err());
    }
}
