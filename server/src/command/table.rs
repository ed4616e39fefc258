//! The table of all commands. Its rows say how a command is written, what it does and how large its answer may be.
//! Everything else that depends on the command is derived from its row. A new command takes a row here, and a function
//! like those in `data`.
use super::data;
use super::spec::AnswerSize::{Any, Short, Value, ValueWith, Values};
use super::spec::Effect::{Frees, Grows, Reads};
use super::spec::InMulti::{Always, InMemory, Never};
use super::spec::Keys::{All, First, Pairs};
use super::spec::{Spec, TalkWord, Word};
use super::split::Split;
use crate::packed::packed;

/// The version of the table of commands. Whoever adds commands must raise it, and give it to them with [`Spec::since`],
/// so that no process sends them to one that doesn't know them.
pub const TABLE: u16 = 3;
/// The version of 0.1.0, whose processes don't tell it.
pub const FIRST_TABLE: u16 = durkenzo_control::links::FIRST_TABLE;

/// All commands, sorted by name.
#[rustfmt::skip] // One row a line.
pub static COMMANDS: [Spec; 45] = [
    Spec::talk("acl", -2, Any, InMemory, TalkWord::Acl),
    Spec::data("append", 3, First, Grows, Short, data::append),
    Spec::talk("auth", -2, Short, InMemory, TalkWord::Auth),
    Spec::talk("client", -2, Short, InMemory, TalkWord::Client),
    Spec::talk("command", -1, Any, InMemory, TalkWord::Command),
    Spec::talk("config", -2, Any, InMemory, TalkWord::Config),
    Spec::talk("dbsize", 1, Any, InMemory, TalkWord::DbSize),
    Spec::data("decr", 2, First, Grows, Short, data::decrement),
    Spec::data("decrby", 3, First, Grows, Short, data::subtract),
    Spec::data("del", -2, All, Frees, Short, data::delete).blind().split(Split::count("del")),
    Spec::other("discard", 1, Word::Discard),
    Spec::talk("echo", 2, Any, Always, TalkWord::Echo),
    Spec::other("exec", 1, Word::Exec),
    Spec::data("exists", -2, All, Reads, Short, data::exists).split(Split::count("exists")),
    Spec::other("flushdb", -1, Word::Flush).effect(Frees).since(3),
    Spec::data("get", 2, First, Reads, Value, data::get),
    Spec::data("getdel", 2, First, Frees, Value, data::get_and_delete).since(2),
    Spec::data("getrange", 4, First, Reads, Value, data::get_range).since(2),
    Spec::data("getset", 3, First, Grows, Value, data::get_and_set).since(2),
    Spec::talk("hello", -1, Short, InMemory, TalkWord::Hello),
    Spec::data("incr", 2, First, Grows, Short, data::increment),
    Spec::data("incrby", 3, First, Grows, Short, data::add),
    Spec::data("incrbyfloat", 3, First, Grows, Value, data::add_float).since(3),
    Spec::talk("info", -1, Any, InMemory, TalkWord::Info),
    Spec::other("keys", 2, Word::Keys).since(3),
    Spec::data("mget", -2, All, Reads, Values, data::get_all).split(Split::values("get")),
    Spec::data("mset", -3, Pairs, Grows, Short, data::set_all).blind().split(Split::ok("set")),
    Spec::data("msetnx", -3, Pairs, Grows, Short, data::set_all_new).since(2),
    Spec::other("multi", 1, Word::Multi),
    Spec::talk("ping", -1, Any, Always, TalkWord::Ping),
    Spec::talk("quit", -1, Any, Never, TalkWord::Quit),
    Spec::talk("reset", 1, Any, Never, TalkWord::Reset),
    Spec::other("scan", -2, Word::Scan),
    Spec::other("scanrange", 4, Word::ScanRange),
    Spec::talk("select", 2, Any, Always, TalkWord::Select),
    Spec::data("set", -3, First, Grows, ValueWith("GET"), data::set),
    Spec::data("setnx", 3, First, Grows, Short, data::set_new).since(2),
    Spec::data("setrange", 4, First, Grows, Short, data::set_range).since(3),
    Spec::other("sm", -2, Word::Control),
    Spec::data("strlen", 2, First, Reads, Short, data::length),
    Spec::data("substr", 4, First, Reads, Value, data::get_range).since(2),
    Spec::talk("time", 1, Short, InMemory, TalkWord::Time).since(2),
    Spec::data("touch", -2, All, Reads, Short, data::exists).split(Split::count("exists")).since(2),
    Spec::data("type", 2, First, Reads, Short, data::kind),
    Spec::data("unlink", -2, All, Frees, Short, data::delete).blind().split(Split::count("del")).since(2),
];

/// The names of the commands are spread over this many places, a power of two.
const PLACES: usize = 256;
/// The most letters of a name.
const MOST_LETTERS: usize = 16;
/// The bit by which a small letter differs from the capital, in each of eight letters.
const SMALL: u64 = u64::from_le_bytes([0x20; 8]);

/// The commands' names as numbers.
static NUMBERS: [u128; COMMANDS.len()] = numbers();
/// An odd number by which each command's name falls on its own place.
const SPREAD: u64 = spread();
/// The command whose name falls on each place, or the first command if no name does.
static AT_PLACES: [u8; PLACES] = at_places();

const fn numbers() -> [u128; COMMANDS.len()] {
    let (mut numbers, mut index) = ([0; COMMANDS.len()], 0);
    while index < COMMANDS.len() {
        numbers[index] = number_of(COMMANDS[index].name.as_bytes());
        index += 1;
    }
    numbers
}

const fn spread() -> u64 {
    const FIRST: u64 = 0x9e37_79b9_7f4a_7c15;
    let mut odd = FIRST;
    while !is_spread_by(odd) {
        odd = odd.wrapping_mul(FIRST);
    }
    odd
}

/// Returns whether no two commands' names fall on the same place by this number.
const fn is_spread_by(odd: u64) -> bool {
    let (mut is_taken, mut index) = ([false; PLACES], 0);
    while index < COMMANDS.len() {
        let place = place_of(number_of(COMMANDS[index].name.as_bytes()), odd);
        if is_taken[place] {
            return false;
        }
        is_taken[place] = true;
        index += 1;
    }
    true
}

const fn at_places() -> [u8; PLACES] {
    let (mut commands, mut index) = ([0; PLACES], 0);
    while index < COMMANDS.len() {
        let place = place_of(number_of(COMMANDS[index].name.as_bytes()), SPREAD);
        commands[place] = index as u8;
        index += 1;
    }
    commands
}

/// Returns the place on which the name with this number falls by the odd one.
const fn place_of(number: u128, odd: u64) -> usize {
    let mixed = (number as u64 ^ (number >> 64) as u64).wrapping_mul(odd);
    (mixed >> (u64::BITS - PLACES.ilog2())) as usize
}

/// Returns a name of at most `MOST_LETTERS` as a number. Letters of both cases count as the same, and no byte of a name
/// is 0, so different names have different numbers.
const fn number_of(name: &[u8]) -> u128 {
    match name.split_first_chunk::<8>() {
        None => part_of(name) as u128,
        Some((first, rest)) => part_of(first) as u128 | (part_of(rest) as u128) << 64,
    }
}

/// Does the same for at most eight letters.
const fn part_of(letters: &[u8]) -> u64 {
    match letters.len() {
        0 => 0,
        count => packed(letters) | SMALL >> (64 - 8 * count),
    }
}

impl Spec {
    /// Returns the command with this name, in any case.
    #[inline]
    pub fn named(name: &[u8]) -> Option<&'static Spec> {
        if name.len() > MOST_LETTERS {
            return None;
        }
        let number = number_of(name);
        let index = usize::from(AT_PLACES[place_of(number, SPREAD)]);
        (NUMBERS[index] == number).then(|| &COMMANDS[index])
    }
}

#[cfg(test)]
mod tests {
    use super::*;

    #[test]
    fn the_tables_version_is_that_of_its_latest_commands() {
        let versions = COMMANDS.iter().map(|it| it.since);
        assert_eq!(versions.clone().max(), Some(TABLE));
        // How many commands each version added, from the first on.
        let added = (FIRST_TABLE..=TABLE).map(|it| versions.clone().filter(|of| *of == it).count());
        assert_eq!(added.collect::<Vec<_>>(), [32, 9, 4]);
    }

    #[test]
    fn commands_are_found_by_name() {
        assert!(COMMANDS.windows(2).all(|it| it[0].name < it[1].name));
        for spec in &COMMANDS {
            let name = spec.name.to_uppercase();
            assert_eq!(Spec::named(name.as_bytes()).unwrap().name, spec.name);
        }
        let long = "getgetgetgetgetget";
        for name in [
            "", "flushall", "setx", "se", "zzz", "{", "1", "\u{ff}", "g%t", "get\0", long,
        ] {
            assert!(Spec::named(name.as_bytes()).is_none(), "{name}");
        }
    }
}
