//! The targets, which try parsers.
use crate::chance::Chance;
use crate::{mutator, targets};
use std::path::Path;

/// A parser, and the rules that it must keep for any bytes.
pub trait Target {
    /// Gives it the bytes. Returns the fault, if there is one.
    fn check(&mut self, input: &[u8]) -> Result<(), String>;

    /// Returns words that it knows.
    fn words(&self) -> &[&'static [u8]] {
        &[]
    }

    /// Returns inputs to begin with, beside those of the corpus.
    fn seeds(&mut self) -> Vec<Vec<u8>> {
        Vec::new()
    }

    /// Spoils an input.
    fn spoil(&self, input: &mut Vec<u8>, other: &[u8], chance: &mut Chance) {
        mutator::spoil(input, other, self.words(), chance);
    }
}

/// Makes a target, which may use the folder.
type Make = fn(&Path) -> Box<dyn Target>;

/// Each target, by its name.
pub const TARGETS: [(&str, Make); 12] = [
    ("resp", |_| Box::<targets::Resp>::default()),
    ("pattern", |_| Box::new(targets::ScanPatterns)),
    ("dump", |room| Box::new(targets::DumpBytes::new(room))),
    ("settings", |_| Box::new(targets::SettingsLine)),
    ("sent", |_| Box::new(targets::SentBytes::new())),
    ("records", |_| Box::new(targets::StoreValues)),
    ("log", |_| Box::new(targets::Log)),
    ("etcd", |_| Box::new(targets::EtcdAnswers)),
    ("fleet", |_| Box::new(targets::FleetFrames)),
    ("frames", |_| Box::new(targets::Frames::new())),
    ("greetings", |_| Box::new(targets::Greetings)),
    ("sqlite", |room| Box::new(targets::SqliteFile::new(room))),
];

/// Returns the target of this name.
pub fn of(name: &str, room: &Path) -> Option<Box<dyn Target>> {
    let found = TARGETS.iter().find(|it| it.0 == name)?;
    Some(found.1(room))
}

/// Returns the fault if this doesn't hold.
pub fn holds(is_so: bool, what: impl FnOnce() -> String) -> Result<(), String> {
    match is_so {
        true => Ok(()),
        false => Err(what()),
    }
}
