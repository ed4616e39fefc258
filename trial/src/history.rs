use crate::{Call, Garbled, KeyAnswer, KeyCommand};
use std::collections::BTreeMap;
use std::thread;

/// The record of clients: the calls of each key, the refusals, and the replies that came instead of answers.
#[derive(Debug, Default)]
pub struct History {
    /// The calls of each key.
    pub calls: BTreeMap<String, Vec<Call<KeyCommand, KeyAnswer>>>,
    /// How often each refusal came, by its name. A call that was refused did nothing.
    pub refusals: BTreeMap<String, u64>,
    /// The refusal that came last.
    pub last_refusal: Option<String>,
    /// Why numbered requests were sent again, and how often.
    pub again: BTreeMap<String, u64>,
    /// The replies that answer no request.
    pub garbled: Garbled,
    /// How many clients panicked. Their record is lost.
    pub lost: u64,
}

impl History {
    /// Takes the record of another client's thread, or notes that the thread panicked.
    pub fn join(&mut self, ended: thread::Result<History>) {
        match ended {
            Ok(other) => self.take(other),
            Err(_) => self.lost += 1,
        }
    }

    fn take(&mut self, other: History) {
        for (key, calls) in other.calls {
            self.calls.entry(key).or_default().extend(calls);
        }
        for (name, count) in other.refusals {
            *self.refusals.entry(name).or_default() += count;
        }
        self.last_refusal = other.last_refusal.or(self.last_refusal.take());
        for (name, count) in other.again {
            *self.again.entry(name).or_default() += count;
        }
        self.garbled.take(other.garbled);
    }

    /// Records a call.
    pub(crate) fn record(&mut self, key: String, call: Call<KeyCommand, KeyAnswer>) {
        self.calls.entry(key).or_default().push(call);
    }

    /// Counts a refusal by the name with which it begins.
    pub(crate) fn refuse(&mut self, told: &str) {
        *self.refusals.entry(name_of(told)).or_default() += 1;
        self.last_refusal = Some(told.to_owned());
    }

    /// Counts a request that is sent again, by the reason for it.
    pub(crate) fn send_again(&mut self, why: &str) {
        *self.again.entry(name_of(why)).or_default() += 1;
    }

    /// Returns how many calls were refused.
    pub fn refused(&self) -> u64 {
        self.refusals.values().sum()
    }

    /// Returns how many calls there are, and how many of them have no answer.
    pub fn counts(&self) -> (usize, usize) {
        let calls = || self.calls.values().flatten();
        (
            calls().count(),
            calls().filter(|it| it.output.is_none()).count(),
        )
    }
}

/// Returns the name with which a refusal begins.
fn name_of(told: &str) -> String {
    let words = if told.starts_with("REFUSED ") { 2 } else { 1 };
    let words: Vec<_> = told.split(' ').take(words).collect();
    words.join(" ")
}
