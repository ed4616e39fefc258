use crate::plan::COUNT;
use crate::{judge_until, Call, Garbled, History, KeyAnswer, KeyCommand, Register, Verdict};
use std::collections::BTreeMap;
use std::fmt;
use std::sync::atomic::{AtomicUsize, Ordering};
use std::thread;
use std::time::{Duration, Instant};

/// How many keys are judged at once.
const AT_ONCE: usize = 2;
/// How often the program prints how many keys are judged.
const EVERY: Duration = Duration::from_secs(10);

/// A key for which no order is known.
#[derive(Clone, Debug, PartialEq, Eq)]
pub struct Unexplained {
    /// The key.
    pub key: String,
    /// How many calls of it there are.
    pub calls: usize,
    /// How many of them have no answer.
    pub open: usize,
}

/// The verdict on a history.
#[derive(Debug)]
pub struct Report {
    /// How many keys there are.
    pub keys: usize,
    /// The keys whose answers no order of one thread explains.
    pub wrong: Vec<Unexplained>,
    /// The keys for which the search was given up.
    pub undecided: Vec<Unexplained>,
    /// The keys that count fewer numbered requests than were answered, or more than were sent.
    pub miscounted: Vec<String>,
    /// The replies that answer no request.
    pub garbled: Garbled,
    /// How many clients panicked. Their record is lost.
    pub lost: u64,
    /// The longest time in which calls of a key were not answered, in nanoseconds; the key's number; and when that time
    /// began.
    pub longest: (u64, String, u64),
}

/// A key and its calls.
type Of<'a> = (&'a String, &'a Vec<Call<KeyCommand, KeyAnswer>>);

impl Report {
    /// Returns the report of this history. Keys that aren't judged by the end stay undecided.
    pub fn of(history: &History, end: Instant) -> Report {
        let mut report = Report {
            keys: history.calls.len(),
            wrong: Vec::new(),
            undecided: Vec::new(),
            miscounted: Vec::new(),
            garbled: history.garbled.clone(),
            lost: history.lost,
            longest: longest(history),
        };
        let mut of: Vec<Of> = history.calls.iter().collect();
        // Keys that take long come last, because they must not take the time of others.
        of.sort_by_key(|it| it.1.iter().filter(|it| it.output.is_none()).count());
        for ((key, calls), verdict) in of.iter().zip(verdicts(&of, end)) {
            let unexplained = Unexplained {
                key: (*key).clone(),
                calls: calls.len(),
                open: calls.iter().filter(|it| it.output.is_none()).count(),
            };
            match verdict {
                Verdict::Linearizable => {}
                Verdict::Wrong => report.wrong.push(unexplained),
                Verdict::Undecided => report.undecided.push(unexplained),
            }
            if key.contains(COUNT) {
                report.count(key, calls);
            }
        }
        report
    }

    /// Returns whether no wrong answer was found.
    pub fn is_right(&self) -> bool {
        let is_wrong = !self.wrong.is_empty() || !self.miscounted.is_empty();
        self.keys > 0 && !is_wrong && self.garbled.count + self.lost == 0
    }

    /// Checks that each numbered increment was made at most once, and exactly once if it was answered.
    fn count(&mut self, key: &str, calls: &[Call<KeyCommand, KeyAnswer>]) {
        let is_increment = |it: &&Call<KeyCommand, KeyAnswer>| it.input == KeyCommand::Incr;
        let sent = calls.iter().filter(is_increment).count();
        let answered = calls.iter().filter(is_increment);
        let answered = answered.filter(|it| it.output.is_some()).count();
        let last = calls.iter().filter(|it| it.input == KeyCommand::Get);
        let Some(last) = last.max_by_key(|it| it.ended) else {
            return;
        };
        let found = match &last.output {
            Some(KeyAnswer::Text(text)) => {
                text.as_deref().unwrap_or("0").parse().unwrap_or(usize::MAX)
            }
            _ => return,
        };
        if !(answered..=sent).contains(&found) {
            let told =
                format!("{key} counts {found} increments: {sent} were sent, {answered} answered");
            self.miscounted.push(told);
        }
    }
}

impl fmt::Display for Report {
    fn fmt(&self, f: &mut fmt::Formatter<'_>) -> fmt::Result {
        for Unexplained { key, calls, open } in &self.wrong {
            writeln!(
                f,
                "no order of one thread explains the {calls} calls of {key}, {open} without answer"
            )?;
        }
        for Unexplained { key, calls, open } in &self.undecided {
            writeln!(
                f,
                "undecided: no order was found in time for the {calls} calls of {key}, {open} without answer"
            )?;
        }
        for told in &self.miscounted {
            writeln!(f, "{told}")?;
        }
        if self.lost > 0 {
            writeln!(
                f,
                "{} clients panicked: what they recorded is lost",
                self.lost
            )?;
        }
        write!(
            f,
            "{}{} keys, {} wrong, {} undecided",
            self.garbled,
            self.keys,
            self.wrong.len(),
            self.undecided.len()
        )
    }
}

/// Returns the verdicts on these keys, in their order.
fn verdicts(of: &[Of], end: Instant) -> Vec<Verdict> {
    let (next, began) = (AtomicUsize::new(0), Instant::now());
    let judge_some = || {
        let (mut judged, mut told) = (Vec::new(), began);
        while let Some((at, (_, calls))) = next_of(&next, of) {
            judged.push((at, judge_until::<Register>(calls, end)));
            if told.elapsed() >= EVERY {
                told = Instant::now();
                eprintln!("trial: {at} of {} keys are judged", of.len());
            }
        }
        judged
    };
    let mut verdicts = vec![Verdict::Undecided; of.len()];
    thread::scope(|threads| {
        let judging: Vec<_> = (0..AT_ONCE).map(|_| threads.spawn(judge_some)).collect();
        // If a thread panicked, it has said so, and its keys stay undecided.
        let judged = judging.into_iter().filter_map(|it| it.join().ok());
        judged
            .flatten()
            .for_each(|(at, verdict)| verdicts[at] = verdict);
    });
    verdicts
}

/// Returns the next key that no thread judges yet.
fn next_of<'a>(next: &AtomicUsize, of: &[Of<'a>]) -> Option<(usize, Of<'a>)> {
    let at = next.fetch_add(1, Ordering::Relaxed);
    Some((at, *of.get(at)?))
}

/// Returns the longest time in which calls of a key were not answered, from the start on, with the key and when that
/// time began. Keys that took its place count as the same key.
fn longest(history: &History) -> (u64, String, u64) {
    let mut ends: BTreeMap<&str, Vec<u64>> = BTreeMap::new();
    for (key, calls) in history.calls.iter().filter(|(it, _)| !it.contains(COUNT)) {
        let number = key.rsplit(':').next().unwrap_or_default();
        let answered = calls.iter().filter(|it| it.output.is_some());
        ends.entry(number)
            .or_insert_with(|| vec![0])
            .extend(answered.map(|it| it.ended));
    }
    let gap = |(number, ends): (&str, &mut Vec<u64>)| {
        ends.sort_unstable();
        let gaps = ends.windows(2).map(|it| (it[1] - it[0], it[0]));
        gaps.max()
            .map(|(length, began)| (length, number.to_owned(), began))
    };
    let longest = ends
        .iter_mut()
        .filter_map(|(it, ends)| gap((it, ends)))
        .max();
    longest.unwrap_or_default()
}
