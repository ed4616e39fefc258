//! How inputs are spoilt, tried and kept.
use crate::chance::Chance;
use crate::coverage::Coverage;
use crate::raw;
use crate::target::Target;
use std::fs::File;
use std::os::unix::fs::FileExt;
use std::panic::{self, AssertUnwindSafe};
use std::sync::atomic::{AtomicUsize, Ordering::Relaxed};
use std::thread;
use std::time::{Duration, Instant};

/// How many bytes an input may allocate, beside the bytes that were held before it.
const MOST_BYTES: isize = 64 << 20;
/// How many bytes may be held beside the inputs after any number of them.
const MOST_LEFT: isize = 64 << 20;
/// How many pages of memory the process may have in all, with those of the proved library.
const MOST_PAGES: usize = (1 << 30) / 4_096;
/// How long an input may take, on a machine that has other work too.
const LONGEST: Duration = Duration::from_secs(5);
/// How many bytes the kept inputs have together.
const KEPT: usize = 32 << 20;

/// How many threads have panicked. Others wait for them in vain.
static PANICS: AtomicUsize = AtomicUsize::new(0);

/// Makes panics of all threads count.
pub fn count_panics() {
    let told = panic::take_hook();
    panic::set_hook(Box::new(move |info| {
        PANICS.fetch_add(1, Relaxed);
        told(info);
    }));
}

/// The figures of a run.
#[derive(Debug, Default)]
pub struct Figures {
    /// How many inputs were tried.
    pub inputs: u64,
    /// How long the longest input took.
    pub longest: Duration,
    /// The most bytes that one input allocated.
    pub most: isize,
}

/// Spoils inputs of a target, and keeps an input if it reaches a branch that none before it reached.
pub struct Fuzzer<'a> {
    target: &'a mut dyn Target,
    /// The bytes of the present input, for a reader if the process is gone.
    current: File,
    coverage: Coverage,
    chance: Chance,
    population: Vec<Vec<u8>>,
    kept: usize,
    held: isize,
    /// The figures so far.
    pub figures: Figures,
}

impl<'a> Fuzzer<'a> {
    /// Returns a fuzzer that begins with these numbers.
    pub fn new(target: &'a mut dyn Target, current: File, seed: u64) -> Fuzzer<'a> {
        Fuzzer {
            target,
            current,
            coverage: Coverage::default(),
            chance: Chance::new(seed),
            population: Vec::new(),
            kept: 0,
            held: raw::held(),
            figures: Figures::default(),
        }
    }

    /// Tries each seed, and then spoilt inputs for this time. Returns the fault, if there is one, with its bytes.
    pub fn run(&mut self, seeds: Vec<Vec<u8>>, time: Duration) -> Result<(), (String, Vec<u8>)> {
        for seed in seeds {
            self.try_one(&seed).map_err(|why| (why, seed.clone()))?;
            self.keep(seed);
        }
        if self.population.is_empty() {
            self.keep(Vec::new());
        }
        let end = Instant::now() + time;
        while Instant::now() < end {
            let mut input = self.chance.one(&self.population).clone();
            let other = self.chance.below(self.population.len());
            self.target
                .spoil(&mut input, &self.population[other], &mut self.chance);
            let tried = self.try_one(&input);
            tried.map_err(|why| (why, input.clone()))?;
            if self.coverage.is_new() && self.kept + input.len() < KEPT {
                self.keep(input);
            }
        }
        Ok(())
    }

    fn keep(&mut self, input: Vec<u8>) {
        self.kept += input.len();
        self.population.push(input);
    }

    /// Tries these bytes. Returns the fault, if there is one.
    pub fn try_one(&mut self, input: &[u8]) -> Result<(), String> {
        self.note(input).map_err(|error| error.to_string())?;
        let (panics, held) = (PANICS.load(Relaxed), raw::held());
        self.coverage.begin();
        raw::begin();
        let (checked, mut took) = self.checked(input);
        let most = raw::most() - held;
        if took > LONGEST {
            // If the machine has other work, the process may have stood still meanwhile.
            took = took.min(self.checked(input).1);
        }
        self.figures.inputs += 1;
        self.figures.longest = self.figures.longest.max(took);
        self.figures.most = self.figures.most.max(most);
        match checked {
            Ok(checked) => checked?,
            Err(_) => return Err("it panicked".to_owned()),
        }
        match () {
            () if PANICS.load(Relaxed) > panics => Err("a thread of it panicked".to_owned()),
            () if took > LONGEST => Err(format!("it took {took:?}")),
            () if most > MOST_BYTES => Err(format!("it allocated {most} bytes")),
            () => self.is_small(),
        }
    }

    /// Returns the target's verdict on these bytes, and how long it took.
    fn checked(&mut self, input: &[u8]) -> (thread::Result<Result<(), String>>, Duration) {
        let (began, target) = (Instant::now(), &mut self.target);
        let checked = panic::catch_unwind(AssertUnwindSafe(|| target.check(input)));
        (checked, began.elapsed())
    }

    /// Writes the number of bytes, and then the bytes.
    fn note(&self, input: &[u8]) -> std::io::Result<()> {
        let length = (input.len() as u64).to_be_bytes();
        self.current.write_all_at(&[&length, input].concat(), 0)
    }

    /// Checks that the process holds no more than it may; it looks only now and then.
    fn is_small(&self) -> Result<(), String> {
        if self.figures.inputs % 256 != 0 {
            return Ok(());
        }
        let left = raw::held() - self.held - self.kept as isize;
        if left > MOST_LEFT {
            return Err(format!("{left} bytes are left of the inputs so far"));
        }
        match pages() {
            pages if pages > MOST_PAGES => Err(format!("the process has {pages} pages")),
            _ => Ok(()),
        }
    }

    /// Returns how many inputs are kept, and how many branches they reach.
    pub fn reached(&self) -> (usize, usize) {
        (self.population.len(), self.coverage.branches())
    }

    /// Returns the inputs that are kept.
    pub fn population(&self) -> &[Vec<u8>] {
        &self.population
    }
}

/// Returns how many pages of memory the process has.
pub fn pages() -> usize {
    let told = std::fs::read_to_string("/proc/self/statm").unwrap_or_default();
    let pages = told.split(' ').nth(1).and_then(|it| it.parse().ok());
    pages.unwrap_or(0)
}
