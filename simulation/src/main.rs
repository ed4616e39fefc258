//! Runs schedules until one breaks a law. Then prints the seed, the fewest faults that still break the law, and the
//! timeline.
//!
//!     simulation [--schedules N] [--seed S] [--seconds T] [--processor-seconds T] [--part PART] [--bug NAME]
//!     simulation --show S [--part PART] [--bug NAME] [--keep FAULTS]
//!     simulation --picture S [--part PART] [--bug NAME] [--keep FAULTS]
//!     simulation --transcript S
//!
//! FAULTS are numbered faults, separated by commas, such as `crash 1, pause 2`. If `--keep` isn't given, all faults
//! strike.
use rustix::time::{clock_gettime, ClockId};
use simulation::bug::{Bug, BUGS};
use simulation::fault::{Fault, NumberedFault};
use simulation::faults::Kept;
use simulation::part::Part;
use simulation::plan::Plan;
use simulation::shrink::shrunk;
use simulation::tally::Tally;
use simulation::world::{run_by, transcript};
use std::process::ExitCode;
use std::time::{Duration, Instant};

const USAGE: &str = "usage: simulation [--schedules N] [--seed S] [--seconds T] [--processor-seconds T] [--part PART]
                  [--bug NAME]
       simulation --show S [--part PART] [--bug NAME] [--keep FAULTS]
       simulation --picture S [--part PART] [--bug NAME] [--keep FAULTS]
       simulation --transcript S";

struct Options {
    schedules: u64,
    seed: u64,
    seconds: u64,
    processor_seconds: u64,
    /// The only part that runs. If none is named, the bug's part runs, or the usual parts if there is no bug.
    part: Option<Part>,
    bug: Option<Bug>,
    kept: Kept,
    /// The seed of the schedule whose timeline is shown.
    show: Option<u64>,
    /// The seed of the schedule that is drawn as a picture.
    picture: Option<u64>,
    /// The seed of the schedule whose transactions, claims and commands are all printed.
    transcript: Option<u64>,
}

impl Options {
    /// Returns the parts of each seed that run. A bug belongs to one part.
    fn parts(&self) -> Vec<Part> {
        match (self.part, self.bug) {
            (Some(part), _) => vec![part],
            (None, Some(bug)) => vec![bug.part()],
            (None, None) => Part::USUAL.to_vec(),
        }
    }
}

fn wanted() -> Option<Options> {
    let mut wanted = Options {
        schedules: 10_000,
        seed: 1,
        seconds: u64::MAX,
        processor_seconds: u64::MAX,
        part: None,
        bug: None,
        kept: Kept::All,
        show: None,
        picture: None,
        transcript: None,
    };
    let mut words = std::env::args().skip(1);
    while let Some(word) = words.next() {
        let value = words.next()?;
        match word.as_str() {
            "--schedules" => wanted.schedules = value.parse().ok()?,
            "--seed" => wanted.seed = value.parse().ok()?,
            "--seconds" => wanted.seconds = value.parse().ok()?,
            "--processor-seconds" => wanted.processor_seconds = value.parse().ok()?,
            "--bug" => wanted.bug = Some(*BUGS.iter().find(|it| format!("{it:?}") == value)?),
            "--part" => wanted.part = Some(value.parse().ok()?),
            "--keep" => {
                wanted.kept = Kept::Only(value.split(',').map(numbered).collect::<Option<_>>()?)
            }
            "--picture" => wanted.picture = Some(value.parse().ok()?),
            "--show" => wanted.show = Some(value.parse().ok()?),
            "--transcript" => wanted.transcript = Some(value.parse().ok()?),
            _ => return None,
        }
    }
    Some(wanted)
}

/// Reads a numbered fault from this text.
fn numbered(text: &str) -> Option<NumberedFault> {
    let (name, number) = text.trim().rsplit_once(' ')?;
    let fault = Fault::ALL.into_iter().find(|it| it.name() == name)?;
    Some(NumberedFault {
        fault,
        number: number.parse().ok()?,
    })
}

/// Returns how much processor time this program has used.
fn processor_time() -> Duration {
    let spent = clock_gettime(ClockId::ProcessCPUTime);
    Duration::new(spent.tv_sec.unsigned_abs(), spent.tv_nsec as u32)
}

fn main() -> ExitCode {
    let Some(wanted) = wanted() else {
        eprintln!(
            "{USAGE}\nparts: {}\nbugs: {BUGS:?}",
            Part::ALL.map(|it| it.to_string()).join(", ")
        );
        return ExitCode::from(2);
    };
    if let Some(seed) = wanted.transcript {
        println!("{}", transcript(seed));
        return ExitCode::SUCCESS;
    }
    let plan = |seed| {
        let plan = Plan::new(seed, wanted.bug);
        Plan {
            kept: wanted.kept.clone(),
            part: wanted.part.unwrap_or(plan.part),
            ..plan
        }
    };
    match (wanted.show, wanted.picture) {
        (Some(seed), _) => show(&plan(seed)),
        (None, Some(seed)) => draw(plan(seed)),
        (None, None) => search(&wanted),
    }
}

/// Runs one schedule and draws it. If it breaks a law, the picture says so. Only the parts `processes`,
/// `fleet` and `server` have pictures.
fn draw(plan: Plan) -> ExitCode {
    let part = plan.part;
    let ran = run_by(&Plan {
        is_shown: true,
        ..plan
    });
    match ran.picture {
        Some(picture) => {
            print!("{picture}");
            ExitCode::SUCCESS
        }
        None => {
            eprintln!("simulation: there is no picture of {part}: use --show");
            ExitCode::from(2)
        }
    }
}

/// Runs schedules until one breaks a law, or until there are enough, or until the time is over.
fn search(wanted: &Options) -> ExitCode {
    let (begun, mut all, mut count) = (Instant::now(), Tally::default(), 0);
    let limit = Duration::from_secs(wanted.seconds.min(1 << 40));
    let of_processor = Duration::from_secs(wanted.processor_seconds.min(1 << 40));
    while count < wanted.schedules && begun.elapsed() < limit && processor_time() < of_processor {
        let seed = wanted.seed.wrapping_add(count);
        count += 1;
        for part in wanted.parts() {
            let plan = Plan {
                part,
                ..Plan::new(seed, wanted.bug)
            };
            let ran = run_by(&plan);
            all.add(&ran.tally);
            if let Err(broken) = ran.verdict {
                println!(
                    "broken by seed {seed}, schedule {count}, {part}: {}",
                    broken.law
                );
                let spent = processor_time().as_secs_f64();
                println!("found in {spent:.1} s of a processor");
                let faults = shrunk(&plan).unwrap_or_default();
                return show(&Plan {
                    kept: Kept::Only(faults.into_iter().collect()),
                    ..plan
                });
            }
        }
    }
    println!(
        "{count} schedules from seed {} kept the law: {all}",
        wanted.seed
    );
    let (passed, spent) = (all.passed_time as f64 / 1e3, processor_time().as_secs_f64());
    println!(
        "{passed:.0} s passed in {spent:.1} s of a processor: {:.0} s each",
        passed / spent
    );
    ExitCode::SUCCESS
}

/// Runs one schedule. Shows its timeline, the faults that struck, and the law that it broke.
fn show(plan: &Plan) -> ExitCode {
    let ran = run_by(&Plan {
        is_shown: true,
        ..plan.clone()
    });
    print!("{}", ran.timeline.unwrap_or_default());
    let struck: Vec<String> = ran.struck.iter().map(NumberedFault::to_string).collect();
    println!(
        "seed {}, {} faults: {}",
        plan.seed,
        struck.len(),
        struck.join(", ")
    );
    match ran.verdict {
        Ok(()) => {
            println!("all laws are kept");
            ExitCode::SUCCESS
        }
        Err(broken) => {
            println!("broken: {}\n{}", broken.law, broken.by);
            ExitCode::FAILURE
        }
    }
}
