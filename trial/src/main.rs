//! Calls servers for a while, beside moving shards and faults, and says whether their answers are those of one thread.
use clap::Parser;
use durkenzo_trial::{
    Call, CommandOutcome, Hand, History, KeyAnswer, KeyCommand, Mover, Report, RespClient,
    TrialPlan, Way,
};
use std::collections::VecDeque;
use std::path::{Path, PathBuf};
use std::process::ExitCode;
use std::sync::atomic::AtomicU64;
use std::thread;
use std::time::{Duration, Instant};

/// How long a last read is tried again.
const LAST: Duration = Duration::from_secs(60);

/// The exit statuses if no wrong answer was found, but a key isn't answered any more, or not all keys are decided.
const UNREAD: u8 = 3;
const UNDECIDED: u8 = 4;

/// Calls servers for Redis clients by chance while shards move and servers restart, and checks for each key that the
/// answers are those of one map on one thread.
#[derive(Parser)]
#[command(version)]
struct Options {
    /// The address of the server, or of several
    #[arg(long, default_value = "127.0.0.1:7379", value_delimiter = ',')]
    address: Vec<String>,
    /// How many clients call
    #[arg(long, default_value_t = 8)]
    clients: u64,
    /// How many of them follow the servers' routes
    #[arg(long, default_value_t = 0)]
    followers: u64,
    /// How many of them number their writes
    #[arg(long, default_value_t = 0)]
    numbered: u64,
    /// How many keys they call
    #[arg(long, default_value_t = 16)]
    keys: u64,
    /// How many of them only read, at the first server; if there are any, no other client begins there
    #[arg(long, default_value_t = 0)]
    readers: u64,
    /// After how many seconds other keys take their place, never if it is 0; at the end all keys are read
    #[arg(long, default_value_t = 0)]
    epoch: u64,
    /// How many seconds a client waits for a reply
    #[arg(long, default_value_t = 10)]
    patience: u64,
    /// For how many seconds clients call
    #[arg(long, default_value_t = 10)]
    seconds: u64,
    /// How many servers the server has
    #[arg(long, default_value_t = 4)]
    servers: u64,
    /// How many of its shards move, none if it is 0
    #[arg(long, default_value_t = 64)]
    shards: u64,
    /// After how many moves a server restarts, never if it is 0
    #[arg(long, default_value_t = 50)]
    restart_every: u64,
    /// The seed of chance
    #[arg(long, default_value_t = 1)]
    seed: u64,
    /// For at most how many seconds keys are judged
    #[arg(long, default_value_t = 120)]
    judging: u64,
    /// The folder for the calls of each key for which no order is known
    #[arg(long)]
    unexplained: Option<PathBuf>,
}

impl Options {
    fn plan(&self) -> TrialPlan {
        let start = Instant::now();
        TrialPlan {
            addresses: self.address.clone(),
            keys: self.keys,
            epoch: Some(Duration::from_secs(self.epoch)).filter(|it| !it.is_zero()),
            patience: Duration::from_secs(self.patience),
            start,
            end: start + Duration::from_secs(self.seconds),
            seed: self.seed,
            open: (0..self.keys).map(|_| AtomicU64::new(0)).collect(),
        }
    }

    /// Returns the turn of the server that the client of this name calls.
    fn turn(&self, name: u64) -> u64 {
        match self.way(name) {
            Way::Reads => 0,
            _ if self.readers == 0 => name,
            _ => 1 + name % (self.address.len() as u64).saturating_sub(1).max(1),
        }
    }

    /// Returns how the client of this name reaches servers.
    fn way(&self, name: u64) -> Way {
        match name {
            it if it < self.followers => Way::Routes,
            it if it < self.followers + self.numbered => Way::Numbers,
            it if it + self.readers >= self.clients => Way::Reads,
            _ => Way::Server,
        }
    }
}

fn main() -> ExitCode {
    let options = Options::parse();
    let plan = options.plan();
    // The keys of an epoch are new ones.
    if let Some(error) = plan.epoch.is_none().then(|| clear(&plan).err()).flatten() {
        eprintln!("trial: {} doesn't answer: {error}", plan.address(0));
        return ExitCode::from(2);
    }
    let (mut history, mover) = recorded(&options, &plan);
    let read = Instant::now();
    let unread = plan
        .epoch
        .map_or_else(Vec::new, |_| read_all(&plan, &mut history));
    eprintln!(
        "trial: {} keys are read at the end, in {:.0?}",
        history.calls.len(),
        read.elapsed()
    );
    let end = Instant::now() + Duration::from_secs(options.judging);
    let report = Report::of(&history, end);
    if let Some(folder) = &options.unexplained {
        if let Err(error) = write_unexplained(&history, &report, folder) {
            eprintln!("trial: {} can't be written: {error}", folder.display());
        }
    }
    tell(&history, &report, mover, &unread)
}

/// Writes the calls of each key for which no order is known, in the order of their beginnings.
fn write_unexplained(history: &History, report: &Report, folder: &Path) -> std::io::Result<()> {
    std::fs::create_dir_all(folder)?;
    for it in report.wrong.iter().chain(&report.undecided) {
        let mut calls: Vec<_> = history.calls.get(&it.key).into_iter().flatten().collect();
        calls.sort_by_key(|it| it.began);
        let lines = calls.into_iter().map(|it| {
            let Call {
                input,
                output,
                began,
                ended,
            } = it;
            format!("{began} {ended} {input:?} {output:?}\n")
        });
        std::fs::write(folder.join(&it.key), lines.collect::<String>())?;
    }
    Ok(())
}

/// Lets clients call until the end, while shards move. Returns their record.
fn recorded(options: &Options, plan: &TrialPlan) -> (History, Option<Mover>) {
    let mut history = History::default();
    let mover = thread::scope(|threads| {
        let work = |name| Hand::new(plan, name, options.way(name), options.turn(name)).work();
        let working: Vec<_> = (0..options.clients)
            .map(|name| threads.spawn(move || work(name)))
            .collect();
        let mut mover = Mover::connect(plan.address(0), options.servers, options.shards).ok();
        if let Some(mover) = mover.as_mut().filter(|_| options.shards > 0) {
            mover.work(options.restart_every, plan.end);
        }
        working.into_iter().for_each(|it| history.join(it.join()));
        mover
    });
    (history, mover)
}

/// Deletes all keys before the clients begin.
fn clear(plan: &TrialPlan) -> std::io::Result<()> {
    let mut client = RespClient::connect(plan.address(0), plan.patience)?;
    for key in 0..plan.keys {
        client.call(&["DEL", &plan.key(key)]).map_err(|it| it.0)?;
    }
    Ok(())
}

/// Reads each key a last time, at any server, and returns the keys that weren't read. A key that isn't answered comes
/// again after the others.
fn read_all(plan: &TrialPlan, history: &mut History) -> Vec<String> {
    let (end, mut client) = (Instant::now() + LAST, None);
    let mut left: VecDeque<String> = history.calls.keys().cloned().collect();
    let mut turn = 0;
    while Instant::now() < end {
        let Some(key) = left.pop_front() else {
            break;
        };
        match read(plan, &mut client, turn, &key, history) {
            Some(call) => history.calls.entry(key).or_default().push(call),
            None => {
                left.push_back(key);
                turn += 1;
                thread::sleep(Duration::from_millis(50));
            }
        }
    }
    left.into()
}

/// Reads the key at the server to which there is a connection, or at the server of this turn.
fn read(
    plan: &TrialPlan,
    client: &mut Option<RespClient>,
    turn: u64,
    key: &str,
    history: &mut History,
) -> Option<Call<KeyCommand, KeyAnswer>> {
    let began = plan.moment();
    let connect = || RespClient::connect(plan.address(turn), plan.patience).ok();
    let mut connected = client.take().or_else(connect)?;
    let answer = match CommandOutcome::of(&KeyCommand::Get, connected.call(&["GET", key])) {
        CommandOutcome::Answer(it) => it,
        CommandOutcome::Garbled(came) => {
            history.garbled.note(&format!("GET {key}"), &came);
            return None;
        }
        CommandOutcome::NotSent | CommandOutcome::Refused(_) | CommandOutcome::Unknown => {
            return None
        }
    };
    *client = Some(connected);
    Some(Call {
        input: KeyCommand::Get,
        output: Some(answer),
        began,
        ended: plan.moment(),
    })
}

/// Prints how many calls were made, and which of their answers are wrong.
fn tell(history: &History, report: &Report, mover: Option<Mover>, unread: &[String]) -> ExitCode {
    let (calls, unknown) = history.counts();
    let (moved, restarted) = mover.map_or((0, 0), |it| (it.moved, it.restarted));
    println!(
        "{calls} calls, {} refused, {unknown} without answer, {} sent again",
        history.refused(),
        history.again.values().sum::<u64>()
    );
    if moved + restarted > 0 {
        println!("{moved} shards moved, {restarted} servers restarted");
    }
    for (name, count) in &history.refusals {
        println!("refused {count} times by {name}");
    }
    for (why, count) in &history.again {
        println!("sent again {count} times after {why}");
    }
    if let Some(refusal) = &history.last_refusal {
        println!("the last refusal: {refusal}");
    }
    let (longest, number, began) = &report.longest;
    println!(
        "{} ms is the longest time without an answer of a key, of {number} from {} s on",
        longest / 1_000_000,
        began / 1_000_000_000
    );
    if let Some(first) = unread.first() {
        println!(
            "{} keys could not be read at the end, as {first}",
            unread.len()
        );
    }
    println!("{report}");
    match (report.is_right(), report.undecided.len(), unread.len()) {
        (true, 0, 0) => ExitCode::SUCCESS,
        (true, 0, _) => ExitCode::from(UNREAD),
        (true, ..) => ExitCode::from(UNDECIDED),
        (false, ..) => ExitCode::FAILURE,
    }
}
