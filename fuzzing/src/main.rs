//! `durkenzo-fuzzing TARGET ..` gives one target spoilt bytes; tools/fuzz-parsers runs it.
use clap::Parser;
use durkenzo_fuzzing::fuzzer::{self, Fuzzer};
use durkenzo_fuzzing::target;
use std::fs::{self, File};
use std::path::{Path, PathBuf};
use std::process::ExitCode;
use std::time::Duration;

/// Gives a parser spoilt bytes.
#[derive(Parser)]
#[command(version)]
struct Options {
    /// Which parser
    target: String,
    /// For how long, in seconds
    #[arg(long, default_value_t = 2)]
    seconds: u64,
    /// The seed of chance
    #[arg(long, default_value_t = 1)]
    seed: u64,
    /// Files to begin with
    #[arg(long)]
    corpus: Vec<PathBuf>,
    /// A folder for its files, in which `current` has the bytes of the present input
    #[arg(long)]
    room: PathBuf,
    /// Tries only this file
    #[arg(long)]
    input: Option<PathBuf>,
    /// Writes the inputs that it kept into this folder
    #[arg(long)]
    keep: Option<PathBuf>,
}

fn main() -> ExitCode {
    match run(&Options::parse()) {
        Ok(told) => {
            println!("{told}");
            ExitCode::SUCCESS
        }
        Err(why) => {
            println!("{why}");
            ExitCode::FAILURE
        }
    }
}

fn run(options: &Options) -> Result<String, String> {
    let Some(mut target) = target::of(&options.target, &options.room) else {
        let names: Vec<_> = target::TARGETS.iter().map(|it| it.0).collect();
        return Err(format!("the targets are {}", names.join(", ")));
    };
    fuzzer::count_panics();
    let (mut seeds, time) = match &options.input {
        Some(file) => (vec![read(file)?], Duration::ZERO),
        None => (target.seeds(), Duration::from_secs(options.seconds)),
    };
    for file in &options.corpus {
        seeds.push(read(file)?);
    }
    let current = File::create(options.room.join("current")).map_err(|it| it.to_string())?;
    let mut fuzzer = Fuzzer::new(&mut *target, current, options.seed);
    let found = fuzzer.run(seeds, time);
    let told = told(&options.target, &fuzzer);
    if let Some(folder) = &options.keep {
        keep(folder, fuzzer.population()).map_err(|it| it.to_string())?;
    }
    match found {
        Ok(()) => Ok(told),
        Err((why, input)) => {
            let file = options.room.join("wrong");
            fs::write(&file, input).map_err(|it| it.to_string())?;
            Err(format!("{told}\n{}: {why}", options.target))
        }
    }
}

fn read(file: &Path) -> Result<Vec<u8>, String> {
    fs::read(file).map_err(|it| format!("{}: {it}", file.display()))
}

fn told(name: &str, fuzzer: &Fuzzer<'_>) -> String {
    let ((kept, branches), figures) = (fuzzer.reached(), &fuzzer.figures);
    format!(
        "{name}: {} inputs, {kept} kept, {branches} branches, longest {:.1} ms, most {} KB, {} MB in the end",
        figures.inputs,
        figures.longest.as_secs_f64() * 1e3,
        figures.most >> 10,
        fuzzer::pages() >> 8,
    )
}

fn keep(folder: &Path, population: &[Vec<u8>]) -> std::io::Result<()> {
    fs::create_dir_all(folder)?;
    for (number, input) in population.iter().enumerate() {
        fs::write(folder.join(format!("{number:05}")), input)?;
    }
    Ok(())
}
