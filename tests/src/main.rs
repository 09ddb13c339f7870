//! Compares libcerberus.a with an implementation of document 01 written from the papers alone.

mod calls;
mod case;
mod crash;
mod declarations;
#[cfg(feature = "self-test")]
mod faults;
#[cfg(feature = "self-test")]
mod faulty;
mod ffi;
mod generate;
mod harness;
mod installed;
mod marshal;
mod memory;
mod model;
mod openssl;
mod paper;
mod plan;
mod report;
mod rng;
#[cfg(feature = "self-test")]
mod selftest;
mod sequence;
mod systematic;
mod workers;

use calls::{CALLS, Call};
use case::Library;
use harness::Tallies;
use plan::Job;
use report::thousands;
use std::path::PathBuf;
use std::process::ExitCode;
use std::time::Instant;

/// So many random cases of each call; fewer are enough to show a fault.
const CASES: u64 = if cfg!(feature = "self-test") { 5_000 } else { 100_000 };
/// So many differences are shown in full.
const SHOWN: usize = 5;

#[derive(Clone)]
pub struct Options {
    cases: u64,
    seed: u64,
    threads: usize,
    job: Option<String>,
    /// The fault of the self-test that is tried alone; it starts itself with one.
    #[cfg_attr(not(feature = "self-test"), allow(dead_code))]
    fault: Option<String>,
    /// Where files may be written for a while.
    scratch: PathBuf,
}

const USAGE: &str = "\
options: --cases N    at least N random cases of each call (default 100000, for the self-test 5000)
         --seed S     the seed of all random numbers (default 1)
         --threads T  threads (default: the machine's processors)
         --job NAME   only the job of this name, as a difference names it
         --scratch D  the folder for temporary files";

fn options() -> Result<Options, String> {
    let threads = std::thread::available_parallelism().map_or(2, usize::from);
    let scratch = std::env::temp_dir();
    let mut options = Options { cases: CASES, seed: 1, threads, job: None, fault: None, scratch };
    let mut words = std::env::args().skip(1);
    while let Some(word) = words.next() {
        let value = words.next().ok_or(format!("{word} needs a value"))?;
        let number = || value.parse::<u64>().map_err(|_| format!("{word} needs a number, not {value}"));
        match word.as_str() {
            "--cases" => options.cases = number()?.max(1),
            "--seed" => options.seed = number()?,
            "--threads" => options.threads = number()?.clamp(1, 64) as usize,
            "--job" => options.job = Some(value),
            "--scratch" => options.scratch = value.into(),
            "--fault" if cfg!(feature = "self-test") => options.fault = Some(value),
            _ => return Err(format!("unknown option {word}")),
        }
    }
    Ok(options)
}

fn main() -> ExitCode {
    if std::env::args().nth(1).is_some_and(|word| word == "--declarations") {
        print!("{}", declarations::in_c());
        return ExitCode::SUCCESS;
    }
    let options = match options() {
        Ok(options) => options,
        Err(message) => {
            eprintln!("{message}\n{USAGE}");
            return ExitCode::from(2);
        }
    };
    crash::report_crashes();
    #[cfg(feature = "self-test")]
    let passed = selftest::run(&options);
    #[cfg(not(feature = "self-test"))]
    let passed = compare(&options, CALLS, &calls::call_library);
    if passed { ExitCode::SUCCESS } else { ExitCode::FAILURE }
}

/// The comparison of all calls, or of the jobs that have some of them, with its table. Whether nothing differs and
/// nothing is missing.
pub fn compare(options: &Options, calls: &[Call], library: &Library) -> bool {
    let start = Instant::now();
    println!("seed {}, at least {} cases of each call, {} threads", options.seed, options.cases, options.threads);
    let jobs = plan::jobs(options.cases);
    let chosen = chosen(&jobs, calls, options);
    if chosen.is_empty() {
        println!("there is no such job");
        return false;
    }
    let tallies = workers::run(library, &chosen, options.seed, options.threads, true);
    let mut differences = tallies.differences();
    let mut missing = Vec::new();
    if options.job.is_none() && calls.len() == CALLS.len() {
        differences += installed(options, library);
        missing = report::missing(&tallies, options.cases);
    }
    println!("\n{}", report::table(&tallies));
    show_differences(&tallies);
    missing.iter().for_each(|missing| println!("missing: {missing}"));
    println!("{} s", start.elapsed().as_secs());
    let unreached = if missing.is_empty() { String::new() } else { format!(", {} missing", missing.len()) };
    println!("{} cases, {differences} differences{unreached}", thousands(tallies.cases()));
    differences == 0 && missing.is_empty()
}

fn chosen<'a>(jobs: &'a [Job], calls: &[Call], options: &Options) -> Vec<&'a Job> {
    let is_named = |job: &Job| options.job.as_ref().is_none_or(|name| *name == job.name);
    jobs.iter().filter(|job| job.has_any(calls) && is_named(job)).collect()
}

fn show_differences(tallies: &Tallies) {
    let shown = tallies.0.iter().flat_map(|tally| &tally.shown);
    for (number, difference) in shown.take(SHOWN).enumerate() {
        println!("difference {}: {difference}", number + 1);
    }
}

/// The number of values of which the machine's own tools say something else.
fn installed(options: &Options, library: &Library) -> u64 {
    let hashes = installed::compare(library, &options.scratch.join("hashes"), options.seed);
    let macs = openssl::compare(library, &options.scratch.join("openssl"), options.seed);
    show_installed(installed::WHAT, hashes) + show_installed(openssl::WHAT, macs)
}

fn show_installed(what: &str, compared: std::io::Result<(usize, Vec<String>)>) -> u64 {
    match compared {
        Ok((values, differences)) => {
            let count = differences.len();
            println!("{what}: {} values, {count} differences", thousands(values as u64));
            differences.iter().take(SHOWN).for_each(|difference| println!("{difference}"));
            count as u64
        }
        Err(error) => {
            println!("{what}: {error}");
            1
        }
    }
}
