//! Shows that the comparison finds faults: the model is put in the library's place without one, where nothing may
//! differ, and then with each of its faults, which each call named for it must show.

use crate::calls::{CALLS, Call};
use crate::case::Case;
use crate::faults::{Fault, faults, rights};
use crate::faulty::Faulty;
use crate::harness::{Harness, Tallies};
use crate::plan::{self, Job};
use crate::report::{self, thousands};
use crate::{Options, compare, workers};
use std::collections::BTreeMap;
use std::process::Command;
use std::sync::atomic::{AtomicU64, AtomicUsize, Ordering};
use std::sync::mpsc::channel;
use std::thread;
use std::time::Instant;

/// The fault that reads a byte outside of what was lent.
const READS_PAST: &str = "READS_PAST";

pub fn run(options: &Options) -> bool {
    if let Some(name) = &options.fault {
        return with_fault(options, name);
    }
    println!("the model in the library's place, without a fault");
    let start = Instant::now();
    if !compare(options, CALLS, &|case: &Case, at: &[*mut u8]| Faulty::Right.call(case, at)) {
        println!("it differs without a fault, so that its faults would show nothing");
        return false;
    }
    if options.job.is_some() {
        return true;
    }
    let jobs = plan::jobs(options.cases);
    let mut passed = rights_pass(&jobs, options);
    let faults: Vec<&Fault> = faults().collect();
    println!("\nthe model with one fault at a time, and the case of each call that showed it");
    let found = count_found(&faults, &jobs, options);
    passed &= found == faults.len();
    passed &= every_call_has_a_fault(&faults);
    passed &= empty_run_fails();
    passed &= read_outside_is_trapped(options);
    println!("{} s", start.elapsed().as_secs());
    println!("{found} of {} faults found{}", faults.len(), if passed { "" } else { ", and the self-test FAILED" });
    passed
}

/// One fault, of which all differences in its calls' jobs, or in one job, are counted.
fn with_fault(options: &Options, name: &str) -> bool {
    if name == READS_PAST {
        return compare(options, CALLS, &|case: &Case, at: &[*mut u8]| Faulty::ReadsPast.call(case, at));
    }
    match faults().find(|fault| fault.name == name) {
        Some(fault) => compare(options, fault.calls, &|case: &Case, at: &[*mut u8]| Faulty::With(fault).call(case, at)),
        None => {
            println!("there is no fault {name}");
            false
        }
    }
}

/// The code that the faults vary, by the right rules, differs nowhere.
fn rights_pass(jobs: &[Job], options: &Options) -> bool {
    rights().all(|right| {
        let concerned: Vec<&Job> = jobs.iter().filter(|job| job.has_any(right.calls)).collect();
        let library = move |case: &Case, at: &[*mut u8]| Faulty::With(right).call(case, at);
        let tallies = workers::run(&library, &concerned, options.seed, options.threads, false);
        let (cases, differences) = (thousands(tallies.cases()), tallies.differences());
        println!("{}: {cases} cases, {differences} differences", right.what);
        differences == 0
    })
}

/// How many faults are found, by several threads. They are shown in their order.
fn count_found(faults: &[&'static Fault], jobs: &[Job], options: &Options) -> usize {
    let (next, (done, finished)) = (AtomicUsize::new(0), channel());
    thread::scope(|scope| {
        for _ in 0..options.threads {
            let (next, done) = (&next, done.clone());
            scope.spawn(move || {
                while let Some(fault) = faults.get(next.fetch_add(1, Ordering::Relaxed)) {
                    let shown: Vec<_> = fault.calls.iter().map(|&call| shown_by(fault, call, jobs, options)).collect();
                    done.send((fault.name, shown)).ok();
                }
            });
        }
        drop(done);
        let mut waiting: BTreeMap<&str, Vec<Option<u64>>> = BTreeMap::new();
        let mut shown_in_order = |fault: &&Fault| loop {
            match waiting.remove(fault.name) {
                Some(shown) => return show(fault, &shown),
                None => match finished.recv() {
                    Ok((name, shown)) => drop(waiting.insert(name, shown)),
                    // The thread that had it was stopped by a panic.
                    Err(_) => return show(fault, &vec![None; fault.calls.len()]),
                },
            }
        };
        faults.iter().filter(|fault| shown_in_order(fault)).count()
    })
}

/// The number of the call's case that showed the fault first. The call's random cases come before all others.
fn shown_by(fault: &'static Fault, call: Call, jobs: &[Job], options: &Options) -> Option<u64> {
    let (library, done) = (move |case: &Case, at: &[*mut u8]| Faulty::With(fault).call(case, at), AtomicU64::new(0));
    let mut harness = Harness::new(&library, &done);
    harness.stop_at_difference_of(call);
    let concerned = || jobs.iter().filter(|job| job.has_any(&[call]));
    let random = concerned().filter(|job| job.is_random);
    for job in random.chain(concerned().filter(|job| !job.is_random)) {
        job.run(&mut harness, options.seed);
        if harness.is_stopped() {
            return Some(harness.tallies.of(call).cases);
        }
    }
    None
}

/// Whether every call showed the fault.
fn show(fault: &Fault, shown: &[Option<u64>]) -> bool {
    let is_found = shown.iter().all(Option::is_some);
    let short = |call: &Call| call.name().trim_start_matches("cerberus_").to_string();
    let case = |shown: &Option<u64>| shown.map_or("NEVER".to_string(), |case| case.to_string());
    let by_call: Vec<String> =
        fault.calls.iter().zip(shown).map(|(call, shown)| format!("{} {}", short(call), case(shown))).collect();
    println!("{}  {:58}  {}", if is_found { "found " } else { "MISSED" }, fault.what, by_call.join(", "));
    is_found
}

fn every_call_has_a_fault(faults: &[&Fault]) -> bool {
    let without: Vec<_> = CALLS.iter().filter(|call| !faults.iter().any(|fault| fault.calls.contains(call))).collect();
    without.iter().for_each(|call| println!("no fault is tried on {}", call.name()));
    without.is_empty()
}

/// A run without cases must not pass: each call lacks each of its answers, and cases at all.
fn empty_run_fails() -> bool {
    let lacking = report::missing(&Tallies::new(), 1).len();
    let all: usize = CALLS.iter().map(|call| call.signature().answers.len() + 1).sum();
    println!(
        "{}  a run that reaches nothing: {lacking} things missing",
        if lacking == all { "found " } else { "MISSED" }
    );
    lacking == all
}

/// A read outside of the lent memory stops the program that it happens in, so another one does it.
fn read_outside_is_trapped(options: &Options) -> bool {
    let program = std::env::current_exe().expect("the program's own file");
    let words = ["--fault", READS_PAST, "--job", "cerberus_log_reset/0", "--seed", &options.seed.to_string()];
    let output = Command::new(program).args(words).output().expect("the program starts itself");
    let said = String::from_utf8_lossy(&output.stderr);
    let trapped = !output.status.success() && said.contains("memory touched that wasn't lent");
    println!("{}  a read of the byte behind the buffer", if trapped { "found " } else { "MISSED" });
    trapped
}
