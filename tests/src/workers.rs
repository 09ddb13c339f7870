//! Runs jobs on several threads, shows how far they are, and stops a library that doesn't end.

use crate::case::Library;
use crate::harness::{Harness, Tallies};
use crate::plan::Job;
use std::io::{IsTerminal, Write};
use std::sync::atomic::{AtomicBool, AtomicU64, AtomicUsize, Ordering::Relaxed};
use std::thread;
use std::time::{Duration, Instant};

/// A single call ends in well under a millisecond; after so long it never will.
const STUCK: Duration = Duration::from_secs(120);
const SHOW_EVERY: Duration = Duration::from_secs(5);

/// What one worker is at.
struct Worker {
    job: AtomicUsize,
    cases: AtomicU64,
    at_work: AtomicBool,
}

/// All jobs' tallies.
pub fn run(library: &Library, jobs: &[&Job], seed: u64, threads: usize, progress: bool) -> Tallies {
    let next = AtomicUsize::new(0);
    let new = |_| Worker { job: AtomicUsize::new(0), cases: AtomicU64::new(0), at_work: AtomicBool::new(true) };
    let workers: Vec<Worker> = (0..threads).map(new).collect();
    thread::scope(|scope| {
        let next = &next;
        let begun: Vec<_> =
            workers.iter().map(|worker| scope.spawn(move || work(library, worker, jobs, seed, next))).collect();
        let watcher = scope.spawn(|| watch(&workers, jobs, next, progress));
        let mut tallies = Tallies::new();
        for worker in begun {
            tallies.add(&worker.join().unwrap_or_else(|_| std::process::exit(1)));
        }
        watcher.thread().unpark();
        tallies
    })
}

fn work(library: &Library, worker: &Worker, jobs: &[&Job], seed: u64, next: &AtomicUsize) -> Tallies {
    let mut harness = Harness::new(library, &worker.cases);
    loop {
        let number = next.fetch_add(1, Relaxed);
        let Some(job) = jobs.get(number) else { break };
        worker.job.store(number, Relaxed);
        job.run(&mut harness, seed);
    }
    worker.at_work.store(false, Relaxed);
    harness.tallies
}

fn watch(workers: &[Worker], jobs: &[&Job], next: &AtomicUsize, progress: bool) {
    let start = Instant::now();
    let mut seen = vec![(0, start); workers.len()];
    let mut shown = start;
    while workers.iter().any(|worker| worker.at_work.load(Relaxed)) {
        thread::park_timeout(Duration::from_millis(200));
        for (worker, seen) in workers.iter().zip(&mut seen) {
            stop_if_stuck(worker, seen, jobs);
        }
        if progress && shown.elapsed() >= SHOW_EVERY {
            shown = Instant::now();
            show(jobs, next, start);
        }
    }
    if progress && std::io::stderr().is_terminal() {
        eprint!("\r{:60}\r", "");
    }
}

/// `seen` has the worker's cases and when they were last seen to have become more.
fn stop_if_stuck(worker: &Worker, seen: &mut (u64, Instant), jobs: &[&Job]) {
    let cases = worker.cases.load(Relaxed);
    if cases != seen.0 || !worker.at_work.load(Relaxed) {
        *seen = (cases, Instant::now());
    } else if seen.1.elapsed() > STUCK {
        let job = jobs[worker.job.load(Relaxed)];
        println!("a call of job {} hasn't ended in {} s", job.name, STUCK.as_secs());
        std::process::exit(1);
    }
}

/// One line that is written over on a terminal, a line each time elsewhere.
fn show(jobs: &[&Job], next: &AtomicUsize, start: Instant) {
    let begun = next.load(Relaxed).min(jobs.len());
    let name = jobs.get(begun.saturating_sub(1)).map_or("", |job| job.name.as_str());
    let line = format!("{} of {} jobs, {} s, {name}", begun, jobs.len(), start.elapsed().as_secs());
    if std::io::stderr().is_terminal() {
        eprint!("\r{line:60}");
        std::io::stderr().flush().ok();
    } else {
        eprintln!("{line}");
    }
}
