//! Runs cases on the library and on the model, compares all that they leave, and counts.

use crate::calls::{CALLS, Call, call_model};
use crate::case::{Case, Library, Outcome};
use crate::ffi::Kind;
use crate::memory::GuardedMemory;
use crate::model::ANSWERS;
use crate::rng::Rng;
use std::cell::Cell;
use std::fmt::Write;
use std::sync::atomic::{AtomicU64, Ordering};

/// The most memory that one call is lent.
const MEMORIES: usize = 6;
/// After so many cases every guard byte is looked at.
const SCAN_EVERY: u64 = 64;
/// So many differences of each call are shown in full.
const SHOWN: usize = 3;

/// What was seen of one call.
#[derive(Clone, Default)]
pub struct Tally {
    pub cases: u64,
    pub reached: [u64; ANSWERS],
    pub differences: u64,
    pub shown: Vec<String>,
}

impl Tally {
    fn add(&mut self, other: &Tally) {
        self.cases += other.cases;
        self.differences += other.differences;
        for (mine, theirs) in self.reached.iter_mut().zip(other.reached) {
            *mine += theirs;
        }
        let more = SHOWN.saturating_sub(self.shown.len());
        self.shown.extend(other.shown.iter().take(more).cloned());
    }
}

/// What was seen of every call, in the order of CALLS.
#[derive(Clone)]
pub struct Tallies(pub Vec<Tally>);

impl Tallies {
    pub fn new() -> Tallies {
        Tallies(vec![Tally::default(); CALLS.len()])
    }

    pub fn of(&self, call: Call) -> &Tally {
        &self.0[call as usize]
    }

    pub fn add(&mut self, other: &Tallies) {
        for (mine, theirs) in self.0.iter_mut().zip(&other.0) {
            mine.add(theirs);
        }
    }

    pub fn cases(&self) -> u64 {
        self.0.iter().map(|tally| tally.cases).sum()
    }

    pub fn differences(&self) -> u64 {
        self.0.iter().map(|tally| tally.differences).sum()
    }
}

/// Where a case comes from, so that it can be run again.
#[derive(Clone, Default)]
pub struct Origin {
    pub seed: u64,
    pub job: String,
    pub case: u64,
}

/// What one thread runs cases with.
pub struct Harness<'a> {
    memories: Vec<GuardedMemory>,
    placing: Rng,
    pub tallies: Tallies,
    origin: Origin,
    library: &'a Library,
    /// After a difference of this call nothing more is run.
    stop_at: Option<Call>,
    done: &'a AtomicU64,
}

thread_local! {
    /// The case under way, for whoever must say why the program stopped inside the library.
    static UNDER_WAY: Cell<*const (Origin, Case)> = const { Cell::new(std::ptr::null()) };
}

/// The case that this thread is inside the library with.
pub fn under_way() -> Option<String> {
    let case = UNDER_WAY.get();
    // SAFETY: set only while the pair is alive, in `library`.
    unsafe { case.as_ref() }.map(|(origin, case)| format!("{}\n{}", case.call.name(), described(origin, case)))
}

impl<'a> Harness<'a> {
    /// `done` counts the cases that were run, for whoever watches.
    pub fn new(library: &'a Library, done: &'a AtomicU64) -> Harness<'a> {
        Harness {
            memories: (0..MEMORIES).map(|_| GuardedMemory::new()).collect(),
            placing: Rng::new(0, "placing", 0),
            tallies: Tallies::new(),
            origin: Origin::default(),
            library,
            stop_at: None,
            done,
        }
    }

    #[cfg(feature = "self-test")]
    pub fn stop_at_difference_of(&mut self, call: Call) {
        self.stop_at = Some(call);
    }

    pub fn is_stopped(&self) -> bool {
        self.stop_at.is_some_and(|call| self.tallies.of(call).differences > 0)
    }

    /// The cases that follow are those of this job.
    pub fn begin(&mut self, seed: u64, job: &str) {
        self.placing = Rng::new(seed, job, u64::MAX);
        self.origin = Origin { seed, job: job.to_string(), case: 0 };
    }

    /// Runs a case and holds it to the model. The library's outcome, if it is the model's.
    pub fn run(&mut self, case: Case) -> Option<Outcome> {
        if self.is_stopped() {
            return None;
        }
        let expected = call_model(&case);
        self.expect_outcome(case, expected)
    }

    /// Runs a case and holds it to an expected outcome.
    pub fn expect_outcome(&mut self, case: Case, expected: Outcome) -> Option<Outcome> {
        if self.is_stopped() {
            return None;
        }
        self.origin.case += 1;
        let call = case.call;
        let (case, found, guards) = self.library(case);
        let tally = &mut self.tallies.0[call as usize];
        tally.cases += 1;
        if let Some(reached) = tally.reached.get_mut(usize::from(found.answer)) {
            *reached += 1;
        }
        self.done.fetch_add(1, Ordering::Relaxed);
        if guards && found == expected {
            return Some(found);
        }
        tally.differences += 1;
        if tally.shown.len() < SHOWN {
            let difference = difference(&case, &found, &expected, guards);
            tally.shown.push(difference + &described(&self.origin, &case));
        }
        None
    }

    /// What the library does with a case, and whether all guard bytes stand.
    fn library(&mut self, case: Case) -> (Case, Outcome, bool) {
        let memories = &mut self.memories[..case.lent.len()];
        let signature = case.call.signature();
        assert_eq!(signature.lent.len(), case.lent.len());
        assert_eq!(signature.numbers.len(), case.numbers.len());
        for ((memory, bytes), (_, kind)) in memories.iter_mut().zip(&case.lent).zip(signature.lent) {
            memory.place(bytes, *kind == Kind::Value, &mut self.placing);
        }
        let at: Vec<*mut u8> = memories.iter_mut().map(GuardedMemory::pointer).collect();
        let pair = (self.origin.clone(), case);
        UNDER_WAY.set(&pair);
        let answer = (self.library)(&pair.1, &at);
        UNDER_WAY.set(std::ptr::null());
        let lent = memories.iter_mut().map(GuardedMemory::take).collect();
        let mut guards = memories.iter_mut().all(GuardedMemory::near_guards_stand);
        if !guards || self.origin.case.is_multiple_of(SCAN_EVERY) {
            // Not all(): each memory is put right even if an earlier one was touched.
            guards &= self.memories.iter_mut().fold(true, |stand, memory| memory.all_guards_stand() & stand);
        }
        (pair.1, Outcome { answer, lent }, guards)
    }
}

/// In what the library's outcome is unlike the expected one.
fn difference(case: &Case, found: &Outcome, expected: &Outcome, guards: bool) -> String {
    let mut text = format!("{}\n", case.call.name());
    writeln!(text, "  answer: library {}, expected {}", found.answer, expected.answer).unwrap();
    for (i, (name, _)) in case.call.signature().lent.iter().enumerate() {
        let unlike = |at: &usize| found.lent[i][*at] != expected.lent[i][*at];
        let places: Vec<usize> = (0..expected.lent[i].len()).filter(unlike).collect();
        if let Some(&at) = places.first() {
            let (here, there) = (found.lent[i][at], expected.lent[i][at]);
            let count = places.len();
            writeln!(text, "  {name}: {count} bytes differ, first byte {at}: library {here:02x}, expected {there:02x}")
                .unwrap();
        }
    }
    if !guards {
        writeln!(text, "  a byte outside the lent memory was written").unwrap();
    }
    text
}

/// A case's origin and all that it is handed.
fn described(origin: &Origin, case: &Case) -> String {
    let signature = case.call.signature();
    let mut text = format!("  case {} of --seed {} --job {}\n", origin.case, origin.seed, origin.job);
    for (name, number) in signature.numbers.iter().zip(&case.numbers) {
        writeln!(text, "  {name} = {number:#x}").unwrap();
    }
    for ((name, _), bytes) in signature.lent.iter().zip(&case.lent) {
        writeln!(text, "  {name}, {} bytes: {}", bytes.len(), hex(bytes)).unwrap();
    }
    if let Some(claim) = case.claim {
        writeln!(text, "  {}'s length is passed as {:#x}", signature.lent[claim.lent].0, claim.len).unwrap();
    }
    text
}

/// Bytes in hex; a long run of one byte is shown as (byte x length).
fn hex(bytes: &[u8]) -> String {
    let mut text = String::new();
    for run in bytes.chunk_by(|a, b| a == b) {
        if run.len() >= 16 {
            write!(text, "({:02x} x {})", run[0], run.len()).unwrap();
        } else {
            run.iter().for_each(|byte| write!(text, "{byte:02x}").unwrap());
        }
    }
    text
}
