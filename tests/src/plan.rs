//! The jobs: which cases are run. Each job's cases follow from the seed and the job's name alone,
//! whichever thread runs it.

use crate::calls::{
    BY_STATE, CALLS, Call, JUDGING, OF_ONE_HASH, OVER_ELEMENT, OVER_LOG, OVER_SLOT, OVER_STATE, OVER_TEXT,
};
use crate::generate::Generator;
use crate::generate::log::Pool;
use crate::harness::Harness;
use crate::rng::Rng;
use crate::sequence::slot::Way;
use crate::{paper, sequence, systematic};

/// So many random cases make a job.
const PART: u64 = 5_000;
/// So many lists of calls make a job.
const LISTS: u64 = 50;

type Work = Box<dyn Fn(&mut Harness, &mut Rng) + Send + Sync>;

pub struct Job {
    pub name: String,
    /// The calls that it has cases of, by which the self-test chooses jobs.
    calls: Vec<Call>,
    /// Whether its cases are those of one call's generator.
    #[cfg_attr(not(feature = "self-test"), allow(dead_code))]
    pub is_random: bool,
    work: Work,
}

impl Job {
    /// Whether it has cases of one of these calls.
    pub fn has_any(&self, calls: &[Call]) -> bool {
        self.calls.iter().any(|call| calls.contains(call))
    }

    pub fn run(&self, harness: &mut Harness, seed: u64) {
        harness.begin(seed, &self.name);
        (self.work)(harness, &mut Rng::new(seed, &self.name, 0));
    }
}

struct Plan(Vec<Job>);

impl Plan {
    fn add(&mut self, name: &str, calls: &[Call], work: impl Fn(&mut Harness, &mut Rng) + Send + Sync + 'static) {
        self.0.push(Job { name: name.to_string(), calls: calls.to_vec(), is_random: false, work: Box::new(work) });
    }
}

/// All jobs, with at least so many random cases of each call.
pub fn jobs(cases: u64) -> Vec<Job> {
    let mut plan = Plan(Vec::new());
    plan.add("paper", CALLS, |harness, _| paper::run(harness));
    systematic_jobs(&mut plan);
    sequence_jobs(&mut plan, cases);
    random_jobs(&mut plan, cases);
    plan.0
}

fn systematic_jobs(plan: &mut Plan) {
    log_jobs(plan);
    comparison_jobs(plan);
    plan.add("slot-states", OVER_SLOT, systematic::slot::states);
    plan.add("slot-totals", OVER_SLOT, systematic::slot::totals);
    plan.add("slot-payloads", OVER_SLOT, systematic::slot::payloads);
    plan.add("slot-header-bytes", OVER_SLOT, systematic::slot::header_bytes);
    plan.add("slot-header-limits", OVER_SLOT, systematic::slot::header_limits);
    plan.add("slot-roles-and-verdicts", OVER_SLOT, systematic::slot::roles_and_verdicts);
    plan.add("slot-buffer-lengths", OVER_SLOT, systematic::slot::buffer_lengths);
    plan.add("slot-refusals-at-once", OVER_SLOT, systematic::slot::refusals_at_once);
    plan.add("headers", &[Call::Header], |harness, _| systematic::message::headers(harness));
    plan.add("header-bytes", &[Call::Header], systematic::message::header_bytes);
    plan.add("command-bits-and-bodies", &[Call::Command], systematic::message::bits_and_bodies);
    plan.add("command-damaged", &[Call::Command], systematic::message::damaged);
    plan.add("command-response-lengths", &[Call::Command], systematic::message::response_lengths);
    plan.add("command-refusals-at-once", &[Call::Command], systematic::message::refusals_at_once);
    plan.add("element-regions", OVER_ELEMENT, systematic::element::regions);
    plan.add("element-damaged", OVER_ELEMENT, systematic::element::damaged);
    plan.add("element-lengths", OVER_ELEMENT, systematic::element::lengths);
    plan.add("element-types-and-counts", OVER_ELEMENT, systematic::element::types_and_counts);
    plan.add("element-indices", OVER_ELEMENT, systematic::element::indices);
    plan.add("element-absurd-lengths", OVER_ELEMENT, systematic::element::absurd_lengths);
    plan.add("meanings", &[Call::Meaning], systematic::meanings);
    hash_jobs(plan);
    binding_jobs(plan);
}

/// A job has the calls of one kind where it can, so that the self-test runs no others for a fault.
fn log_jobs(plan: &mut Plan) {
    for entries in [64, 12, 3, 1, 0] {
        plan.add(&format!("log-damaged-judged-{entries}"), JUDGING, move |harness, rng| {
            systematic::log::damaged(harness, JUDGING, entries, rng)
        });
        plan.add(&format!("log-damaged-unjudged-{entries}"), BY_STATE, move |harness, rng| {
            systematic::log::damaged(harness, BY_STATE, entries, rng)
        });
    }
    for entries in [64, 12, 3, 1] {
        let name = format!("log-text-damaged-{entries}");
        plan.add(&name, OVER_TEXT, move |harness, rng| systematic::log::damaged_texts(harness, entries, rng));
    }
    plan.add("log-sizes", OVER_LOG, systematic::log::sizes);
    plan.add("log-pmrs", BY_STATE, systematic::log::pmrs);
    plan.add("log-pmr-bytes", OVER_LOG, systematic::log::pmr_bytes);
    plan.add("log-other-runs", OVER_STATE, systematic::log::other_runs);
    plan.add("log-buffer-lengths", OVER_LOG, systematic::log::buffer_lengths);
    plan.add("log-text-lengths", OVER_TEXT, systematic::log::text_lengths);
    plan.add("log-legacy-texts", OVER_TEXT, systematic::log::legacy_texts);
    plan.add("log-refusals-at-once", OVER_STATE, systematic::log::refusals_at_once);
    plan.add("log-text-refusals-at-once", OVER_TEXT, systematic::log::text_refusals_at_once);
    plan.add("log-state-bytes", OVER_STATE, systematic::log_state::bytes);
    plan.add("log-state-number-bits", OVER_STATE, systematic::log_state::number_bits);
    plan.add("log-state-pairs", OVER_STATE, systematic::log_state::pairs);
    plan.add("log-state-without-entries", OVER_STATE, systematic::log_state::without_entries);
}

fn hash_jobs(plan: &mut Plan) {
    for &call in OF_ONE_HASH {
        let name = format!("messages-to-hash/{}", call.name());
        plan.add(&name, &[call], move |harness, rng| systematic::hash::messages(harness, call, rng));
    }
    plan.add("hash-messages", &[Call::Hash], systematic::hash::messages_by_type);
    plan.add("hash-types-and-buffers", &[Call::Hash], systematic::hash::types_and_buffers);
    plan.add("hash-refusals-at-once", &[Call::Hash], systematic::hash::refusals_at_once);
    plan.add("hash-undefined-messages", &[Call::Hash], systematic::hash::undefined_messages);
    plan.add("hash-matches-undefined-messages", &[Call::HashMatches], systematic::hash::compared_undefined_messages);
    plan.add("hash-matches-right", &[Call::HashMatches], systematic::hash::right_hashes);
    plan.add("hash-matches-bits", &[Call::HashMatches], systematic::hash::bits);
    plan.add("hash-matches-pairs", &[Call::HashMatches], systematic::hash::pairs);
    plan.add("hash-matches-lengths", &[Call::HashMatches], systematic::hash::hash_lengths);
    plan.add("hash-matches-types", &[Call::HashMatches], systematic::hash::compared_types);
}

fn binding_jobs(plan: &mut Plan) {
    plan.add("hmac-lengths", &[Call::HmacSha256], systematic::hmac::lengths);
    plan.add("hmac-keys", &[Call::HmacSha256], systematic::hmac::keys);
    plan.add("hmac-long", &[Call::HmacSha256], systematic::hmac::long);
    plan.add("hmac-undefined-lengths", &[Call::HmacSha256], systematic::hmac::undefined_lengths);
    plan.add("pairing-session-keys", &[Call::PairingKey], systematic::pairing::session_keys);
    plan.add("pairing-buffer-lengths", &[Call::PairingKey], systematic::pairing::buffer_lengths);
    plan.add("pairing-refusals-at-once", &[Call::PairingKey], systematic::pairing::refusals_at_once);
    plan.add("certificate-slots", &[Call::CertificateSlots], systematic::certificate_slots);
}

fn comparison_jobs(plan: &mut Plan) {
    for entries in [64, 12, 3, 1] {
        let name = format!("comparison-damaged-{entries}");
        plan.add(&name, &[Call::LogCompare], move |harness, rng| {
            systematic::comparison::damaged(harness, entries, rng)
        });
    }
    plan.add("comparison-places", &[Call::LogCompare], systematic::comparison::places);
    plan.add("comparison-digest-bits", &[Call::LogCompare], systematic::comparison::digest_bits);
    plan.add("comparison-sizes", &[Call::LogCompare], systematic::comparison::sizes);
    plan.add("comparison-text-lengths", &[Call::LogCompare], systematic::comparison::text_lengths);
    plan.add("comparison-refusals-at-once", &[Call::LogCompare], systematic::comparison::refusals_at_once);
}

/// Lists of calls, so many of each kind that they have some tenths of the random cases' number.
fn sequence_jobs(plan: &mut Plan, cases: u64) {
    for part in 0..(cases / 100).div_ceil(LISTS) {
        let name = format!("log-sequences/{part}");
        plan.add(&name, OVER_LOG, |harness, rng| {
            let pool = Pool::new(rng);
            (0..LISTS).for_each(|_| sequence::log::run(harness, &pool, rng))
        });
        for (name, way) in [("slot", Way::Calls), ("command", Way::Messages), ("mixed", Way::Both)] {
            let name = format!("{name}-sequences/{part}");
            plan.add(&name, OVER_SLOT, move |harness, rng| {
                (0..LISTS).for_each(|_| sequence::slot::run(harness, way, rng))
            });
        }
    }
}

fn random_jobs(plan: &mut Plan, cases: u64) {
    for &call in CALLS {
        for part in 0..cases.div_ceil(PART) {
            let count = PART.min(cases - part * PART);
            let work = move |harness: &mut Harness, rng: &mut Rng| random_cases(harness, call, count, rng);
            let name = format!("{}/{part}", call.name());
            plan.0.push(Job { name, calls: vec![call], is_random: true, work: Box::new(work) });
        }
    }
}

fn random_cases(harness: &mut Harness, call: Call, count: u64, rng: &mut Rng) {
    let generator = Generator::new(call, rng);
    for _ in 0..count {
        if harness.is_stopped() {
            return;
        }
        harness.run(generator.case(call, rng));
    }
}
