//! Cases that are gone through one by one: every byte damaged, every length, every number at its
//! limits, and every set of broken rules at once.

pub mod comparison;
pub mod element;
pub mod hash;
pub mod hmac;
pub mod log;
pub mod log_state;
pub mod message;
pub mod pairing;
pub mod slot;

use crate::generate::{certificate_slots_case, meaning_case};
use crate::harness::Harness;
use crate::rng::Rng;

/// Every number with every length of text.
pub fn meanings(harness: &mut Harness, rng: &mut Rng) {
    for number in 0..=255 {
        for len in 0..=100 {
            let text = rng.bytes(len);
            harness.run(meaning_case(number, text, rng));
        }
    }
}

/// Every slot mask, with several bytes where the answers go.
pub fn certificate_slots(harness: &mut Harness, rng: &mut Rng) {
    for mask in 0..=255 {
        for _ in 0..20 {
            harness.run(certificate_slots_case(mask, rng));
        }
    }
}

/// Whether rule `rule` is broken in the set of broken rules that `set` stands for.
fn broken(set: u32, rule: u32) -> bool {
    set >> rule & 1 == 1
}
