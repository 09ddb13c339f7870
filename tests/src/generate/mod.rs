//! The inputs. Each generator breaks several rules at once now and then, so that the order of the
//! refusals shows; what the answer is, the model says.

pub mod comparison;
pub mod element;
pub mod hash;
pub mod hmac;
pub mod log;
pub mod log_state;
pub mod message;
pub mod pairing;
pub mod slot;

use crate::calls::{Call, FROM_LOGS};
use crate::case::Case;
use crate::model::log::ENTRY_LEN;
use crate::rng::Rng;
use log::LEGACY_ENTRY_LEN;

/// A random case of a call.
pub struct Generator {
    logs: Option<log::Pool>,
}

impl Generator {
    /// The logs that cases are made from are built once, as they cost a hash for each entry.
    pub fn new(call: Call, rng: &mut Rng) -> Generator {
        Generator { logs: FROM_LOGS.contains(&call).then(|| log::Pool::new(rng)) }
    }

    pub fn case(&self, call: Call, rng: &mut Rng) -> Case {
        match (call, &self.logs) {
            (Call::Meaning, _) => meaning(rng),
            (Call::Sha256 | Call::Sha384 | Call::Sha512, _) => hash::of_one_kind(call, rng),
            (Call::Hash, _) => hash::by_type(rng),
            (Call::HashMatches, _) => hash::compared(rng),
            (Call::HmacSha256, _) => hmac::case(rng),
            (Call::PairingKey, _) => pairing::case(rng),
            (Call::CertificateSlots, _) => certificate_slots_case(rng.byte(), rng),
            (Call::LogReset, _) => log::reset(rng),
            (Call::LogReplay, Some(pool)) => log::replay(pool, rng),
            (Call::LogTextVerdict, Some(pool)) => log::text_verdict(pool, rng),
            (Call::LogCompare, Some(pool)) => comparison::case(pool, rng),
            (_, Some(pool)) => log::over_state(call, pool, rng),
            (Call::SlotOpen, _) => slot::open(rng),
            (Call::SlotPrepare, _) => slot::prepare(rng),
            (Call::SlotUpdate, _) => slot::update(rng),
            (Call::SlotActivate, _) => slot::activate(rng),
            (Call::SlotManifest, _) => slot::manifest(rng),
            (Call::Header, _) => message::header(rng),
            (Call::Command, _) => message::command(rng),
            _ => element::case(call, rng),
        }
    }
}

/// The call for a number's meaning.
fn meaning(rng: &mut Rng) -> Case {
    let number = if rng.chance(60) { rng.below(15) as u8 } else { rng.byte() };
    let len = rng.pick(&[0, 1, 79, 80, 81, 100, 160]);
    let len = if rng.chance(60) { 80 + rng.below(40) } else { len };
    meaning_case(number, rng.bytes(len), rng)
}

pub fn meaning_case(number: u8, text: Vec<u8>, rng: &mut Rng) -> Case {
    Case::new(Call::Meaning, &[u64::from(number)], vec![text, size(rng)])
}

/// The call for a slot mask.
pub fn certificate_slots_case(mask: u8, rng: &mut Rng) -> Case {
    Case::new(Call::CertificateSlots, &[u64::from(mask)], vec![rng.bytes(1), rng.bytes(1)])
}

/// Memory for an answer, of which a refused call leaves every byte.
pub fn size(rng: &mut Rng) -> Vec<u8> {
    rng.bytes(8)
}

/// A length near or far from the right one, and seldom the right one itself.
pub fn wrong_len(right: usize, rng: &mut Rng) -> usize {
    let legacy = right / ENTRY_LEN * LEGACY_ENTRY_LEN;
    let entries = [right.saturating_sub(ENTRY_LEN), right + ENTRY_LEN, legacy];
    let near = [0, 1, right.saturating_sub(1), right + 1, right / 2, 2 * right, rng.pick(&entries), rng.pick(&entries)];
    if rng.chance(80) { rng.pick(&near) } else { rng.below(2 * right + 2) }
}

/// A length that no memory has.
pub fn absurd_len(right: usize, rng: &mut Rng) -> usize {
    let entries = [usize::MAX - (ENTRY_LEN - 1), usize::MAX / ENTRY_LEN * ENTRY_LEN];
    let absurd = [usize::MAX, 1 << 63, (1 << 32) + right, (1 << 63) + right, entries[0], entries[1]];
    rng.pick(&absurd)
}

/// A 32-bit number, often at an edge.
pub fn word(rng: &mut Rng) -> u32 {
    match rng.below(3) {
        0 => rng.pick(&[0, 1, 10, 0x7fff_ffff, 0x8000_0000, 0xffff_fffe, 0xffff_ffff]),
        1 => rng.below(0x2000) as u32,
        _ => rng.next() as u32,
    }
}

/// Flips bits of one byte.
pub fn damage(bytes: &mut [u8], at: usize, rng: &mut Rng) {
    let bits = if rng.chance(70) { 1 << rng.below(8) } else { 1 + rng.below(255) as u8 };
    bytes[at] ^= bits;
}
