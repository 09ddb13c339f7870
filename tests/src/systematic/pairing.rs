//! Pairing keys.

use crate::generate::absurd_len;
use crate::generate::pairing::{of, with_undefined_key};
use crate::harness::Harness;
use crate::model::pairing::KEY_LEN;
use crate::rng::Rng;

const SESSION_KEYS: [usize; 7] = [0, 1, 32, 63, 64, 65, 200];

/// Every length of session key with several fillings.
pub fn session_keys(harness: &mut Harness, rng: &mut Rng) {
    for len in (0..=200).chain([1000, 4096, 60_000]) {
        let counting = (0..len).map(|i| i as u8).collect();
        for key in [vec![0; len], vec![0xff; len], counting, rng.bytes(len), rng.bytes(len)] {
            harness.run(of(key, rng.filling(KEY_LEN)));
        }
    }
}

/// Every length of the lent buffer up to some past the right one, and some whose low bits are its.
pub fn buffer_lengths(harness: &mut Harness, rng: &mut Rng) {
    for len in (0..=70).chain([96, 128, 255, 256, 256 + KEY_LEN, 4096 + KEY_LEN]) {
        for key_len in SESSION_KEYS {
            let key = rng.bytes(key_len);
            harness.run(of(key, rng.filling(len)));
        }
    }
    for _ in 0..50 {
        let case = of(rng.bytes(KEY_LEN), rng.bytes(KEY_LEN));
        harness.run(case.claiming(1, absurd_len(KEY_LEN, rng), 3));
    }
}

/// Session keys of a length that no memory has, with buffers that are right and wrong: 3 comes before 2. A key of
/// 2^61 - 1 bytes is permitted and would be read.
pub fn refusals_at_once(harness: &mut Harness, rng: &mut Rng) {
    for undefined in [1 << 61, (1 << 61) + 1, 1 << 62, 1 << 63, (1 << 63) + 32, usize::MAX] {
        for len in 0..=70 {
            for key_len in SESSION_KEYS {
                let case = of(rng.bytes(key_len), rng.bytes(len));
                harness.run(with_undefined_key(case, undefined));
            }
        }
    }
}
