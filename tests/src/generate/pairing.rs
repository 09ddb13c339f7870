//! Session keys, and buffers for the pairing key.

use super::hash::undefined_len;
use super::{absurd_len, hmac, wrong_len};
use crate::calls::Call;
use crate::case::Case;
use crate::model::pairing::KEY_LEN;
use crate::rng::Rng;

pub fn case(rng: &mut Rng) -> Case {
    let len = if rng.chance(80) { KEY_LEN } else { wrong_len(KEY_LEN, rng) };
    let case = of(hmac::bytes(rng), rng.filling(len));
    match rng.below(25) {
        0 => with_undefined_key(case, undefined_len(rng)),
        1 => case.claiming(1, absurd_len(KEY_LEN, rng), 3),
        _ => case,
    }
}

pub fn of(session_key: Vec<u8>, buffer: Vec<u8>) -> Case {
    Case::new(Call::PairingKey, &[], vec![session_key, buffer])
}

/// The same case with a session key that is too long for HMAC, of which no byte has to be looked at. The buffer is
/// judged first.
pub fn with_undefined_key(case: Case, len: usize) -> Case {
    let answer = if case.lent[1].len() == KEY_LEN { 2 } else { 3 };
    case.claiming(0, len, answer)
}
