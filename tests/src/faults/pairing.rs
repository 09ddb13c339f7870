//! Faults of the pairing key, but for those of its MAC.

use super::{Fault, Found, fault};
use crate::calls::Call::PairingKey;
use crate::case::Case;
use crate::model::hmac::hmac;
use crate::model::pairing::KEY_LEN;
use crate::model::sha256::LIMIT;

/// What HMAC is given: the counter, the label, a zero byte and the length in bits.
pub const TEXT: &[u8] = b"\0\0\0\x01pairing\0\0\0\x01\0";
/// No buffer is longer where a fault writes to it whatever its length.
const LONGEST: usize = 4096;

#[rustfmt::skip]
pub const FAULTS: &[Fault] = &[
    fault("COUNTER_FROM_0", "the counter begins at 0", &[PairingKey],
        |found| by_text(found, b"\0\0\0\0pairing\0\0\0\x01\0")),
    fault("COUNTER_LOW_FIRST", "the counter is put low byte first", &[PairingKey],
        |found| by_text(found, b"\x01\0\0\0pairing\0\0\0\x01\0")),
    fault("SEPARATOR_LOST", "the zero byte behind the label is lost", &[PairingKey],
        |found| by_text(found, b"\0\0\0\x01pairing\0\0\x01\0")),
    fault("SECOND_ZERO", "the label has a zero byte of its own", &[PairingKey],
        |found| by_text(found, b"\0\0\0\x01pairing\0\0\0\0\x01\0")),
    fault("LENGTH_IN_BYTES", "the length is put in bytes", &[PairingKey],
        |found| by_text(found, b"\0\0\0\x01pairing\0\0\0\0\x20")),
    fault("LENGTH_LOW_FIRST", "the length is put low byte first", &[PairingKey],
        |found| by_text(found, b"\0\0\0\x01pairing\0\0\x01\0\0")),
    fault("LONGER_PAIRING", "a pairing buffer of 33 bytes is taken", &[PairingKey],
        |found| take_buffer(found, |len| len == KEY_LEN + 1)),
    fault("SHORTER_PAIRING", "a shorter pairing buffer gets the key's front", &[PairingKey],
        |found| take_buffer(found, |len| len < KEY_LEN)),
    fault("KEY_BEFORE_BUFFER", "2 comes before 3", &[PairingKey],
        |found| if found.answer == 3 && is_undefined(found.case) { found.refuse(2) }),
    fault("REFUSED_WRITTEN", "a pairing buffer is refused and written", &[PairingKey], |found| {
        if found.answer == 3 && !is_undefined(found.case) && found.case.len("pairing_key") <= LONGEST {
            put_front(found);
        }
    }),
];

fn is_undefined(case: &Case) -> bool {
    case.len("session_key") as u64 >= LIMIT
}

/// The session key's MAC of another text.
fn by_text(found: &mut Found, text: &[u8]) {
    if found.is_accepted() {
        *found.bytes("pairing_key") = hmac(found.case.bytes("session_key"), text).unwrap_or_default().to_vec();
    }
}

/// As much of the pairing key as there is room for.
fn put_front(found: &mut Found) {
    let key = hmac(found.case.bytes("session_key"), TEXT).unwrap_or_default();
    found.bytes("pairing_key").iter_mut().zip(key).for_each(|(byte, of_key)| *byte = of_key);
}

/// A buffer of another length is taken, if it is one of these.
fn take_buffer(found: &mut Found, is_taken: fn(usize) -> bool) {
    if found.answer == 3 && is_taken(found.case.len("pairing_key")) {
        if is_undefined(found.case) {
            return found.refuse(2);
        }
        found.answer = 0;
        put_front(found);
    }
}
