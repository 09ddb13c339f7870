//! Faults of HMAC, most of which the pairing key shows too.

use super::pairing::TEXT;
use super::{Fault, Found, fault};
use crate::calls::Call::{self, *};
use crate::model::hmac::hmac;
use crate::model::sha256::{LIMIT, sha256};

const BLOCK_LEN: usize = 64;
const IPAD: u8 = 0x36;
const OPAD: u8 = 0x5c;
const OF_MACS: &[Call] = &[HmacSha256, PairingKey];

pub type Hash = fn(&[u8]) -> [u8; 32];
/// The MAC of a key and a text.
type Mac = dyn Fn(&[u8], &[u8]) -> [u8; 32];

pub const RIGHT: Fault = fault("HMAC", "HMAC by the right rules", OF_MACS, |found| by_hash(found, sha256));

#[rustfmt::skip]
pub const FAULTS: &[Fault] = &[
    fault("PADS_EXCHANGED", "the inner and the outer pad are exchanged", OF_MACS,
        |found| by(found, |key, text| hmac_of(sha256, key, text, [OPAD, IPAD]))),
    fault("ONE_PAD", "the inner pad serves as the outer one too", OF_MACS,
        |found| by(found, |key, text| hmac_of(sha256, key, text, [IPAD, IPAD]))),
    fault("INNER_ALONE", "the outer hash is left out", OF_MACS,
        |found| by(found, |key, text| padded_hash(sha256, &block_key(sha256, key), IPAD, text))),
    fault("BLOCK_KEY_HASHED", "a key of exactly 64 bytes is hashed", OF_MACS,
        |found| by_key(found, |key| if key.len() == BLOCK_LEN { sha256(key).to_vec() } else { key.to_vec() })),
    fault("ANY_KEY_HASHED", "shorter keys are hashed too", OF_MACS,
        |found| by_key(found, |key| sha256(key).to_vec())),
    fault("KEY_CUT", "a longer key is cut and not hashed", OF_MACS,
        |found| by_key(found, |key| key[..key.len().min(BLOCK_LEN)].to_vec())),
    fault("KEY_AT_END", "a shorter key stands behind its zeros", OF_MACS,
        |found| by_key(found, |key| [&vec![0; BLOCK_LEN.saturating_sub(key.len())][..], key].concat())),
    fault("EMPTY_KEY", "an empty key is refused", OF_MACS,
        |found| if found.is_accepted() && found.case.lent[0].is_empty() { found.refuse(2) }),
    fault("EMPTY_TEXT", "an empty text is refused", &[HmacSha256],
        |found| if found.is_accepted() && found.case.bytes("text").is_empty() { found.refuse(2) }),
    fault("KEY_LIMIT", "a key of 2^61 bytes is taken", OF_MACS, |found| {
        if found.answer == 2 && found.case.passed_len(0) as u64 >= LIMIT {
            found.answer = 0;
            by_key(found, |_| Vec::new());
        }
    }),
    fault("TEXT_LIMIT", "a text of 2^61 - 64 bytes is taken", &[HmacSha256],
        |found| take_text(found, |len| len < LIMIT)),
    fault("TEXT_OVERFLOW", "64 plus the text's length is taken modulo 2^64", &[HmacSha256],
        |found| take_text(found, |len| len.wrapping_add(BLOCK_LEN as u64) < LIMIT)),
    fault("MAC_CLEARED", "a refused MAC clears its answer", &[HmacSha256],
        |found| if !found.is_accepted() { found.bytes("mac").fill(0) }),
];

/// The key, or a longer one's hash, and then zeros.
fn block_key(hash: Hash, key: &[u8]) -> Vec<u8> {
    let mut block = if key.len() > BLOCK_LEN { hash(key).to_vec() } else { key.to_vec() };
    block.resize(BLOCK_LEN, 0);
    block
}

fn padded_hash(hash: Hash, block: &[u8], pad: u8, text: &[u8]) -> [u8; 32] {
    hash(&block.iter().map(|byte| byte ^ pad).chain(text.iter().copied()).collect::<Vec<u8>>())
}

/// HMAC by any hash and any pads.
fn hmac_of(hash: Hash, key: &[u8], text: &[u8], [inner, outer]: [u8; 2]) -> [u8; 32] {
    let block = block_key(hash, key);
    padded_hash(hash, &block, outer, &padded_hash(hash, &block, inner, text))
}

/// Another MAC of what an accepted call was handed.
fn put(found: &mut Found, mac: &Mac) {
    let case = found.case;
    match case.call {
        HmacSha256 if found.is_accepted() => found.set("mac", &mac(case.bytes("key"), case.bytes("text"))),
        PairingKey if found.is_accepted() => {
            *found.bytes("pairing_key") = mac(case.bytes("session_key"), TEXT).to_vec()
        }
        _ => {}
    }
}

fn by(found: &mut Found, mac: fn(&[u8], &[u8]) -> [u8; 32]) {
    put(found, &mac);
}

/// The right MAC by another hash.
pub fn by_hash(found: &mut Found, hash: Hash) {
    put(found, &move |key, text| hmac_of(hash, key, text, [IPAD, OPAD]));
}

/// The right MAC under another key.
fn by_key(found: &mut Found, other: fn(&[u8]) -> Vec<u8>) {
    put(found, &move |key, text| hmac(&other(key), text).unwrap_or_default());
}

/// A text that is too long is taken, if it is one of these. It is taken as empty, since no byte of it may be looked at.
fn take_text(found: &mut Found, is_taken: fn(u64) -> bool) {
    let len = found.case.len("text") as u64;
    if found.answer == 2 && found.case.len("key") < LIMIT as usize && is_taken(len) {
        found.answer = 0;
        by(found, |key, _| hmac(key, &[]).unwrap_or_default());
    }
}
