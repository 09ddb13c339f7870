//! HMAC-SHA-256 by FIPS 198-1, section 4.

use super::sha256::{LIMIT, sha256};
use super::{Answer, Refusal, demand};
use std::cmp::Ordering;

/// B, the length of SHA-256's block.
const BLOCK_LEN: usize = 64;
const IPAD: u8 = 0x36;
const OPAD: u8 = 0x5c;

/// The MAC of a text under a key.
pub fn hmac(key: &[u8], text: &[u8]) -> Answer<[u8; 32]> {
    judge_lengths(key.len() as u64, text.len() as u64)?;
    let k0 = block_key(key);
    let inner = sha256(&[&padded(&k0, IPAD), text].concat());
    Ok(sha256(&[&padded(&k0, OPAD)[..], &inner].concat()))
}

/// A key is a message of its own; the text is one together with the block before it.
fn judge_lengths(key_len: u64, text_len: u64) -> Answer<()> {
    demand(key_len < LIMIT, Refusal::BadLength)?;
    demand(text_len < LIMIT - BLOCK_LEN as u64, Refusal::BadLength)
}

/// Steps 1 to 3: K0, which is as long as a block.
fn block_key(key: &[u8]) -> Vec<u8> {
    match key.len().cmp(&BLOCK_LEN) {
        Ordering::Equal => key.to_vec(),
        Ordering::Greater => with_zeros(&sha256(key)),
        Ordering::Less => with_zeros(key),
    }
}

fn with_zeros(front: &[u8]) -> Vec<u8> {
    let mut block = front.to_vec();
    block.resize(BLOCK_LEN, 0);
    block
}

/// Steps 4 and 7: K0 exclusive-or the pad's byte, repeated.
fn padded(k0: &[u8], pad: u8) -> Vec<u8> {
    k0.iter().map(|byte| byte ^ pad).collect()
}
