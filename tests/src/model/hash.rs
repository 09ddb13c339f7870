//! The hash of a manifest's hash type: the types are document 01's, SHA-384 and SHA-512 behind 1 and 2 are document 02's,
//! Item 8, and the order of the refusals is the header's.

use super::sha256::{LIMIT, sha256};
use super::sha512::{sha384, sha512};
use super::{Answer, Refusal, demand};

/// The bytes of a hash of this type.
pub fn hash_len(hash_type: u8) -> Answer<usize> {
    match hash_type {
        0 => Ok(32),
        1 => Ok(48),
        2 => Ok(64),
        _ => Err(Refusal::MalformedElement),
    }
}

/// What is refused by the type and the lengths, in the header's order: 12, 3, 2. No message is too long but for SHA-256.
pub fn judge(hash_type: u8, message_len: u64, buffer_len: u64) -> Answer<()> {
    demand(buffer_len == hash_len(hash_type)? as u64, Refusal::WrongBuffer)?;
    demand(hash_type != 0 || message_len < LIMIT, Refusal::BadLength)
}

/// Fills a buffer of exactly the type's length.
pub fn hash(hash_type: u8, message: &[u8], buffer: &mut [u8]) -> Answer<()> {
    judge(hash_type, message.len() as u64, buffer.len() as u64)?;
    buffer.copy_from_slice(&digest(hash_type, message)?);
    Ok(())
}

/// Whether these bytes, all of them, are the message's hash of this type; no bytes are one where there is none.
pub fn matches(hash_type: u8, message: &[u8], hash: &[u8]) -> bool {
    let judged = judge(hash_type, message.len() as u64, hash.len() as u64);
    judged.is_ok() && digest(hash_type, message) == Ok(hash.to_vec())
}

/// The digest of a message that has one.
pub fn digest(hash_type: u8, message: &[u8]) -> Answer<Vec<u8>> {
    match hash_type {
        0 => Ok(sha256(message).to_vec()),
        1 => Ok(sha384(message).to_vec()),
        2 => Ok(sha512(message).to_vec()),
        _ => Err(Refusal::MalformedElement),
    }
}
