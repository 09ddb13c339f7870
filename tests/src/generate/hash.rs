//! Messages to hash, buffers for their hashes, and hashes that may be theirs.

use super::element::hash_len;
use super::{absurd_len, damage};
use crate::calls::Call;
use crate::case::Case;
use crate::model::hash::{digest, judge};
use crate::rng::Rng;

/// Lengths at the edges of the padding and of a block, of 64 bytes and of 128.
const EDGES: [usize; 25] =
    [0, 1, 54, 55, 56, 57, 63, 64, 65, 111, 112, 113, 118, 119, 120, 127, 128, 129, 239, 240, 241, 255, 256, 257, 1100];
/// FIPS 180-4 defines no SHA-256 from here on.
pub const LIMIT: usize = 1 << 61;

fn message(rng: &mut Rng) -> Vec<u8> {
    let len = match rng.below(20) {
        0..6 => rng.pick(&EDGES),
        6..19 => rng.below(400),
        _ => rng.below(20_000),
    };
    rng.filling(len)
}

/// The call of one hash.
pub fn of_one_kind(call: Call, rng: &mut Rng) -> Case {
    if call == Call::Sha256 && rng.chance(2) {
        return too_long(rng);
    }
    of_message(call, message(rng), rng)
}

pub fn of_message(call: Call, message: Vec<u8>, rng: &mut Rng) -> Case {
    let digest_len = match call {
        Call::Sha256 => 32,
        Call::Sha384 => 48,
        _ => 64,
    };
    Case::new(call, &[], vec![message, rng.bytes(digest_len)])
}

/// A length that no SHA-256 is defined for, and that no memory has.
pub fn undefined_len(rng: &mut Rng) -> usize {
    let random = LIMIT + (rng.next() % (usize::MAX - LIMIT) as u64) as usize;
    rng.pick(&[LIMIT, LIMIT + 1, LIMIT + 64, 1 << 62, 1 << 63, usize::MAX, random])
}

/// No memory is so long, and no byte of it has to be looked at.
fn too_long(rng: &mut Rng) -> Case {
    let len = undefined_len(rng);
    of_message(Call::Sha256, few(rng), rng).claiming(0, len, 2)
}

/// What stands at the front of a message that no memory holds, often nothing.
fn few(rng: &mut Rng) -> Vec<u8> {
    let len = if rng.chance(30) { 0 } else { rng.below(80) };
    rng.bytes(len)
}

/// Any type, most often one that there is.
fn hash_type(rng: &mut Rng) -> u8 {
    if rng.chance(90) { rng.pick(&[0, 0, 0, 1, 1, 1, 2, 2, 2, 3]) } else { rng.byte() }
}

/// The call for the hash of a type.
pub fn by_type(rng: &mut Rng) -> Case {
    let hash_type = hash_type(rng);
    let buffer = buffer(hash_type, rng);
    match rng.below(25) {
        0 => with_undefined_message(of_type(rng.pick(&[0, hash_type]), few(rng), buffer), undefined_len(rng)),
        1 => with_absurd_buffer(of_type(hash_type, message(rng), buffer), rng),
        _ => of_type(hash_type, message(rng), buffer),
    }
}

pub fn of_type(hash_type: u8, message: Vec<u8>, buffer: Vec<u8>) -> Case {
    Case::new(Call::Hash, &[u64::from(hash_type)], vec![message, buffer])
}

/// A buffer of the type's length, or of another type's, one off, or empty.
fn buffer(hash_type: u8, rng: &mut Rng) -> Vec<u8> {
    let right = hash_len(hash_type);
    let near = [0, right - 1, right + 1, 32, 48, 64, rng.below(2 * right)];
    let len = if rng.chance(75) { right } else { rng.pick(&near) };
    rng.filling(len)
}

/// The same case with a message that no memory holds, if it is refused and no byte has to be looked at. SHA-384 and
/// SHA-512 would read it where the buffer is right.
pub fn with_undefined_message(case: Case, len: usize) -> Case {
    match refusal(&case, len, case.lent[1].len()) {
        0 => case,
        number => case.claiming(0, len, number),
    }
}

/// The same case with a buffer that is longer than any memory.
pub fn with_absurd_buffer(case: Case, rng: &mut Rng) -> Case {
    let len = absurd_len(hash_len(case.numbers[0] as u8), rng);
    let number = refusal(&case, case.lent[0].len(), len);
    case.claiming(1, len, number)
}

/// What the model answers to the case's type with these lengths.
fn refusal(case: &Case, message_len: usize, buffer_len: usize) -> u8 {
    judge(case.numbers[0] as u8, message_len as u64, buffer_len as u64).map_or_else(|refusal| refusal as u8, |()| 0)
}

/// The call that compares a hash.
pub fn compared(rng: &mut Rng) -> Case {
    let hash_type = hash_type(rng);
    match rng.below(50) {
        0 => with_no_hash(rng.pick(&[0, 0, 0, 3, 255]), few(rng), undefined_len(rng), rng),
        1 => with_absurd_hash(hash_type, message(rng), rng),
        _ => {
            let message = message(rng);
            let hash = perhaps_right(hash_type, &message, rng);
            comparison(hash_type, message, hash, rng)
        }
    }
}

pub fn comparison(hash_type: u8, message: Vec<u8>, hash: Vec<u8>, rng: &mut Rng) -> Case {
    Case::new(Call::HashMatches, &[u64::from(hash_type)], vec![message, hash, rng.bytes(1)])
}

/// The message's hash of this type; for a type that there isn't, the hash of one that there is.
pub fn right_hash(hash_type: u8, message: &[u8], rng: &mut Rng) -> Vec<u8> {
    let hash_type = if hash_type > 2 { rng.pick(&[0, 0, 1, 2]) } else { hash_type };
    digest(hash_type, message).expect("there is such a type")
}

/// The right hash, or one that is wrong in one way.
fn perhaps_right(hash_type: u8, message: &[u8], rng: &mut Rng) -> Vec<u8> {
    let mut hash = right_hash(hash_type, message, rng);
    let last = hash.len() - 1;
    match rng.below(20) {
        0..8 => {}
        8 => damage(&mut hash, 0, rng),
        9 => damage(&mut hash, last, rng),
        10..13 => damage(&mut hash, rng.below(last), rng),
        13 => hash.truncate(last),
        14 => hash.push(rng.byte()),
        15 => hash.resize(rng.pick(&[1, 32, 48, 64]), 0),
        16 => hash = right_hash(rng.below(3) as u8, message, rng),
        17 => hash = right_hash(hash_type, &[message, &[0]].concat(), rng),
        18 => hash = rng.filling(last + 1),
        _ => hash.clear(),
    }
    hash
}

/// A message that no memory holds and that has no hash of this type, beside the hash of its front: no byte of it has to
/// be looked at.
pub fn with_no_hash(hash_type: u8, front: Vec<u8>, len: usize, rng: &mut Rng) -> Case {
    assert!(hash_type == 0 || hash_type > 2);
    let hash = right_hash(hash_type, &front, rng);
    comparison(hash_type, front, hash, rng).claiming(0, len, 0)
}

/// The right hash, whose length is passed as one that no memory has.
pub fn with_absurd_hash(hash_type: u8, message: Vec<u8>, rng: &mut Rng) -> Case {
    let hash = right_hash(hash_type, &message, rng);
    let len = absurd_len(hash.len(), rng);
    comparison(hash_type, message, hash, rng).claiming(1, len, 0)
}
