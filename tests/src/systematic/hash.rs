//! Hashes: the calls of one hash each, the hash by its type, and the comparison of one.

use super::broken;
use crate::calls::Call;
use crate::generate::hash::{
    comparison, of_message, of_type, right_hash, with_absurd_buffer, with_absurd_hash, with_no_hash,
    with_undefined_message,
};
use crate::harness::Harness;
use crate::model::hash::hash_len;
use crate::rng::Rng;

const TYPES: [u8; 3] = [0, 1, 2];
/// Messages of these lengths are hashed where other things are gone through.
const MESSAGES: [usize; 8] = [0, 1, 55, 64, 111, 112, 128, 200];
/// Lengths that no memory has and that SHA-256 isn't defined for.
const UNDEFINED: [usize; 6] = [1 << 61, (1 << 61) + 1, 1 << 62, 1 << 63, (1 << 63) + 32, usize::MAX];

fn len(hash_type: u8) -> usize {
    hash_len(hash_type).expect("there is such a type")
}

/// Several fillings of a message.
fn messages_of(len: usize, rng: &mut Rng) -> [Vec<u8>; 5] {
    let counting = (0..len).map(|i| i as u8).collect();
    [vec![0; len], vec![0xff; len], vec![0x80; len], counting, rng.bytes(len)]
}

/// Every length of message from 0 to 1,100 with several fillings.
pub fn messages(harness: &mut Harness, call: Call, rng: &mut Rng) {
    for len in 0..=1100 {
        for message in messages_of(len, rng) {
            harness.run(of_message(call, message, rng));
        }
    }
}

/// Every length of message from 0 to 300, and some long ones, by each type.
pub fn messages_by_type(harness: &mut Harness, rng: &mut Rng) {
    for message_len in (0..=300).chain([1023, 1024, 1025, 4096, 60_000]) {
        for hash_type in TYPES {
            for message in messages_of(message_len, rng) {
                harness.run(of_type(hash_type, message, rng.filling(len(hash_type))));
            }
        }
    }
}

/// Every type with every length of buffer past the longest hash's, and some whose low bits are a hash's length.
pub fn types_and_buffers(harness: &mut Harness, rng: &mut Rng) {
    for hash_type in 0..=255 {
        for buffer_len in (0..=80).chain([96, 128, 256, 256 + 32, 256 + 48, 256 + 64, 4096 + 32]) {
            let message = rng.bytes(20);
            harness.run(of_type(hash_type, message, rng.filling(buffer_len)));
        }
        for _ in 0..10 {
            let case = of_type(hash_type, rng.bytes(20), rng.bytes(64));
            harness.run(with_absurd_buffer(case, rng));
        }
    }
}

/// Every set of broken rules: the type, the buffer's length and SHA-256's limit. SHA-384 and SHA-512 have no limit: with
/// them a message that no memory holds is tried where the buffer is wrong.
pub fn refusals_at_once(harness: &mut Harness, rng: &mut Rng) {
    for set in 0..8 {
        let types: Vec<u8> = if broken(set, 0) { (3..=255).collect() } else { TYPES.to_vec() };
        for hash_type in types {
            let right: Vec<usize> = hash_len(hash_type).map_or(vec![32, 48, 64], |len| vec![len]);
            for buffer_len in (0..=80).filter(|len| right.contains(len) != broken(set, 1)) {
                let case = of_type(hash_type, rng.bytes(7), rng.bytes(buffer_len));
                let undefined = rng.pick(&UNDEFINED);
                harness.run(if broken(set, 2) { with_undefined_message(case, undefined) } else { case });
            }
        }
    }
}

/// Messages too long for SHA-256, with every length of buffer: 3 comes before 2.
pub fn undefined_messages(harness: &mut Harness, rng: &mut Rng) {
    for undefined in UNDEFINED {
        for hash_type in TYPES {
            for (buffer_len, front) in (0..=80).flat_map(|len| [0, 1, 64, 100].map(|front| (len, front))) {
                let case = of_type(hash_type, rng.bytes(front), rng.bytes(buffer_len));
                harness.run(with_undefined_message(case, undefined));
            }
        }
    }
}

/// The same messages match no hash, of SHA-256 or of a type that there isn't.
pub fn compared_undefined_messages(harness: &mut Harness, rng: &mut Rng) {
    for (undefined, hash_type) in UNDEFINED.into_iter().flat_map(|len| [0, 3, 4, 128, 255].map(|of| (len, of))) {
        for front in [0, 1, 64, 100] {
            let front = rng.bytes(front);
            harness.run(with_no_hash(hash_type, front, undefined, rng));
        }
    }
}

/// The right hash of messages of every length from 0 to 300.
pub fn right_hashes(harness: &mut Harness, rng: &mut Rng) {
    for message_len in 0..=300 {
        for hash_type in TYPES {
            for message in messages_of(message_len, rng) {
                let hash = right_hash(hash_type, &message, rng);
                harness.run(comparison(hash_type, message, hash, rng));
            }
        }
    }
}

/// Every bit of the right hash flipped, and the hash as it is among them; every bit of a message flipped too.
pub fn bits(harness: &mut Harness, rng: &mut Rng) {
    for (hash_type, message_len) in TYPES.into_iter().flat_map(|of| MESSAGES.map(|len| (of, len))) {
        let message = rng.bytes(message_len);
        let right = right_hash(hash_type, &message, rng);
        for bit in 0..8 * right.len() {
            harness.run(comparison(hash_type, message.clone(), right.clone(), rng));
            harness.run(comparison(hash_type, message.clone(), flipped(&right, bit / 8, 1 << (bit % 8)), rng));
        }
        for bit in 0..8 * message_len {
            harness.run(comparison(hash_type, flipped(&message, bit / 8, 1 << (bit % 8)), right.clone(), rng));
        }
    }
}

fn flipped(bytes: &[u8], at: usize, bits: u8) -> Vec<u8> {
    let mut flipped = bytes.to_vec();
    flipped[at] ^= bits;
    flipped
}

/// The same bits flipped at every two places of the right hash, which must not make up for one another.
pub fn pairs(harness: &mut Harness, rng: &mut Rng) {
    for hash_type in TYPES {
        let message = rng.bytes(50);
        let right = right_hash(hash_type, &message, rng);
        for (left, other) in (0..right.len()).flat_map(|left| (0..left).map(move |other| (left, other))) {
            for bits in [0x80, 1 << rng.below(7)] {
                let hash = flipped(&flipped(&right, left, bits), other, bits);
                harness.run(comparison(hash_type, message.clone(), hash, rng));
            }
        }
    }
}

/// Every beginning and every end of the right hash, and the hash with every byte behind it, some bytes and a length that
/// no memory has.
pub fn hash_lengths(harness: &mut Harness, rng: &mut Rng) {
    for (hash_type, message_len) in TYPES.into_iter().flat_map(|of| MESSAGES.map(|len| (of, len))) {
        let message = rng.bytes(message_len);
        let right = right_hash(hash_type, &message, rng);
        let parts = (0..=right.len()).flat_map(|at| [right[..at].to_vec(), right[at..].to_vec()]);
        let longer = (0..=255).map(|byte| [&right[..], &[byte]].concat());
        let zeros = (2..=80).map(|more| [&right[..], &vec![0; more]].concat());
        let repeated = [right.repeat(2), right.repeat(8), [&right[..], &[0; 256]].concat()];
        for hash in parts.chain(longer).chain(zeros).chain(repeated) {
            harness.run(comparison(hash_type, message.clone(), hash, rng));
        }
        for _ in 0..20 {
            harness.run(with_absurd_hash(hash_type, message.clone(), rng));
        }
    }
}

/// Every type beside the right hash of each that there is, cut or with zeros behind it to the others' lengths too.
pub fn compared_types(harness: &mut Harness, rng: &mut Rng) {
    for (hash_type, of) in (0..=255).flat_map(|hash_type| TYPES.map(|of| (hash_type, of))) {
        for message_len in MESSAGES {
            let message = rng.bytes(message_len);
            let right = right_hash(of, &message, rng);
            for hash_len in [0, 32, 48, 64] {
                let mut hash = right.clone();
                hash.resize(hash_len, 0);
                harness.run(comparison(hash_type, message.clone(), hash, rng));
            }
        }
    }
}
