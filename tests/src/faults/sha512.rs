//! Faults of SHA-384 and SHA-512: the hash with one wrong rule.

use super::hash::by_digest;
use super::{Fault, Found, fault};
use crate::calls::Call::{self, *};
use crate::model::hash::digest;
use crate::model::sha512::{H0_384, H0_512, K};

const OF_384: &[Call] = &[Sha384, Hash, HashMatches];
const OF_512: &[Call] = &[Sha512, Hash, HashMatches];
const WIDE: &[Call] = &[Sha384, Sha512, Hash, HashMatches];

/// The rules that a fault changes.
struct Rules {
    initial_384: [u64; 8],
    initial_512: [u64; 8],
    big_sigma_0: [u32; 3],
    big_sigma_1: [u32; 3],
    /// Two rotations and a shift.
    small_sigma_0: [u32; 3],
    small_sigma_1: [u32; 3],
    shift_rotates: bool,
    last_constant: u64,
    rounds: usize,
    word: fn([u8; 8]) -> u64,
    put_word: fn(u64) -> [u8; 8],
    /// So many bytes behind the whole blocks don't fit into one block with the padding.
    too_many: usize,
    /// What is put as the length of a message of so many bytes.
    length: fn(u64) -> u64,
    first_block_alone: bool,
}

const STANDARD: Rules = Rules {
    initial_384: H0_384,
    initial_512: H0_512,
    big_sigma_0: [28, 34, 39],
    big_sigma_1: [14, 18, 41],
    small_sigma_0: [1, 8, 7],
    small_sigma_1: [19, 61, 6],
    shift_rotates: false,
    last_constant: K[79],
    rounds: 80,
    word: u64::from_be_bytes,
    put_word: u64::to_be_bytes,
    too_many: 112,
    length: |bytes| 8 * bytes,
    first_block_alone: false,
};

pub const RIGHT: Fault = fault("SHA512", "SHA-384 and SHA-512 by the right rules", WIDE, |found| by(found, &STANDARD));

#[rustfmt::skip]
pub const FAULTS: &[Fault] = &[
    fault("SHA384_FROM_512", "SHA-384 starts from SHA-512's initial value", OF_384,
        |found| by(found, &Rules { initial_384: H0_512, ..STANDARD })),
    fault("SHA512_FROM_384", "SHA-512 starts from SHA-384's initial value", OF_512,
        |found| by(found, &Rules { initial_512: H0_384, ..STANDARD })),
    fault("SHA384_AT_END", "SHA-384 is the end of the hash value", OF_384,
        |found| cut(found, |hash| hash[16..].to_vec())),
    fault("SHA384_47_BYTES", "SHA-384's last byte is left zero", OF_384,
        |found| cut(found, |hash| [&hash[..47], &[0]].concat())),
    fault("SHA384_64_BYTES", "SHA-384 writes the whole hash value", &[Sha384],
        |found| cut(found, <[u8]>::to_vec)),
    fault("BIG_SIGMA_0", "upper-case sigma 0 rotates by 33 for 34", WIDE,
        |found| by(found, &Rules { big_sigma_0: [28, 33, 39], ..STANDARD })),
    fault("BIG_SIGMA_1", "upper-case sigma 1 rotates by SHA-256's 25 for 41", WIDE,
        |found| by(found, &Rules { big_sigma_1: [14, 18, 25], ..STANDARD })),
    fault("SMALL_SIGMA_0", "lower-case sigma 0 rotates by SHA-256's 18 for 8", WIDE,
        |found| by(found, &Rules { small_sigma_0: [1, 18, 7], ..STANDARD })),
    fault("SMALL_SIGMA_1", "lower-case sigma 1 rotates by SHA-256's 17 for 19", WIDE,
        |found| by(found, &Rules { small_sigma_1: [17, 61, 6], ..STANDARD })),
    fault("SHIFT_ROTATES", "lower-case sigma 0 rotates where it shifts", WIDE,
        |found| by(found, &Rules { shift_rotates: true, ..STANDARD })),
    fault("LAST_CONSTANT", "the last bit of the last constant of 64 bits is wrong", WIDE,
        |found| by(found, &Rules { last_constant: K[79] ^ 1, ..STANDARD })),
    fault("ROUNDS_64", "SHA-512 has 64 rounds", WIDE,
        |found| by(found, &Rules { rounds: 64, ..STANDARD })),
    fault("WORDS_LOW_FIRST", "words of 64 bits are read low byte first", WIDE,
        |found| by(found, &Rules { word: u64::from_le_bytes, ..STANDARD })),
    fault("HASH_LOW_FIRST", "words of 64 bits are put low byte first", WIDE,
        |found| by(found, &Rules { put_word: u64::to_le_bytes, ..STANDARD })),
    fault("FIRST_BLOCK_ALONE", "whole blocks of 128 bytes behind the first are dropped", WIDE,
        |found| by(found, &Rules { first_block_alone: true, ..STANDARD })),
    fault("WIDE_PADDING", "111 bytes before the padding take a second block", WIDE,
        |found| by(found, &Rules { too_many: 111, ..STANDARD })),
    fault("LENGTH_8_BYTES", "SHA-512's length has eight bytes of room", WIDE,
        |found| by(found, &Rules { too_many: 120, ..STANDARD })),
    fault("MESSAGE_LENGTH_IN_BYTES", "SHA-512's length is put in bytes", WIDE,
        |found| by(found, &Rules { length: |bytes| bytes, ..STANDARD })),
    fault("LENGTH_16_BITS", "two bytes of SHA-512's length are put", WIDE,
        |found| by(found, &Rules { length: |bytes| (8 * bytes) & 0xffff, ..STANDARD })),
];

fn by(found: &mut Found, rules: &Rules) {
    by_digest(found, &|hash_type, message| match hash_type {
        0 => digest(0, message).unwrap_or_default(),
        1 => hash(rules, rules.initial_384, message)[..48].to_vec(),
        _ => hash(rules, rules.initial_512, message),
    });
}

/// SHA-384 is something else of its whole hash value than the front.
fn cut(found: &mut Found, part: fn(&[u8]) -> Vec<u8>) {
    by_digest(found, &|hash_type, message| match hash_type {
        1 => part(&hash(&STANDARD, H0_384, message)),
        _ => digest(hash_type, message).unwrap_or_default(),
    });
}

fn hash(rules: &Rules, initial: [u64; 8], message: &[u8]) -> Vec<u8> {
    let (whole, rest) = message.split_at(message.len() / 128 * 128);
    let hashed = if rules.first_block_alone { &whole[..whole.len().min(128)] } else { whole };
    let mut end = rest.to_vec();
    end.push(0x80);
    end.resize(if rest.len() < rules.too_many { 120 } else { 248 }, 0);
    end.extend((rules.length)(message.len() as u64).to_be_bytes());
    let blocks = hashed.chunks_exact(128).chain(end.chunks_exact(128));
    let hash = blocks.fold(initial, |hash, block| compress(rules, hash, block));
    hash.into_iter().flat_map(rules.put_word).collect()
}

fn compress(rules: &Rules, hash: [u64; 8], block: &[u8]) -> [u64; 8] {
    let w = schedule(rules, block);
    let mut s = hash;
    for (t, w) in w.into_iter().enumerate().take(rules.rounds) {
        let constant = if t == 79 { rules.last_constant } else { K[t] };
        let (ch, maj) = ((s[4] & s[5]) ^ (!s[4] & s[6]), (s[0] & s[1]) ^ (s[0] & s[2]) ^ (s[1] & s[2]));
        let t1 = sum([s[7], rotations(s[4], rules.big_sigma_1), ch, constant, w]);
        let t2 = sum([rotations(s[0], rules.big_sigma_0), maj]);
        s = [sum([t1, t2]), s[0], s[1], s[2], sum([s[3], t1]), s[4], s[5], s[6]];
    }
    std::array::from_fn(|i| sum([hash[i], s[i]]))
}

fn schedule(rules: &Rules, block: &[u8]) -> [u64; 80] {
    let mut w = [0; 80];
    for (word, bytes) in w.iter_mut().zip(block.as_chunks::<8>().0) {
        *word = (rules.word)(*bytes);
    }
    for t in 16..80 {
        let small_sigma_0 = small_sigma(w[t - 15], rules.small_sigma_0, rules.shift_rotates);
        w[t] = sum([w[t - 16], small_sigma_0, w[t - 7], small_sigma(w[t - 2], rules.small_sigma_1, false)]);
    }
    w
}

fn rotations(x: u64, by: [u32; 3]) -> u64 {
    by.map(|by| x.rotate_right(by)).into_iter().fold(0, |all, one| all ^ one)
}

fn small_sigma(x: u64, by: [u32; 3], shift_rotates: bool) -> u64 {
    let shifted = if shift_rotates { x.rotate_right(by[2]) } else { x >> by[2] };
    x.rotate_right(by[0]) ^ x.rotate_right(by[1]) ^ shifted
}

fn sum<const N: usize>(words: [u64; N]) -> u64 {
    words.into_iter().fold(0, u64::wrapping_add)
}
