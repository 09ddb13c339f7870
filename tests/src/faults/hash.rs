//! Faults of SHA-256, of the hash by its type and of the comparison of one.

use super::{Fault, Found, fault};
use crate::calls::Call::{self, *};
use crate::case::Case;
use crate::model::hash::{digest, hash_len, judge};
use crate::model::sha256::{H0, LIMIT, compress};

pub const BY_TYPE: &[Call] = &[Hash, HashMatches];
/// No buffer is longer where a fault writes to it or reads it whatever its length.
const LONGEST: usize = 4096;

pub const RIGHT: Fault = fault("MATCHES", "the comparison of a hash by the right rules", &[HashMatches], |found| {
    matches_if(found, |own, hash, len| len == own.len() && own == hash)
});

pub const RIGHT_SHA256: Fault = fault("SHA256", "SHA-256 by the right rules", &[Sha256], |found| {
    by_digest(found, &|_, message| sha256_with(message, usize::MAX).to_vec())
});

#[rustfmt::skip]
pub const FAULTS: &[Fault] = &[
    fault("PADDING", "the padding is wrong where the length just fits",
        &[Sha256, Hash, HashMatches, HmacSha256, PairingKey],
        |found| match found.case.call {
            HmacSha256 | PairingKey => super::hmac::by_hash(found, late_padding),
            _ => by_digest(found, &|hash_type, message| match hash_type {
                0 => late_padding(message).to_vec(),
                _ => digest(hash_type, message).unwrap_or_default(),
            }),
        }),
    fault("MESSAGE_LIMIT", "a message of 2^61 bytes is taken by SHA-256", &[Sha256, Hash, HashMatches], |found| {
        if is_undefined(found.case) && type_of(found.case) == 0 {
            let unlimited = by_type(found.case, 0);
            match found.case.call {
                HashMatches => found.set("matches", &u8::from(unlimited == found.case.bytes("hash"))),
                Sha256 => accept(found, "digest", &unlimited),
                _ if found.answer == 2 => accept(found, "hash", &unlimited),
                _ => {}
            }
        }
    }),
    fault("HASH_BUFFER_FIRST", "3 comes before 12", &[Hash],
        |found| if found.answer == 12 && ![32, 48, 64].contains(&found.case.len("hash")) { found.refuse(3) }),
    fault("MESSAGE_BEFORE_BUFFER", "2 comes before 3", &[Hash], |found| {
        if found.answer == 3 && type_of(found.case) == 0 && is_undefined(found.case) {
            found.refuse(2);
        }
    }),
    fault("LIMIT_OF_NO_TYPE", "a message of 2^61 bytes is 2 by a type above 2", &[Hash],
        |found| if found.answer == 12 && is_undefined(found.case) { found.refuse(2) }),
    fault("LONGER_HASH", "a buffer longer than the hash is taken", &[Hash],
        |found| take_buffer(found, |buffer, right| buffer > right && buffer <= LONGEST)),
    fault("SHORTER_HASH", "a shorter buffer gets the hash's front", &[Hash],
        |found| take_buffer(found, |buffer, right| buffer < right)),
    fault("TYPE_BITS_LOST", "a hash type's upper bits are ignored", BY_TYPE,
        |found| as_type(found, type_of(found.case) & 7)),
    fault("REFUSED_HASH_WRITTEN", "a hash is refused and written", &[Hash], |found| {
        let written = found.is(&[2, 3]) && found.case.len("hash") <= LONGEST;
        if written {
            put_front(found, "hash", &by_type(found.case, type_of(found.case)));
        }
    }),
    fault("REFUSED_HASH_CLEARED", "a refused hash's buffer is cleared", &[Hash],
        |found| if !found.is_accepted() && found.case.len("hash") <= LONGEST { found.bytes("hash").fill(0) }),
    fault("ABOVE_2_AS_0", "a type above 2 matches as SHA-256", &[HashMatches],
        |found| if type_of(found.case) > 2 { as_type(found, 0) }),
    fault("FIRST_BYTE_UNCOMPARED", "a hash's first byte isn't compared", &[HashMatches],
        |found| matches_if(found, |own, hash, len| len == own.len() && own[1..] == hash[1..])),
    fault("LAST_BYTE_UNCOMPARED", "a hash's last byte isn't compared", &[HashMatches],
        |found| matches_if(found, |own, hash, len| len == own.len() && own[..len - 1] == hash[..len - 1])),
    fault("HALF_HASH", "32 bytes of a hash are compared", &[HashMatches],
        |found| matches_if(found, |own, hash, len| len == own.len() && own[..32] == hash[..32])),
    fault("SHORTER_COMPARED", "the front of the right hash matches", &[HashMatches],
        |found| matches_if(found, |own, hash, len| len <= own.len() && own[..len] == *hash)),
    fault("LONGER_COMPARED", "what stands behind the right hash isn't looked at", &[HashMatches],
        |found| matches_if(found, |own, hash, len| (own.len()..=LONGEST).contains(&len) && hash.starts_with(own))),
    fault("HASH_LEN_8_BITS", "a hash's length is taken modulo 256", &[HashMatches],
        |found| matches_if(found, |own, hash, len| len % 256 == own.len() && hash.starts_with(own))),
    fault("LENGTH_MATCHES", "any hash of the right length matches", &[HashMatches],
        |found| matches_if(found, |own, _, len| len == own.len())),
    fault("DIFFERENCES_XORED", "two bytes that differ alike make up for one another", &[HashMatches],
        |found| matches_if(found, |own, hash, len| len == own.len() && joined(own, hash, |all, one| all ^ one))),
    fault("DIFFERENCES_ADDED", "differences are added modulo 256", &[HashMatches],
        |found| matches_if(found, |own, hash, len| len == own.len() && joined(own, hash, u8::wrapping_add))),
    fault("NEVER_MATCHES", "nothing matches", &[HashMatches], |found| found.set("matches", &0u8)),
    fault("MATCHES_KEPT", "the answer's memory stays where nothing matches", &[HashMatches],
        |found| if found.value::<u8>("matches") == 0 { found.keep("matches") }),
    fault("YES_255", "yes is answered as 255", &[HashMatches],
        |found| if found.value::<u8>("matches") == 1 { found.set("matches", &255u8) }),
    fault("NO_REFUSED", "a hash that doesn't match is refused", &[HashMatches],
        |found| if found.value::<u8>("matches") == 0 { found.answer = 12 }),
];

fn late_padding(message: &[u8]) -> [u8; 32] {
    sha256_with(message, 55)
}

/// SHA-256 whose padding takes a block more where so many bytes stand behind the whole blocks.
fn sha256_with(message: &[u8], late: usize) -> [u8; 32] {
    let mut padded = message.to_vec();
    padded.push(0x80);
    if message.len() % 64 == late {
        padded.extend([0; 64]);
    }
    while padded.len() % 64 != 56 {
        padded.push(0);
    }
    padded.extend((8 * message.len() as u64).to_be_bytes());
    let hash = padded.chunks_exact(64).fold(H0, compress);
    std::array::from_fn(|i| hash[i / 4].to_be_bytes()[i % 4])
}

fn is_undefined(case: &Case) -> bool {
    case.len("message") as u64 >= LIMIT
}

/// The type that is asked for, by number or by the call.
fn type_of(case: &Case) -> u8 {
    match case.call {
        Sha256 => 0,
        Sha384 => 1,
        Sha512 => 2,
        _ => case.number("hash_type") as u8,
    }
}

/// The hash of what was handed in by a type, empty for none. A message that no memory holds is taken as empty, since no
/// byte of it may be looked at.
fn by_type(case: &Case, hash_type: u8) -> Vec<u8> {
    let message = if is_undefined(case) { &[] } else { case.bytes("message") };
    digest(hash_type, message).unwrap_or_default()
}

fn accept(found: &mut Found, name: &str, hash: &[u8]) {
    found.answer = 0;
    put_front(found, name, hash);
}

/// As much of the hash as there is room for.
fn put_front(found: &mut Found, name: &str, hash: &[u8]) {
    let len = hash.len().min(found.bytes(name).len());
    found.bytes(name)[..len].copy_from_slice(&hash[..len]);
}

/// All calls that answer or compare a hash, by a digest of their own.
pub fn by_digest(found: &mut Found, digest: &dyn Fn(u8, &[u8]) -> Vec<u8>) {
    let (case, hash_type) = (found.case, type_of(found.case));
    if !found.is_accepted() || hash_type > 2 || case.claim.is_some() {
        return;
    }
    let own = digest(hash_type, case.bytes("message"));
    match case.call {
        HashMatches => found.set("matches", &u8::from(own == case.bytes("hash"))),
        Hash => *found.bytes("hash") = own,
        _ => *found.bytes("digest") = own,
    }
}

/// A buffer of another length is taken, if it is one of these beside the right one.
fn take_buffer(found: &mut Found, is_taken: fn(usize, usize) -> bool) {
    let (case, hash_type) = (found.case, type_of(found.case));
    if found.answer == 3 && hash_len(hash_type).is_ok_and(|right| is_taken(case.len("hash"), right)) {
        if hash_type == 0 && is_undefined(case) {
            return found.refuse(2);
        }
        accept(found, "hash", &by_type(case, hash_type));
    }
}

/// The type is taken as another one.
pub fn as_type(found: &mut Found, hash_type: u8) {
    let case = found.case;
    if case.call == HashMatches {
        let defined = hash_type != 0 || !is_undefined(case);
        let own = by_type(case, hash_type);
        let matches = defined && case.len("hash") == own.len() && own == case.bytes("hash");
        return found.set("matches", &u8::from(matches && !own.is_empty()));
    }
    match judge(hash_type, case.len("message") as u64, case.len("hash") as u64) {
        Ok(()) => accept(found, "hash", &by_type(case, hash_type)),
        Err(refusal) => found.refuse(refusal as u8),
    }
}

/// Another comparison of the message's own hash, where it has one, with the bytes that were handed in and the length
/// that was passed for them.
fn matches_if(found: &mut Found, is_same: fn(&[u8], &[u8], usize) -> bool) {
    let case = found.case;
    let own = by_type(case, type_of(case));
    if !own.is_empty() && !is_undefined(case) {
        found.set("matches", &u8::from(is_same(&own, case.bytes("hash"), case.len("hash"))));
    }
}

/// Whether the bytes' differences, joined by something else than an or, come to nothing.
fn joined(own: &[u8], hash: &[u8], join: fn(u8, u8) -> u8) -> bool {
    own.iter().zip(hash).map(|(own, other)| own ^ other).fold(0, join) == 0
}
