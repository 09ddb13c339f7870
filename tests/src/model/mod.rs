//! Document 01 and document 02, Items 2, 4, 8, 13 and 14, in plain Rust, written from the papers and standards
//! alone. It is slow and plain on purpose: what it does should be seen at once to be what the paper says.

pub mod certificate_slots;
pub mod comparison;
pub mod element;
pub mod hash;
pub mod hmac;
pub mod log;
pub mod meaning;
pub mod message;
pub mod pairing;
pub mod roots;
pub mod sha256;
pub mod sha512;
pub mod slot;

/// Document 01's numbers that say no.
#[derive(Clone, Copy, Debug, PartialEq, Eq)]
pub enum Refusal {
    ForeignHeader = 1,
    BadLength = 2,
    WrongBuffer = 3,
    UnsoundState = 4,
    OutOfRange = 5,
    OutOfStep = 6,
    LogFull = 7,
    BadManifestHeader = 8,
    StaleVersion = 9,
    BadSignature = 10,
    NotOffered = 11,
    MalformedElement = 12,
}

/// So many numbers a call may answer: 0 and the refusals up to the last one.
pub const ANSWERS: usize = 1 + Refusal::MalformedElement as usize;

pub type Answer<T> = Result<T, Refusal>;

/// Refuses with `number` unless `holds`.
pub fn demand(holds: bool, number: Refusal) -> Answer<()> {
    if holds { Ok(()) } else { Err(number) }
}

/// The little-endian number in a few bytes.
pub fn little_endian(bytes: &[u8]) -> u64 {
    bytes.iter().rev().fold(0, |number, &byte| number << 8 | u64::from(byte))
}
