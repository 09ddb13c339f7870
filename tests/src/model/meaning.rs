//! The meanings of the refusal numbers, in the words of document 01's table.

use super::{ANSWERS, Answer, Refusal, demand};

/// What a caller's text buffer must have room for, by the C header.
pub const ROOM: usize = 80;

const MEANINGS: [&str; ANSWERS - 1] = [
    "the header is short or isn't ours",
    "the body, payload, log text or message to hash has a length that isn't permitted",
    "a lent buffer has the wrong length",
    "a state or log outside the rules of its section",
    "a number out of its range",
    "out of step",
    "log full",
    "manifest header breaks its rules",
    "version id doesn't go forward",
    "the signature was judged bad",
    "known, but not offered",
    "malformed element",
];

/// The length of the meaning, which is put to the front of `text`.
pub fn meaning(number: u8, text: &mut [u8]) -> Answer<u64> {
    demand(text.len() >= ROOM, Refusal::WrongBuffer)?;
    demand((1..ANSWERS).contains(&usize::from(number)), Refusal::OutOfRange)?;
    let words = MEANINGS[usize::from(number) - 1].as_bytes();
    text[..words.len()].copy_from_slice(words);
    Ok(words.len() as u64)
}
