//! Faults of the refusals' meaning.

use super::{Fault, fault};
use crate::calls::Call::Meaning;
use crate::model::ANSWERS;
use crate::model::meaning::ROOM;

pub const FAULTS: &[Fault] = &[
    fault("SMALL_ROOM", "a text of 79 bytes is enough", &[Meaning], |found| {
        // The longest meaning has 80 bytes: that one isn't put.
        if found.case.len("text") == ROOM - 1 && found.case.number("number") != 2 {
            found.redo(|case| case.bytes_mut("text").push(0));
            found.bytes("text").truncate(ROOM - 1);
        }
    }),
    fault("OTHER_MEANING", "a number above 12 has a meaning", &[Meaning], |found| {
        if found.case.number("number") == ANSWERS as u64 {
            found.redo(|case| case.set_number("number", ANSWERS as u64 - 1));
        }
    }),
];
