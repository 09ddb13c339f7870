//! Faults of an entry: what a writer with one wrong rule writes, and takes for written.

use super::{Fault, Found, fault};
use crate::calls::Call::{self, *};
use crate::ffi::compared;
use crate::model::Answer;
use crate::model::comparison::compare;
use crate::model::log::{self, BUFFER_LEN, Book, ENTRY_LEN, Record, State, shown_record};
use crate::model::sha256::sha256;

/// Puts the next entry into a buffer, as the model's own does.
pub type Write = fn(&State, Record, &mut [u8]) -> Answer<State>;

const OF_ENTRIES: &[Call] =
    &[LogRecord, LogReadOut, LogReadOutVerdict, LogCheck, LogReplay, LogTextVerdict, LogCompare];

pub const RIGHT: Fault = fault("WRITER", "entries by the right rules", OF_ENTRIES, |found| by(found, log::record));

#[rustfmt::skip]
pub const FAULTS: &[Fault] = &[
    fault("DIGEST_FIRST", "the digest is hashed before the register", OF_ENTRIES, |found| by(found, digest_first)),
    fault("INDEX_OVER_LOG", "the measurement index counts over the whole log", OF_ENTRIES,
        |found| by(found, |state, record, buffer| slip(state, record, buffer, |entry| entry[11] = entry[3]))),
    fault("MARKER_NIBBLES", "the start marker's halves are exchanged", OF_ENTRIES,
        |found| by(found, |state, record, buffer| slip(state, record, buffer, |entry| entry[0] = 0xbc))),
    fault("MARKER_LEGACY", "an entry begins with its format alone", OF_ENTRIES,
        |found| by(found, |state, record, buffer| slip(state, record, buffer, |entry| entry[0] = 0x0b))),
    fault("ENTRY_LENGTH_87", "an entry says that it has 87 bytes", OF_ENTRIES,
        |found| by(found, |state, record, buffer| slip(state, record, buffer, |entry| entry[1] = 87))),
    fault("TWO_RESERVED", "the algorithm id stands behind two reserved bytes", OF_ENTRIES,
        |found| by(found, |state, record, buffer| slip(state, record, buffer, |entry| entry.swap(18, 19)))),
    fault("ALGORITHM_HIGH_FIRST", "the algorithm id's high byte stands first", OF_ENTRIES,
        |found| by(found, |state, record, buffer| slip(state, record, buffer, |entry| entry.swap(19, 20)))),
    fault("EVENT_TYPE_16_BITS", "two bytes of the event type are lost", &[LogRecord, LogReplay],
        |found| by(found, |state, record, buffer| slip(state, record, buffer, |entry| entry[9..11].fill(0)))),
];

/// The model's entry with a mistake in it.
fn slip(state: &State, record: Record, buffer: &mut [u8], mistake: fn(&mut [u8])) -> Answer<State> {
    let next = log::record(state, record, buffer)?;
    mistake(&mut buffer[state.count as usize * ENTRY_LEN..][..ENTRY_LEN]);
    Ok(next)
}

fn digest_first(state: &State, record: Record, buffer: &mut [u8]) -> Answer<State> {
    let mut next = log::record(state, record, buffer)?;
    let pmr = usize::from(record.pmr);
    let register = sha256(&[record.digest, state.pmrs[pmr].register].concat());
    next.pmrs[pmr].register = register;
    buffer[state.count as usize * ENTRY_LEN..][..ENTRY_LEN][57..].copy_from_slice(&register);
    Ok(next)
}

/// The state that the writer's records leave up to the first entry that isn't its own, and whether there is none such.
pub fn read(text: &[u8], write: Write) -> (State, bool) {
    let (mut state, mut buffer) = (State::fresh(), vec![0; BUFFER_LEN]);
    for (shown, at) in text.chunks_exact(ENTRY_LEN).zip((0..).step_by(ENTRY_LEN)) {
        let Ok(next) = write(&state, shown_record(shown), &mut buffer) else { return (state, false) };
        state = next;
        if buffer[at..at + ENTRY_LEN] != *shown {
            return (state, false);
        }
    }
    (state, true)
}

/// What a call does whose entries are this writer's.
fn by(found: &mut Found, write: Write) {
    match found.case.call {
        LogRecord if found.is_accepted() => record(found, write),
        LogReplay | LogTextVerdict if found.is(&[0, 4]) => replay(found, write),
        LogCompare => compare_texts(found, write),
        LogReadOut | LogReadOutVerdict | LogCheck if found.is(&[0, 4]) => judge(found, write),
        _ => {}
    }
}

fn record(found: &mut Found, write: Write) {
    found.keep("buffer");
    let digest = found.case.value("digest");
    let event_type = found.case.number("event_type") as u32;
    let record = Record { pmr: found.case.number("pmr") as u8, event_type, digest };
    if let Ok(next) = write(&found.case.state(), record, found.bytes("buffer")) {
        found.set("log", &next);
    }
}

fn replay(found: &mut Found, write: Write) {
    let (state, whole) = read(found.case.bytes("text"), write);
    if !whole {
        return found.refuse(4);
    }
    found.answer = 0;
    if found.case.call == LogReplay {
        put_replayed(found, &state);
    }
}

/// Leaves the text in the buffer, and this state.
pub fn put_replayed(found: &mut Found, state: &State) {
    let mut buffer = found.case.bytes("text").to_vec();
    buffer.resize(BUFFER_LEN, 0);
    *found.bytes("buffer") = buffer;
    found.set("log", state);
}

fn judge(found: &mut Found, write: Write) {
    let state = found.case.state();
    if !state.is_permitted() {
        return;
    }
    let (text, rest) = found.case.bytes("buffer").split_at(state.count as usize * ENTRY_LEN);
    let holds = read(text, write) == (state, true) && rest.iter().all(|&byte| byte == 0);
    if !holds {
        return found.refuse(4);
    }
    found.answer = 0;
    if found.case.call == LogReadOut {
        found.set("text_len", &text.len());
    }
}

/// The texts' records are compared by the model, in the right texts of the same records.
fn compare_texts(found: &mut Found, write: Write) {
    let texts = ["left", "right"].map(|name| found.case.bytes(name));
    let refused = ["left", "right"].into_iter().find_map(|name| match super::log::text_verdict(found.case, name) {
        2 => Some(2),
        _ => (!read(found.case.bytes(name), write).1).then_some(4),
    });
    if let Some(refusal) = refused {
        return found.refuse(refusal);
    }
    let [left, right] = texts.map(right_text);
    if let Ok(comparison) = compare(&left, &right) {
        found.answer = 0;
        found.set("comparison", &compared(&comparison));
    }
}

fn right_text(text: &[u8]) -> Vec<u8> {
    let mut book = Book::empty();
    for shown in text.chunks_exact(ENTRY_LEN) {
        book.add(shown_record(shown)).ok();
    }
    book.text().to_vec()
}
