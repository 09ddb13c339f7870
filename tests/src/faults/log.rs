//! Faults of the log's calls, but for its entries and its state.

use super::log_entry::{put_replayed, read};
use super::{Fault, Found, fault};
use crate::calls::Call::{self, *};
use crate::calls::JUDGING;
use crate::case::Case;
use crate::model::log::{self, BUFFER_LEN, Book, CAPACITY, ENTRY_LEN, PMRS, State};
use crate::model::sha256::sha256;

const LEGACY_ENTRY_LEN: usize = 87;
const OF_TEXTS: &[Call] = &[LogReplay, LogTextVerdict, LogCompare];

#[rustfmt::skip]
pub const FAULTS: &[Fault] = &[
    fault("LEGACY_BUFFER", "a buffer for 64 entries of 87 bytes isn't 3",
        &[LogReset, LogRecord, LogRegister, LogReadOut, LogReadOutVerdict, LogCheck, LogReplay],
        |found| if found.answer == 3 && found.case.len("buffer") == LEGACY_ENTRY_LEN * CAPACITY { found.refuse(4) }),
    fault("LEGACY_TEXT", "a text of 87 bytes an entry is 4", OF_TEXTS,
        |found| if found.answer == 2 && is_legacy(judged_text_len(found.case)) { found.refuse(4) }),
    fault("FULL_FIRST", "7 comes before 5", &[LogRecord],
        |found| if found.answer == 5 && found.case.state().count == CAPACITY as u64 { found.refuse(7) }),
    fault("REPLAY_KEEPS", "replay leaves what the buffer held behind the text", &[LogReplay], |found| {
        if found.is_accepted() {
            let (from, held) = (found.case.len("text"), found.case.bytes("buffer"));
            found.bytes("buffer")[from..].copy_from_slice(&held[from..]);
        }
    }),
    fault("ONE_REGISTER", "every register reads as the same 32 bytes", &[LogRegister],
        |found| if found.is_accepted() { found.set("value", &found.case.state().pmrs[0].register) }),
    fault("NOTHING_WRITTEN", "record says yes and writes nothing", &[LogRecord],
        |found| if found.is_accepted() { found.keep("buffer") }),
    fault("FIRST_ONLY", "the first entry is written, later ones only counted", &[LogRecord],
        |found| if found.is_accepted() && found.case.state().count > 0 { found.keep("buffer") }),
    fault("ANY_TEXT", "any text of a permitted length is taken", OF_TEXTS, any_text),
    fault("LATER_BYTES", "bytes behind the log aren't looked at", JUDGING, |found| {
        let state = found.case.state();
        if found.answer == 4 && state.is_permitted() {
            found.redo(|case| case.bytes_mut("buffer")[state.count as usize * ENTRY_LEN..].fill(0));
        }
    }),
    fault("FROM_LAST_ENTRY", "record takes the register from the PMR's last entry", &[LogRecord], from_last_entry),
    fault("FIRST_FREE_PLACE", "record writes where the buffer first holds no entry", &[LogRecord], first_free_place),
    fault("RECORD_CLEARS", "record clears what stands behind its entry", &[LogRecord], |found| {
        if found.is_accepted() {
            let end = (found.case.state().count as usize + 1) * ENTRY_LEN;
            found.bytes("buffer")[end..].fill(0);
        }
    }),
    fault("RECORD_JUDGES", "record gives 4 for a damaged buffer", &[LogRecord], judge_buffer),
    fault("RANGE_BEFORE_BUFFER", "5 comes before 3", &[LogRecord, LogRegister],
        |found| if found.answer == 3 && found.case.number("pmr") >= PMRS as u64 { found.refuse(5) }),
    fault("REGISTER_JUDGES", "register read gives 4 for a damaged buffer", &[LogRegister], judge_buffer),
    fault("REGISTER_WORKED_OUT", "register read works it out from the buffer", &[LogRegister], worked_out),
    fault("READ_OUT_UNCOMPARED", "read-out doesn't hold the buffer to the state", &[LogReadOut],
        |found| hold_to(found, |_, held| *held)),
    fault("COMPANION_UNCOMPARED", "its companion doesn't hold the buffer to the state", &[LogReadOutVerdict],
        |found| hold_to(found, |_, held| *held)),
    fault("HALF_REGISTER", "half of each register is compared", JUDGING, |found| hold_to(found, |state, held| {
        let mut state = *state;
        for (pmr, held) in state.pmrs.iter_mut().zip(held.pmrs) {
            pmr.register[16..].copy_from_slice(&held.register[16..]);
        }
        state
    })),
    fault("CHECK_NO_REGISTERS", "check doesn't compare the registers", &[LogCheck],
        |found| hold_to(found, |state, held| with_numbers(held, state))),
    fault("CHECK_NO_NUMBERS", "check doesn't compare the numbers", &[LogCheck],
        |found| hold_to(found, with_numbers)),
    fault("CHECK_PMR0", "check compares PMR0 alone", &[LogCheck], |found| hold_to(found, |state, held| {
        let mut held = *held;
        held.pmrs[0] = state.pmrs[0];
        held
    })),
    fault("CHECK_NO_BUFFER", "check doesn't look at the buffer", &[LogCheck],
        |found| if found.answer == 4 && found.case.state().is_permitted() { found.refuse(0) }),
    fault("CHECK_EMPTY_REFUSED", "check refuses an empty log", &[LogCheck],
        |found| if found.is_accepted() && found.case.state().count == 0 { found.refuse(4) }),
    fault("CHECK_EMPTY_TAKEN", "check takes an empty log over any buffer", &[LogCheck],
        |found| if found.answer == 4 && is_empty(&found.case.state()) { found.refuse(0) }),
    fault("TEXT_BEFORE_LENGTH", "a text whose length isn't permitted is 4", OF_TEXTS,
        |found| if found.answer == 2 { found.refuse(4) }),
    fault("ANSWER_CLEARED", "a refused register read clears its answer", &[LogRegister],
        |found| if !found.is_accepted() { found.bytes("value").fill(0) }),
];

pub fn is_text_len(len: usize) -> bool {
    len.is_multiple_of(ENTRY_LEN) && len <= BUFFER_LEN
}

fn is_legacy(len: usize) -> bool {
    len.is_multiple_of(LEGACY_ENTRY_LEN) && len <= LEGACY_ENTRY_LEN * CAPACITY
}

/// What the model says of a text of this name.
pub fn text_verdict(case: &Case, name: &str) -> u8 {
    if !is_text_len(case.len(name)) {
        return 2;
    }
    Book::of_text(case.bytes(name)).map_or_else(|refusal| refusal as u8, |_| 0)
}

/// The length of the text that is 2.
fn judged_text_len(case: &Case) -> usize {
    match case.call {
        LogCompare if is_text_len(case.len("left")) => case.len("right"),
        LogCompare => case.len("left"),
        _ => case.len("text"),
    }
}

fn is_empty(state: &State) -> bool {
    state.count == 0 && state.is_permitted()
}

fn any_text(found: &mut Found) {
    if found.answer != 4 {
        return;
    }
    found.answer = if found.case.call == LogCompare && !is_text_len(found.case.len("right")) { 2 } else { 0 };
    if found.case.call == LogReplay {
        let (state, _) = read(found.case.bytes("text"), log::record);
        put_replayed(found, &state);
    }
}

/// The entries of a PMR that a buffer shows, as far as the state counts.
fn shown(case: &Case) -> impl Iterator<Item = &[u8]> {
    let (count, pmr) = (case.state().count as usize, case.number("pmr") as u8);
    case.bytes("buffer").chunks_exact(ENTRY_LEN).take(count).filter(move |entry| entry[12] == pmr)
}

fn from_last_entry(found: &mut Found) {
    let pmr = found.case.number("pmr") as usize;
    if let Some(last) = shown(found.case).last().filter(|_| found.answer == 0) {
        let mut state = found.case.state();
        state.pmrs[pmr].register.copy_from_slice(&last[57..]);
        found.redo(|case| case.set("log", &state));
    }
}

fn first_free_place(found: &mut Found) {
    if found.is_accepted() {
        let at = found.case.state().count as usize * ENTRY_LEN;
        let entry = found.bytes("buffer")[at..][..ENTRY_LEN].to_vec();
        let is_free = |place: &[u8]| place.iter().all(|&byte| byte == 0);
        let free = found.case.bytes("buffer").chunks_exact(ENTRY_LEN).position(is_free).unwrap_or(CAPACITY - 1);
        found.keep("buffer");
        found.bytes("buffer")[free * ENTRY_LEN..][..ENTRY_LEN].copy_from_slice(&entry);
    }
}

fn judge_buffer(found: &mut Found) {
    if found.is(&[0, 5, 7]) && log::check(&found.case.state(), found.case.bytes("buffer")).is_err() {
        found.refuse(4);
    }
}

fn worked_out(found: &mut Found) {
    if found.is_accepted() {
        let digests = shown(found.case).map(|entry| &entry[21..53]);
        let register = digests.fold([0; 32], |register, digest| sha256(&[&register[..], digest].concat()));
        found.set("value", &register);
    }
}

/// Holds a sound buffer to another state than the one that was handed in, of this one and the buffer's.
fn hold_to(found: &mut Found, other: fn(&State, &State) -> State) {
    let state = found.case.state();
    if found.answer != 4 || !state.is_permitted() {
        return;
    }
    if let Ok(held) = Book::of_text(&found.case.bytes("buffer")[..state.count as usize * ENTRY_LEN]) {
        found.redo(|case| case.set("log", &other(&state, &held.state())));
    }
}

/// The registers of one state with the numbers of another.
fn with_numbers(registers: &State, numbers: &State) -> State {
    let mut state = *registers;
    for (pmr, of) in state.pmrs.iter_mut().zip(numbers.pmrs) {
        pmr.entries = of.entries;
    }
    state
}
