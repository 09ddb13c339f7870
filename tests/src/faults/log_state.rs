//! Faults of a log's state: how it is judged, and what is handed back.

use super::log_entry::read;
use super::{Fault, Found, fault};
use crate::calls::Call::*;
use crate::calls::OVER_STATE;
use crate::model::log::{self, CAPACITY, ENTRY_LEN, PMRS, Pmr, State};

/// Eight bytes behind the state.
const BEHIND: [u8; 8] = [0; 8];

#[rustfmt::skip]
pub const FAULTS: &[Fault] = &[
    fault("COUNT_32_BITS", "the count is taken modulo 2^32", OVER_STATE, |found| {
        let mut state = found.case.state();
        state.count &= 0xffff_ffff;
        found.redo(|case| case.set("log", &state));
    }),
    fault("SUM_UNCHECKED", "numbers that don't add up are taken", &[LogRecord, LogRegister],
        |found| take_if(found, |state| state.count <= CAPACITY as u64)),
    fault("SUM_WRAPS_64", "the numbers are added modulo 2^64", &[LogRecord, LogRegister],
        |found| take_if(found, |state| state.count <= CAPACITY as u64 && off_by(state) == 0)),
    fault("SUM_WRAPS_8", "the numbers are added modulo 256", &[LogRecord, LogRegister],
        |found| take_if(found, |state| state.count <= CAPACITY as u64 && off_by(state) as u8 == 0)),
    fault("SUM_OF_FOUR", "the last PMR's number isn't added", OVER_STATE, sum_of_four),
    fault("COUNT_ABOVE_64", "a count above 64 is taken where it adds up", &[LogRecord, LogRegister],
        |found| take_if(found, adds_up)),
    fault("IDLE_REGISTER_JUDGED", "a register without entries must be zero", &[LogRecord, LogRegister], |found| {
        let is_judged = |pmr: &Pmr| pmr.entries == 0 && pmr.register != [0; 32];
        if found.is(&[0, 5, 7]) && found.case.state().pmrs.iter().any(is_judged) {
            found.refuse(4);
        }
    }),
    fault("REGISTER_KEPT", "record leaves the register as it was", &[LogRecord],
        |found| mistake(found, |before, next, pmr| next.pmrs[pmr].register = before.pmrs[pmr].register)),
    fault("NUMBER_KEPT", "record leaves the PMR's number as it was", &[LogRecord],
        |found| mistake(found, |before, next, pmr| next.pmrs[pmr].entries = before.pmrs[pmr].entries)),
    fault("COUNT_KEPT", "record leaves the count as it was", &[LogRecord],
        |found| mistake(found, |before, next, _| next.count = before.count)),
    fault("OTHER_REGISTER", "record puts the register into the next PMR's place", &[LogRecord],
        |found| mistake(found, |before, next, pmr| {
            next.pmrs[(pmr + 1) % PMRS].register = next.pmrs[pmr].register;
            next.pmrs[pmr].register = before.pmrs[pmr].register;
        })),
    fault("FIRST_FROM_ZEROS", "a PMR's first record starts from zeros", &[LogRecord], |found| {
        let (mut state, pmr) = (found.case.state(), found.case.number("pmr") as usize);
        if found.is_accepted() && state.pmrs[pmr].entries == 0 {
            state.pmrs[pmr].register = [0; 32];
            found.redo(|case| case.set("log", &state));
        }
    }),
    fault("REFUSED_COUNTED", "a refused record raises the count", &[LogRecord], |found| {
        let state = found.case.state();
        if found.is(&[5, 7]) {
            found.set("log", &State { count: state.count + 1, ..state });
        }
    }),
    fault("FULL_BEFORE_STATE", "7 comes before 4", &[LogRecord], |found| {
        let full = found.case.state().count == CAPACITY as u64 && found.case.number("pmr") < PMRS as u64;
        if found.answer == 4 && full {
            found.refuse(7);
        }
    }),
    fault("IDLE_REGISTER_ZERO", "a register without entries reads as zeros", &[LogRegister], |found| {
        if found.is_accepted() && found.case.state().pmrs[found.case.number("pmr") as usize].entries == 0 {
            found.set("value", &[0; 32]);
        }
    }),
    fault("CHECK_CLEARS", "check clears a state that it refuses", &[LogCheck],
        |found| if found.answer == 4 { found.bytes("log").fill(0) }),
    fault("REPLAY_FRESH_REGISTERS", "replay hands back fresh registers", &[LogReplay],
        |found| replayed(found, |pmr| pmr.register = [0; 32])),
    fault("REPLAY_FRESH_NUMBERS", "replay hands back fresh numbers", &[LogReplay],
        |found| replayed(found, |pmr| pmr.entries = 0)),
    fault("REPLAY_READS_STATE", "replay gives 4 for the state that it replaces", &[LogReplay],
        |found| if found.answer != 3 && !adds_up(&found.case.state()) { found.refuse(4) }),
    fault("REFUSED_REPLAY_KEPT", "a refused replay hands back a state", &[LogReplay], |found| {
        if found.answer == 4 {
            let (state, _) = read(found.case.bytes("text"), log::record);
            found.set("log", &state);
        }
    }),
    fault("RESET_KEEPS_REGISTERS", "reset leaves the registers", &[LogReset], |found| {
        if found.is_accepted() {
            let pmrs = found.case.state().pmrs.map(|pmr| Pmr { entries: 0, ..pmr });
            found.set("log", &State { count: 0, pmrs });
        }
    }),
    fault("RESET_READS_STATE", "reset gives 4 for the state that it replaces", &[LogReset],
        |found| if found.is_accepted() && !adds_up(&found.case.state()) { found.refuse(4) }),
    fault("RESET_KEEPS_COUNT", "reset leaves the count", &[LogReset], |found| {
        if found.is_accepted() {
            found.set("log", &State { count: found.case.state().count, ..State::fresh() });
        }
    }),
    fault("PAST_STATE", "eight bytes behind the state are written", &[LogReset, LogRecord, LogReplay],
        |found| if found.is_accepted() { found.bytes("log").extend(BEHIND) }),
    fault("RANGE_BEFORE_STATE", "5 comes before 4", &[LogRecord, LogRegister],
        |found| if found.answer == 4 && found.case.number("pmr") >= PMRS as u64 { found.refuse(5) }),
];

/// By how much the count is above the PMRs' sum, modulo 2^64.
fn off_by(state: &State) -> u64 {
    state.pmrs.iter().fold(state.count, |left, pmr| left.wrapping_sub(pmr.entries))
}

/// Whether the first so many PMRs' numbers are the count.
fn is_sum_of(state: &State, pmrs: usize) -> bool {
    state.pmrs[..pmrs].iter().map(|pmr| u128::from(pmr.entries)).sum::<u128>() == u128::from(state.count)
}

fn adds_up(state: &State) -> bool {
    is_sum_of(state, PMRS)
}

/// A state that isn't one is taken, if this holds of it.
fn take_if(found: &mut Found, is_taken: fn(&State) -> bool) {
    if found.answer == 4 && is_taken(&found.case.state()) {
        take(found);
    }
}

/// The model is handed a sound state of the same registers and, up to 64, the same count. What it makes of the PMR is
/// then put to the numbers that were handed in.
fn take(found: &mut Found) {
    let (state, pmr) = (found.case.state(), found.case.number("pmr") as usize);
    let mut sound = State { count: state.count.min(CAPACITY as u64), ..State::fresh() };
    (0..PMRS).for_each(|pmr| sound.pmrs[pmr].register = state.pmrs[pmr].register);
    sound.pmrs[0].entries = sound.count;
    found.redo(|case| case.set("log", &sound));
    if found.case.call == LogRecord && found.is_accepted() {
        let mut next = State { count: state.count + 1, ..state };
        next.pmrs[pmr].register = found.value::<State>("log").pmrs[pmr].register;
        next.pmrs[pmr].entries = state.pmrs[pmr].entries.wrapping_add(1);
        found.bytes("buffer")[state.count as usize * ENTRY_LEN + 11] = state.pmrs[pmr].entries as u8;
        found.set("log", &next);
    }
}

/// The numbers of the calls that hold a buffer to the state show the fifth all the same.
fn sum_of_four(found: &mut Found) {
    let state = found.case.state();
    let by_state = matches!(found.case.call, LogRecord | LogRegister);
    if found.answer != 3 && state.is_permitted() && !is_sum_of(&state, PMRS - 1) {
        found.refuse(4);
    } else if found.answer == 4 && by_state && state.count <= CAPACITY as u64 && is_sum_of(&state, PMRS - 1) {
        take(found);
    }
}

/// An accepted record's next state, from the one before, is changed.
fn mistake(found: &mut Found, change: fn(&State, &mut State, usize)) {
    if found.is_accepted() {
        let mut next = found.value("log");
        change(&found.case.state(), &mut next, found.case.number("pmr") as usize);
        found.set("log", &next);
    }
}

/// Each PMR that an accepted replay hands back is changed.
fn replayed(found: &mut Found, change: fn(&mut Pmr)) {
    if found.is_accepted() {
        let mut state: State = found.value("log");
        state.pmrs.iter_mut().for_each(change);
        found.set("log", &state);
    }
}
