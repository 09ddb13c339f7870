//! The state of a log: every byte, every bit of its numbers, and numbers that seem to add up.

use super::log::run_calls;
use crate::calls::{BY_STATE, JUDGING, OVER_STATE};
use crate::ffi::{log_bytes, log_state};
use crate::generate::damage;
use crate::generate::log::{Pool, of_state, other_buffer, record};
use crate::generate::log_state::{NUMBERS, exchange_registers, move_between, number};
use crate::harness::Harness;
use crate::model::log::{BUFFER_LEN, Book, CAPACITY, PMRS, Record, State};
use crate::rng::Rng;

/// A short log and a full one, in which each PMR has another number of entries.
fn logs(rng: &mut Rng) -> [Book; 2] {
    [of_numbers([1, 4, 2, 5, 3], rng), of_numbers([12, 19, 8, 10, 15], rng)]
}

/// A log with so many entries of each PMR, which take turns.
fn of_numbers(numbers: [usize; PMRS], rng: &mut Rng) -> Book {
    let mut book = Book::empty();
    for (turn, pmr) in (0..CAPACITY).flat_map(|turn| (0..PMRS).map(move |pmr| (turn, pmr))) {
        if turn < numbers[pmr] {
            book.add(Record { pmr: pmr as u8, ..record(rng) }).unwrap();
        }
    }
    book
}

/// Both calls that go by the state, for each PMR and past the last.
fn run_each_pmr(harness: &mut Harness, state: &State, buffer: &[u8], rng: &mut Rng) {
    for (pmr, call) in (0..=PMRS as u8).flat_map(|pmr| BY_STATE.iter().map(move |&call| (pmr, call))) {
        harness.run(of_state(call, state, pmr, buffer.to_vec(), rng));
    }
}

/// Every byte changed. The buffer is the log's own or, for the calls that go by the state, any.
pub fn bytes(harness: &mut Harness, rng: &mut Rng) {
    for book in logs(rng) {
        let own = log_bytes(&book.state());
        for at in 0..own.len() {
            let mut changed = own.clone();
            damage(&mut changed, at, rng);
            let state = log_state(&changed);
            run_calls(harness, JUDGING, &state, &book.buffer(), rng);
            run_each_pmr(harness, &state, &book.buffer(), rng);
            let held = rng.filling(BUFFER_LEN);
            run_each_pmr(harness, &state, &held, rng);
        }
    }
}

/// Every bit of every number, and of a PMR's number and the count at once, so that some add up again.
pub fn number_bits(harness: &mut Harness, rng: &mut Rng) {
    for book in logs(rng) {
        for (place, bit) in (0..NUMBERS).flat_map(|place| (0..64).map(move |bit| (place, bit))) {
            let mut state = book.state();
            *number(&mut state, place) ^= 1 << bit;
            run_calls(harness, OVER_STATE, &state, &book.buffer(), rng);
            if place > 0 {
                state.count ^= 1 << bit;
                run_calls(harness, OVER_STATE, &state, &book.buffer(), rng);
            }
        }
    }
}

/// So many entries are moved from one PMR to another, though it has fewer: the sum is right in 64 bits. So many more in
/// one PMR alone: it is right in fewer.
const MOVED: [u64; 11] = [1, 3, 64, 65, 128, 256, 1 << 16, 1 << 31, 1 << 32, 1 << 62, 1 << 63];

/// Each two PMRs with numbers, registers or both exchanged, and numbers that add up only where the sum wraps.
pub fn pairs(harness: &mut Harness, rng: &mut Rng) {
    for book in logs(rng) {
        for (one, other) in (0..PMRS).flat_map(|one| (0..PMRS).map(move |other| (one, other))) {
            if one != other {
                pair(harness, &book, one, other, rng);
            }
        }
    }
}

fn pair(harness: &mut Harness, book: &Book, one: usize, other: usize, rng: &mut Rng) {
    let mut exchanged = book.state();
    exchanged.pmrs.swap(one, other);
    run_calls(harness, OVER_STATE, &exchanged, &book.buffer(), rng);
    exchange_registers(&mut exchanged, one, other);
    run_calls(harness, OVER_STATE, &exchanged, &book.buffer(), rng);
    let mut exchanged = book.state();
    exchange_registers(&mut exchanged, one, other);
    run_calls(harness, OVER_STATE, &exchanged, &book.buffer(), rng);
    for entries in MOVED {
        let mut state = book.state();
        move_between(&mut state, one, other, entries);
        run_calls(harness, OVER_STATE, &state, &book.buffer(), rng);
        state.pmrs[one].entries = book.state().pmrs[one].entries;
        run_calls(harness, OVER_STATE, &state, &book.buffer(), rng);
    }
}

/// The empty log's state, and one with a register that no records give, over buffers of all kinds.
pub fn without_entries(harness: &mut Harness, rng: &mut Rng) {
    let pool = Pool::new(rng);
    for _ in 0..200 {
        let mut state = State::fresh();
        for _ in 0..2 {
            let buffer = other_buffer(&Book::empty(), &pool, rng);
            for held in [buffer, vec![0; BUFFER_LEN]] {
                run_calls(harness, JUDGING, &state, &held, rng);
                run_each_pmr(harness, &state, &held, rng);
            }
            damage(&mut state.pmrs[rng.below(PMRS)].register, rng.below(32), rng);
        }
    }
}
