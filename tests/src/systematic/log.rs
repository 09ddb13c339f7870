//! The measurement log: its buffer, its texts, and every set of broken rules.

use super::broken;
use crate::calls::{BY_STATE, Call, JUDGING, OVER_STATE};
use crate::generate::comparison::alike;
use crate::generate::damage;
use crate::generate::log::{book, legacy_text, of_records, of_replay, of_reset, of_state, of_text_verdict};
use crate::generate::log_state::{break_sum, exceed, other_count, set_total};
use crate::harness::Harness;
use crate::model::log::{BUFFER_LEN, Book, CAPACITY, ENTRY_LEN, PMRS, State};
use crate::rng::Rng;

/// These calls on one state and buffer.
pub fn run_calls(harness: &mut Harness, calls: &[Call], state: &State, buffer: &[u8], rng: &mut Rng) {
    for &call in calls {
        let pmr = rng.below(PMRS) as u8;
        harness.run(of_state(call, state, pmr, buffer.to_vec(), rng));
    }
}

/// Both calls that judge a text, on one text.
fn run_text(harness: &mut Harness, text: &[u8], rng: &mut Rng) {
    let held = rng.filling(BUFFER_LEN);
    harness.run(of_replay(text.to_vec(), held, rng));
    harness.run(of_text_verdict(text.to_vec()));
}

/// One byte damaged, at every position of the buffer.
pub fn damaged(harness: &mut Harness, calls: &[Call], entries: usize, rng: &mut Rng) {
    let book = book(entries, rng);
    for at in 0..BUFFER_LEN {
        let mut buffer = book.buffer();
        damage(&mut buffer, at, rng);
        run_calls(harness, calls, &book.state(), &buffer, rng);
    }
}

/// One byte damaged, at every position of the text.
pub fn damaged_texts(harness: &mut Harness, entries: usize, rng: &mut Rng) {
    let book = book(entries, rng);
    for at in 0..book.text().len() {
        let mut text = book.text().to_vec();
        damage(&mut text, at, rng);
        run_text(harness, &text, rng);
    }
}

/// Sound logs of every size, with counts that are and are not theirs; the numbers add up to these, or stay.
pub fn sizes(harness: &mut Harness, rng: &mut Rng) {
    for entries in 0..=CAPACITY {
        let book = book(entries, rng);
        run_calls(harness, OVER_STATE, &book.state(), &book.buffer(), rng);
        run_text(harness, book.text(), rng);
        let far: Vec<u64> = (0..40).map(|_| other_count(entries as u64, rng)).collect();
        for count in (0..=70).chain(far) {
            let mut state = book.state();
            if rng.chance(50) {
                set_total(&mut state, count, rng.below(PMRS));
            } else {
                state.count = count;
            }
            run_calls(harness, &[rng.pick(BY_STATE), rng.pick(JUDGING)], &state, &book.buffer(), rng);
        }
    }
}

/// Every PMR number, on logs of some sizes.
pub fn pmrs(harness: &mut Harness, rng: &mut Rng) {
    for entries in [0, 1, 7, 63, 64] {
        let book = book(entries, rng);
        for (pmr, call) in (0..=255).flat_map(|pmr| BY_STATE.iter().map(move |&call| (pmr, call))) {
            harness.run(of_state(call, &book.state(), pmr, book.buffer(), rng));
        }
    }
}

/// Every PMR number within entries. In the first entry of its PMR it may be another's that has none yet: the register
/// starts as zeros for each, so that some run of records writes this too, though not the one that the state is of.
pub fn pmr_bytes(harness: &mut Harness, rng: &mut Rng) {
    for entries in [1, 2, 5] {
        for _ in 0..5 {
            let book = book(entries, rng);
            for (entry, pmr) in (0..entries).flat_map(|entry| (0..=255).map(move |pmr| (entry, pmr))) {
                let mut buffer = book.buffer();
                buffer[entry * ENTRY_LEN + 12] = pmr;
                let text = &buffer[..entries * ENTRY_LEN];
                run_text(harness, text, rng);
                run_calls(harness, OVER_STATE, &book.state(), &buffer, rng);
                if let Ok(other) = Book::of_text(text) {
                    run_calls(harness, JUDGING, &other.state(), &buffer, rng);
                }
            }
        }
    }
}

/// Sound buffers of other runs with as many entries of each PMR: at every place another digest, which a register shows,
/// or another event type, which none does; and all event types and the order between PMRs changed at once.
pub fn other_runs(harness: &mut Harness, rng: &mut Rng) {
    for entries in [1, 12, CAPACITY] {
        let book = book(entries, rng);
        for at in 0..entries {
            let mut records = book.records().to_vec();
            records[at].event_type ^= 1 << rng.below(32);
            run_calls(harness, OVER_STATE, &book.state(), &of_records(&records).buffer(), rng);
            records[at].digest[rng.below(32)] ^= 1 << rng.below(8);
            run_calls(harness, OVER_STATE, &book.state(), &of_records(&records).buffer(), rng);
        }
        run_calls(harness, OVER_STATE, &book.state(), &alike(&book, rng).buffer(), rng);
    }
}

/// Every length of the lent buffer up to some past the right one.
pub fn buffer_lengths(harness: &mut Harness, rng: &mut Rng) {
    let book = book(3, rng);
    for len in 0..BUFFER_LEN + 100 {
        let mut buffer = book.buffer();
        buffer.resize(len, 0);
        let held = rng.bytes(len);
        harness.run(of_reset(held, rng));
        harness.run(of_replay(book.text().to_vec(), buffer.clone(), rng));
        run_calls(harness, &[rng.pick(BY_STATE), rng.pick(JUDGING)], &book.state(), &buffer, rng);
    }
}

/// Every length of text up to some past the longest: of zeros, and of a full log's front.
pub fn text_lengths(harness: &mut Harness, rng: &mut Rng) {
    let full = book(CAPACITY, rng);
    for len in 0..BUFFER_LEN + 100 {
        let mut text = full.text().to_vec();
        text.resize(len, 0);
        for text in [text, vec![0; len]] {
            run_text(harness, &text, rng);
        }
    }
}

/// Logs in the legacy form, of every number of entries, and an entry behind a full one.
pub fn legacy_texts(harness: &mut Harness, rng: &mut Rng) {
    for entries in 1..=CAPACITY {
        run_text(harness, &legacy_text(entries, rng), rng);
    }
    let behind = [legacy_text(CAPACITY, rng), legacy_text(1, rng)].concat();
    run_text(harness, &behind, rng);
}

/// Every set of broken rules of the calls that read a state.
pub fn refusals_at_once(harness: &mut Harness, rng: &mut Rng) {
    for set in 0..128 {
        for _ in 0..8 {
            let entries = if broken(set, 0) { CAPACITY } else { rng.below(CAPACITY) };
            let book = book(entries, rng);
            for &call in OVER_STATE {
                let pmr = if broken(set, 1) { 5 + rng.byte() % 251 } else { rng.below(PMRS) as u8 };
                let (state, buffer) = (broken_state(set, &book, rng), broken_buffer(set, &book, rng));
                harness.run(of_state(call, &state, pmr, buffer, rng));
            }
        }
    }
}

fn broken_state(set: u32, book: &Book, rng: &mut Rng) -> State {
    let mut state = book.state();
    if broken(set, 2) {
        damage(&mut state.pmrs[rng.below(PMRS)].register, rng.below(32), rng);
    }
    if broken(set, 3) {
        exceed(&mut state, rng);
    }
    if broken(set, 4) {
        break_sum(&mut state, rng);
    }
    state
}

fn broken_buffer(set: u32, book: &Book, rng: &mut Rng) -> Vec<u8> {
    let mut buffer = book.buffer();
    if broken(set, 5) {
        damage(&mut buffer, rng.below(BUFFER_LEN), rng);
    }
    if broken(set, 6) {
        buffer.resize(rng.pick(&[0, BUFFER_LEN - 1, BUFFER_LEN + 1]), 0);
    }
    buffer
}

/// Every set of broken rules of the calls that judge a text.
pub fn text_refusals_at_once(harness: &mut Harness, rng: &mut Rng) {
    for set in 0..16 {
        for _ in 0..20 {
            let entries = rng.below(CAPACITY + 1);
            replay(harness, set, &book(entries, rng), rng);
        }
    }
}

fn replay(harness: &mut Harness, set: u32, book: &Book, rng: &mut Rng) {
    let mut text = book.text().to_vec();
    if broken(set, 0) && !text.is_empty() {
        damage(&mut text, rng.below(book.text().len()), rng);
    }
    if broken(set, 1) {
        text.push(0);
    }
    if broken(set, 2) {
        text.resize(BUFFER_LEN + ENTRY_LEN, 0);
    }
    let len = if broken(set, 3) { rng.pick(&[0, BUFFER_LEN - 1, BUFFER_LEN + 1]) } else { BUFFER_LEN };
    let held = rng.filling(len);
    harness.run(of_text_verdict(text.clone()));
    harness.run(of_replay(text, held, rng));
}
