//! Logs: sound ones, damaged ones, and ones that a writer with one wrong rule, or of the legacy form, would leave.

use super::comparison::{alike, other_digests};
use super::log_state::{other_state, unread};
use super::{absurd_len, damage, size, word, wrong_len};
use crate::calls::Call;
use crate::case::Case;
use crate::ffi::log_bytes;
use crate::model::log::{BUFFER_LEN, Book, CAPACITY, ENTRY_LEN, Pmr, Record, State};
use crate::model::sha256::sha256;
use crate::rng::Rng;

pub fn record(rng: &mut Rng) -> Record {
    let digest = rng.filling(32).try_into().unwrap();
    Record { pmr: rng.below(5) as u8, event_type: word(rng), digest }
}

/// A sound log of so many entries, all of one PMR now and then.
pub fn book(entries: usize, rng: &mut Rng) -> Book {
    let only = rng.chance(15).then(|| rng.below(5) as u8);
    let mut book = Book::empty();
    for _ in 0..entries {
        let record = record(rng);
        book.add(Record { pmr: only.unwrap_or(record.pmr), ..record }).unwrap();
    }
    book
}

/// The log that these records write.
pub fn of_records(records: &[Record]) -> Book {
    let mut book = Book::empty();
    records.iter().for_each(|record| book.add(*record).unwrap());
    book
}

/// Sound logs to make cases from.
pub struct Pool {
    short: Vec<Book>,
    middle: Vec<Book>,
    long: Vec<Book>,
}

impl Pool {
    pub fn new(rng: &mut Rng) -> Pool {
        let long = [21, 32, 48, 62, 63, 63, 64, 64, 64, 64];
        Pool {
            short: (0..70).map(|i| book(i % 7, rng)).collect(),
            middle: (7..21).map(|i| book(i, rng)).collect(),
            long: long.iter().map(|&i| book(i, rng)).collect(),
        }
    }

    /// Most logs are short, as each entry costs hashes on both sides.
    pub fn pick(&self, rng: &mut Rng) -> &Book {
        let size = match rng.below(20) {
            0..14 => &self.short,
            14..17 => &self.middle,
            _ => &self.long,
        };
        &size[rng.below(size.len())]
    }
}

pub fn reset(rng: &mut Rng) -> Case {
    let len = if rng.chance(60) { BUFFER_LEN } else { wrong_len(BUFFER_LEN, rng) };
    let case = of_reset(rng.filling(len), rng);
    if rng.chance(2) { case.claiming(1, absurd_len(BUFFER_LEN, rng), 3) } else { case }
}

pub fn of_reset(buffer: Vec<u8>, rng: &mut Rng) -> Case {
    Case::new(Call::LogReset, &[], vec![unread(rng), buffer])
}

/// A case of one of the five calls that read a state.
pub fn over_state(call: Call, pool: &Pool, rng: &mut Rng) -> Case {
    let (state, mut buffer) = state_and_buffer(pool, rng);
    if rng.chance(8) {
        buffer.resize(wrong_len(BUFFER_LEN, rng), 0);
    }
    let case = of_state(call, &state, pmr(rng), buffer, rng);
    if rng.chance(2) { case.claiming(call.place("buffer"), absurd_len(BUFFER_LEN, rng), 3) } else { case }
}

pub fn of_state(call: Call, state: &State, pmr: u8, buffer: Vec<u8>, rng: &mut Rng) -> Case {
    let (state, pmr) = (log_bytes(state), u64::from(pmr));
    match call {
        Call::LogRecord => {
            let record = record(rng);
            let lent = vec![state, record.digest.to_vec(), buffer];
            Case::new(call, &[pmr, u64::from(record.event_type)], lent)
        }
        Call::LogRegister => Case::new(call, &[pmr], vec![state, buffer, rng.bytes(32)]),
        Call::LogReadOut => Case::new(call, &[], vec![state, buffer, size(rng)]),
        Call::LogReadOutVerdict | Call::LogCheck => Case::new(call, &[], vec![state, buffer]),
        _ => unreachable!("not a call over a log's state"),
    }
}

pub fn pmr(rng: &mut Rng) -> u8 {
    match rng.below(10) {
        0 => 5,
        1 => rng.pick(&[6, 7, 8, 0x80, 0xff]),
        2 => rng.byte(),
        _ => rng.below(5) as u8,
    }
}

/// A state and a buffer of the right length, which go together in about half of the cases.
fn state_and_buffer(pool: &Pool, rng: &mut Rng) -> (State, Vec<u8>) {
    let book = pool.pick(rng);
    match rng.below(20) {
        0..8 => (book.state(), book.buffer()),
        8..13 => (book.state(), other_buffer(book, pool, rng)),
        13..17 => (other_state(book, pool, rng), book.buffer()),
        17 => (other_state(book, pool, rng), other_buffer(book, pool, rng)),
        _ => {
            let (text, state) = written_by(&WRITERS[rng.below(WRITERS.len())], book.records());
            (state, in_buffer(text))
        }
    }
}

/// A buffer of the right length that isn't this log's, as a rule. Where it is that of a log with the same registers and
/// numbers, it goes with the state all the same.
pub fn other_buffer(book: &Book, pool: &Pool, rng: &mut Rng) -> Vec<u8> {
    match rng.below(14) {
        0..4 => damaged_within(book, rng),
        4..6 => damaged_behind(book, rng),
        6..9 => in_buffer(unsound_text(book, rng)),
        9 => rng.filling(BUFFER_LEN),
        10 => pool.pick(rng).buffer(),
        11..13 => other_digests(book, rng).buffer(),
        _ => alike(book, rng).buffer(),
    }
}

/// A text and then zeros.
fn in_buffer(mut text: Vec<u8>) -> Vec<u8> {
    text.resize(BUFFER_LEN, 0);
    text
}

fn damaged_within(book: &Book, rng: &mut Rng) -> Vec<u8> {
    let mut buffer = book.buffer();
    let places = book.text().len().max(1);
    for _ in 0..rng.pick(&[1, 1, 1, 2, 5]) {
        let at = rng.below(places);
        damage(&mut buffer, at, rng);
    }
    buffer
}

fn damaged_behind(book: &Book, rng: &mut Rng) -> Vec<u8> {
    let mut buffer = book.buffer();
    let first = book.text().len();
    let random = first + rng.below(BUFFER_LEN.saturating_sub(first).max(1));
    let at = rng.pick(&[first, random, random, BUFFER_LEN - 1]).min(BUFFER_LEN - 1);
    damage(&mut buffer, at, rng);
    buffer
}

/// A case of replay.
pub fn replay(pool: &Pool, rng: &mut Rng) -> Case {
    let text = text(pool, rng);
    let len = if rng.chance(90) { BUFFER_LEN } else { wrong_len(BUFFER_LEN, rng) };
    let case = of_replay(text, rng.filling(len), rng);
    let claims_text = rng.chance(50);
    match rng.below(50) {
        0 if claims_text && len == BUFFER_LEN => case.claiming(1, absurd_len(ENTRY_LEN, rng), 2),
        0 => case.claiming(2, absurd_len(BUFFER_LEN, rng), 3),
        _ => case,
    }
}

pub fn of_replay(text: Vec<u8>, buffer: Vec<u8>, rng: &mut Rng) -> Case {
    Case::new(Call::LogReplay, &[], vec![unread(rng), text, buffer])
}

/// A case of the call that judges a text.
pub fn text_verdict(pool: &Pool, rng: &mut Rng) -> Case {
    let case = of_text_verdict(text(pool, rng));
    if rng.chance(2) { case.claiming(0, absurd_len(ENTRY_LEN, rng), 2) } else { case }
}

pub fn of_text_verdict(text: Vec<u8>) -> Case {
    Case::new(Call::LogTextVerdict, &[], vec![text])
}

/// A recorded log's text, sound in about half of the cases.
fn text(pool: &Pool, rng: &mut Rng) -> Vec<u8> {
    let book = pool.pick(rng);
    if rng.chance(45) { book.text().to_vec() } else { broken_text(book, rng) }
}

/// A text that looks like a log's and that a replay refuses, as a rule.
pub fn broken_text(book: &Book, rng: &mut Rng) -> Vec<u8> {
    match rng.below(11) {
        0..4 => damaged_within(book, rng)[..book.text().len()].to_vec(),
        4..7 => unsound_text(book, rng),
        7 => rng.filling(book.text().len()),
        _ => of_other_length(book, rng),
    }
}

/// A sound log's text, longer or shorter than it was.
fn of_other_length(book: &Book, rng: &mut Rng) -> Vec<u8> {
    let len = book.text().len();
    let near = [len.saturating_sub(1), len + 1, len + ENTRY_LEN - 1, len + ENTRY_LEN, len.saturating_sub(ENTRY_LEN)];
    let legacy = LEGACY_ENTRY_LEN * (1 + rng.below(CAPACITY));
    let past = [BUFFER_LEN + 1, BUFFER_LEN + ENTRY_LEN, 2 * BUFFER_LEN, 6000];
    let far = [1, ENTRY_LEN - 1, ENTRY_LEN + 1, BUFFER_LEN - 1, BUFFER_LEN, rng.pick(&past), legacy];
    let len = if rng.chance(50) { rng.pick(&near) } else { rng.pick(&far) };
    let mut text = book.text().to_vec();
    text.resize(len, 0);
    text
}

/// The rules of a log writer.
#[derive(Clone, Copy)]
struct Rules {
    digest_first: bool,
    index_over_whole_log: bool,
    measurement_is_old_register: bool,
    high_byte_first: bool,
    one_register: bool,
    first_id: u32,
    first_index: u8,
    first_register: u8,
    marker: u8,
    entry_len: u16,
    digest_count: u8,
    /// The bytes between the number of digests and the digest.
    reserved_and_algorithm: &'static [u8],
    size: u32,
    pmr_shift: u8,
}

const RIGHT: Rules = Rules {
    digest_first: false,
    index_over_whole_log: false,
    measurement_is_old_register: false,
    high_byte_first: false,
    one_register: false,
    first_id: 0,
    first_index: 0,
    first_register: 0,
    marker: 0xcb,
    entry_len: ENTRY_LEN as u16,
    digest_count: 1,
    reserved_and_algorithm: &[0, 0, 0, 0x0b, 0],
    size: 32,
    pmr_shift: 0,
};

/// An entry in the form of document 003, which Item 4 of document 02 replaced.
pub const LEGACY_ENTRY_LEN: usize = 87;

/// The writer of that form.
const LEGACY: Rules =
    Rules { marker: 0x0b, entry_len: LEGACY_ENTRY_LEN as u16, reserved_and_algorithm: &[0, 0, 0x0b], ..RIGHT };

/// A log of so many entries in that form.
pub fn legacy_text(entries: usize, rng: &mut Rng) -> Vec<u8> {
    written_by(&LEGACY, book(entries, rng).records()).0
}

/// The right writer, and writers with one wrong rule each or of the legacy form.
const WRITERS: [Rules; 20] = [
    RIGHT,
    Rules { digest_first: true, ..RIGHT },
    Rules { index_over_whole_log: true, ..RIGHT },
    Rules { measurement_is_old_register: true, ..RIGHT },
    Rules { high_byte_first: true, ..RIGHT },
    Rules { one_register: true, ..RIGHT },
    Rules { first_id: 1, ..RIGHT },
    Rules { first_index: 1, ..RIGHT },
    Rules { first_register: 0xff, ..RIGHT },
    Rules { marker: 0x0b, ..RIGHT },
    Rules { marker: 0xbc, ..RIGHT },
    Rules { entry_len: LEGACY_ENTRY_LEN as u16, ..RIGHT },
    Rules { digest_count: 2, ..RIGHT },
    Rules { reserved_and_algorithm: &[0, 0, 0, 0x0c, 0], ..RIGHT },
    Rules { reserved_and_algorithm: &[0, 0, 0, 0, 0x0b], ..RIGHT },
    Rules { reserved_and_algorithm: &[0, 0, 0x0b, 0, 0], ..RIGHT },
    Rules { reserved_and_algorithm: &[0, 0, 0, 0x0b], ..RIGHT },
    LEGACY,
    Rules { size: 64, ..RIGHT },
    // PMRs 4 to 8: some are out of range though all else is by the rules.
    Rules { pmr_shift: 4, ..RIGHT },
];

/// The text that a writer with these rules leaves for the records, and its state.
fn written_by(rules: &Rules, records: &[Record]) -> (Vec<u8>, State) {
    let mut pmrs = [Pmr { register: [rules.first_register; 32], entries: 0 }; 16];
    let mut text = Vec::new();
    for (id, record) in records.iter().enumerate() {
        let pmr = record.pmr + rules.pmr_shift;
        let register = if rules.one_register { 0 } else { usize::from(pmr) };
        let old = pmrs[register].register;
        let joined = if rules.digest_first { [record.digest, old] } else { [old, record.digest] };
        pmrs[register].register = sha256(&joined.concat());
        let measurement = if rules.measurement_is_old_register { old } else { pmrs[register].register };
        let index = if rules.index_over_whole_log { id as u64 } else { pmrs[usize::from(pmr)].entries };
        pmrs[usize::from(pmr)].entries += 1;
        text.push(rules.marker);
        text.extend(rules.entry_len.to_le_bytes());
        text.extend(number(rules, id as u32 + rules.first_id));
        text.extend(record.event_type.to_le_bytes());
        text.extend([index as u8 + rules.first_index, pmr, 0, 0, rules.digest_count]);
        text.extend(rules.reserved_and_algorithm);
        text.extend(record.digest);
        text.extend(number(rules, rules.size));
        text.extend(measurement);
    }
    (text, State { count: records.len() as u64, pmrs: std::array::from_fn(|pmr| pmrs[pmr]) })
}

fn number(rules: &Rules, number: u32) -> [u8; 4] {
    if rules.high_byte_first { number.to_be_bytes() } else { number.to_le_bytes() }
}

/// A text that no run of records writes, as a rule; most of these are of whole entries.
fn unsound_text(book: &Book, rng: &mut Rng) -> Vec<u8> {
    if rng.chance(50) {
        let rules = WRITERS[rng.below(WRITERS.len())];
        return written_by(&rules, book.records()).0;
    }
    let mut entries: Vec<&[u8]> = book.text().chunks_exact(ENTRY_LEN).collect();
    let (a, b) = (rng.below(entries.len().max(1)), rng.below(entries.len().max(1)));
    match rng.below(4) {
        _ if entries.is_empty() => entries.push(&[0; ENTRY_LEN]),
        0 => entries.swap(a, b),
        1 => drop(entries.remove(a)),
        2 if entries.len() < CAPACITY => entries.insert(a, entries[b]),
        _ => entries[a] = &[0; ENTRY_LEN],
    }
    entries.concat()
}
