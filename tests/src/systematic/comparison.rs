//! Two recorded logs compared.

use super::broken;
use crate::generate::comparison::{alike, of_texts};
use crate::generate::log::{book, of_records, record};
use crate::generate::{absurd_len, damage};
use crate::harness::Harness;
use crate::model::log::{BUFFER_LEN, Book, CAPACITY, ENTRY_LEN, PMRS, Record};
use crate::rng::Rng;

/// Both texts on either side.
fn run_both(harness: &mut Harness, one: &[u8], other: &[u8], rng: &mut Rng) {
    for (left, right) in [(one, other), (other, one)] {
        harness.run(of_texts(left.to_vec(), right.to_vec(), rng));
    }
}

fn run_records(harness: &mut Harness, one: &Book, other: &[Record], rng: &mut Rng) {
    run_both(harness, one.text(), of_records(other).text(), rng);
}

/// One byte damaged, at every position of one text of a pair that agrees.
pub fn damaged(harness: &mut Harness, entries: usize, rng: &mut Rng) {
    let book = book(entries, rng);
    let alike = alike(&book, rng);
    run_both(harness, book.text(), alike.text(), rng);
    for at in 0..book.text().len() {
        let mut text = book.text().to_vec();
        damage(&mut text, at, rng);
        run_both(harness, &text, alike.text(), rng);
    }
}

/// Full logs whose records of one PMR first differ at every place: by another digest, by two that are exchanged, by one
/// that is left out or added, by an end. The PMR has all records, or every second one.
pub fn places(harness: &mut Harness, rng: &mut Rng) {
    for (pmr, step) in (0..PMRS).flat_map(|pmr| [(pmr, 1), (pmr, 2)]) {
        let of_pmr = |i: usize| if i.is_multiple_of(step) { pmr } else { (pmr + 1) % PMRS };
        let full: Vec<Record> = (0..CAPACITY).map(|i| Record { pmr: of_pmr(i) as u8, ..record(rng) }).collect();
        let full = of_records(&full);
        for at in 0..CAPACITY {
            differing_at(harness, &full, at, step, rng);
        }
    }
}

fn differing_at(harness: &mut Harness, full: &Book, at: usize, step: usize, rng: &mut Rng) {
    let mut records = full.records().to_vec();
    records[at].digest[rng.below(32)] ^= 1 << rng.below(8);
    run_records(harness, full, &records, rng);
    let mut records = full.records().to_vec();
    records.swap(at, (at + step) % CAPACITY);
    run_records(harness, full, &records, rng);
    let mut records = full.records().to_vec();
    let out = records.remove(at);
    run_records(harness, full, &records, rng);
    records.push(Record { pmr: out.pmr, ..record(rng) });
    run_records(harness, full, &records, rng);
    run_records(harness, full, &full.records()[..at], rng);
}

/// Every bit of a digest, at some places.
pub fn digest_bits(harness: &mut Harness, rng: &mut Rng) {
    let book = book(8, rng);
    for (at, bit) in [0, 3, 7].into_iter().flat_map(|at| (0..256).map(move |bit| (at, bit))) {
        let mut records = book.records().to_vec();
        records[at].digest[bit / 8] ^= 1 << (bit % 8);
        run_records(harness, &book, &records, rng);
    }
}

/// Logs of every pair of some sizes: one is the front of the other, or they share nothing.
pub fn sizes(harness: &mut Harness, rng: &mut Rng) {
    let full = book(CAPACITY, rng);
    let sizes = [0, 1, 2, 3, 5, 32, 62, 63, 64];
    for (one, other) in sizes.into_iter().flat_map(|one| sizes.map(|other| (one, other))) {
        run_records(harness, &of_records(&full.records()[..one]), &full.records()[..other], rng);
        let unlike = book(other, rng);
        run_records(harness, &book(one, rng), unlike.records(), rng);
    }
}

/// Every length of one text up to some past the longest, of a full log's front, and lengths that no memory has.
pub fn text_lengths(harness: &mut Harness, rng: &mut Rng) {
    let (full, short) = (book(CAPACITY, rng), book(2, rng));
    for len in 0..BUFFER_LEN + 100 {
        let mut text = full.text().to_vec();
        text.resize(len, 0);
        let other = if len.is_multiple_of(ENTRY_LEN) { full.text() } else { short.text() };
        run_both(harness, &text, other, rng);
    }
    for _ in 0..50 {
        let case = of_texts(short.text().to_vec(), full.text().to_vec(), rng);
        harness.run(case.clone().claiming(0, absurd_len(ENTRY_LEN, rng), 2));
        harness.run(case.claiming(1, absurd_len(ENTRY_LEN, rng), 2));
    }
}

/// Every set of broken rules of the two texts.
pub fn refusals_at_once(harness: &mut Harness, rng: &mut Rng) {
    for set in 0..64 {
        for _ in 0..20 {
            let (left, right) = (broken_text(set, rng), broken_text(set >> 3, rng));
            harness.run(of_texts(left, right, rng));
        }
    }
}

/// A log's text that breaks the first three rules of a set.
fn broken_text(set: u32, rng: &mut Rng) -> Vec<u8> {
    let entries = 1 + rng.below(8);
    let mut text = book(entries, rng).text().to_vec();
    if broken(set, 0) {
        let at = rng.below(text.len());
        damage(&mut text, at, rng);
    }
    if broken(set, 1) {
        text.push(0);
    }
    if broken(set, 2) {
        text.resize(BUFFER_LEN + ENTRY_LEN, 0);
    }
    text
}
