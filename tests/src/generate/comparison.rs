//! Pairs of logs that share most of their records, so that most PMRs agree and the others differ at any place.

use super::log::{Pool, broken_text, of_records, record};
use super::{absurd_len, damage, word};
use crate::calls::Call;
use crate::case::Case;
use crate::ffi::COMPARISON_LEN;
use crate::model::log::{Book, CAPACITY, ENTRY_LEN, Record};
use crate::rng::Rng;

pub fn case(pool: &Pool, rng: &mut Rng) -> Case {
    let book = pool.pick(rng);
    let other = if rng.chance(5) { pool.pick(rng).clone() } else { of_records(&changed(book.records(), rng)) };
    let (left, right) = if rng.chance(50) { (book, &other) } else { (&other, book) };
    let (mut left_text, mut right_text) = (left.text().to_vec(), right.text().to_vec());
    let broken = rng.below(20);
    if broken < 3 {
        left_text = broken_text(left, rng);
    }
    if (2..5).contains(&broken) {
        right_text = broken_text(right, rng);
    }
    sometimes_claiming(of_texts(left_text, right_text, rng), rng)
}

/// Now and then one text's length is one that no memory has. The right text is only looked at where the left one passes.
fn sometimes_claiming(case: Case, rng: &mut Rng) -> Case {
    match rng.below(50) {
        0 => case.claiming(0, absurd_len(ENTRY_LEN, rng), 2),
        1 => {
            let answer = Book::of_text(&case.lent[0]).map_or_else(|refusal| refusal as u8, |_| 2);
            case.claiming(1, absurd_len(ENTRY_LEN, rng), answer)
        }
        _ => case,
    }
}

pub fn of_texts(left: Vec<u8>, right: Vec<u8>, rng: &mut Rng) -> Case {
    Case::new(Call::LogCompare, &[], vec![left, right, rng.bytes(COMPARISON_LEN)])
}

/// The records of another log: the same with none to three changes.
fn changed(records: &[Record], rng: &mut Rng) -> Vec<Record> {
    let mut records = records.to_vec();
    for _ in 0..rng.pick(&[0, 1, 1, 1, 1, 2, 3]) {
        change(&mut records, rng);
    }
    records
}

fn change(records: &mut Vec<Record>, rng: &mut Rng) {
    let len = records.len();
    if len == 0 {
        return records.push(record(rng));
    }
    let (at, other) = (rng.below(len), rng.below(len));
    match rng.below(11) {
        0..2 => damage(&mut records[at].digest, rng.below(32), rng),
        2 => records[at].digest = records[other].digest,
        3 => exchange_within_pmr(records, at),
        4 => records.swap(at, other),
        5 if len < CAPACITY => records.push(record(rng)),
        6 if len < CAPACITY => records.insert(at, record(rng)),
        7 => drop(records.remove(at)),
        8 => regroup(records, rng),
        9 => records.iter_mut().for_each(|record| record.event_type = word(rng)),
        10 => records[at].pmr = rng.below(5) as u8,
        _ => drop(records.pop()),
    }
}

/// A log with the same digests for each PMR: its event types are others, and so is the order between PMRs.
pub fn alike(book: &Book, rng: &mut Rng) -> Book {
    let mut records = book.records().to_vec();
    records.iter_mut().for_each(|record| record.event_type = word(rng));
    regroup(&mut records, rng);
    of_records(&records)
}

/// A log with as many entries of each PMR, of which one digest is another or two are exchanged, as a rule.
pub fn other_digests(book: &Book, rng: &mut Rng) -> Book {
    let mut records = book.records().to_vec();
    if records.is_empty() {
        return Book::empty();
    }
    let at = rng.below(records.len());
    if rng.chance(70) {
        damage(&mut records[at].digest, rng.below(32), rng);
    } else {
        exchange_within_pmr(&mut records, at);
    }
    of_records(&records)
}

/// Exchanges a record with the next one of its PMR, if there is one.
fn exchange_within_pmr(records: &mut [Record], at: usize) {
    let pmr = records[at].pmr;
    if let Some(next) = (at + 1..records.len()).find(|&next| records[next].pmr == pmr) {
        records.swap(at, next);
    }
}

/// Another order between PMRs; within each the records stay in theirs.
fn regroup(records: &mut [Record], rng: &mut Rng) {
    let order: [u64; 5] = std::array::from_fn(|_| rng.next());
    records.sort_by_key(|record| order[usize::from(record.pmr)]);
}
