//! Faults of the comparison of two logs.

use super::log::{is_text_len, text_verdict};
use super::{Fault, Found, fault};
use crate::calls::Call::LogCompare;
use crate::ffi::Compared;
use crate::model::log::{ENTRY_LEN, PMRS};

/// What is answered of a PMR: left and right records, same register, agree, differ at.
type Row = [u8; 5];
/// A PMR's entries.
type Entries<'a> = [&'a [u8]];
/// The entry at a place, none behind the last.
type Entry<'a> = Option<&'a &'a [u8]>;

pub const RIGHT: Fault = fault("COMPARISON", "the comparison of logs by the right rules", &[LogCompare], |found| {
    each(found, |row, left, right| put(row, places(left, right, differs).next()))
});

#[rustfmt::skip]
pub const FAULTS: &[Fault] = &[
    fault("RIGHT_FIRST", "the right text is judged first", &[LogCompare], |found| {
        let refusal = ["right", "left"].map(|name| text_verdict(found.case, name)).into_iter().find(|&n| n != 0);
        if let Some(refusal) = refusal {
            found.refuse(refusal);
        }
    }),
    fault("RIGHT_BY_LENGTH", "the right text is judged by its length alone", &[LogCompare],
        |found| if found.answer == 4 && text_verdict(found.case, "left") == 0 { found.refuse(0) }),
    fault("LENGTHS_FIRST", "both texts' lengths are judged first", &[LogCompare], |found| {
        if !is_text_len(found.case.len("left")) || !is_text_len(found.case.len("right")) {
            found.refuse(2);
        }
    }),
    fault("COMPARISON_CLEARED", "a refused comparison clears its answer", &[LogCompare],
        |found| if !found.is_accepted() { found.bytes("comparison").fill(0) }),
    fault("SIDES_EXCHANGED", "left and right records are exchanged", &[LogCompare],
        |found| each(found, |row, _, _| row.swap(0, 1))),
    fault("REGISTER_BY_COUNT", "registers are the same where the counts are", &[LogCompare],
        |found| each(found, |row, left, right| row[2] = u8::from(left.len() == right.len()))),
    fault("AGREE_BY_COUNT", "digests agree where the counts do", &[LogCompare],
        |found| each(found, |row, left, right| {
            put(row, places(left, right, |a, b| a.is_none() != b.is_none()).next())
        })),
    fault("END_IGNORED", "an end isn't taken as a difference", &[LogCompare],
        |found| each(found, |row, left, right| {
            put(row, places(left, right, |a, b| a.is_some() && b.is_some() && differs(a, b)).next())
        })),
    fault("DIGEST_ANYWHERE", "a digest may stand anywhere in its PMR", &[LogCompare], |found| each(found, anywhere)),
    fault("HALF_DIGEST", "half of each digest is compared", &[LogCompare],
        |found| each(found, |row, left, right| put(row, places(left, right, |a, b| unlike(a, b, 21..37)).next()))),
    fault("EVENT_TYPE_COMPARED", "event types are compared too", &[LogCompare],
        |found| each(found, |row, left, right| {
            put(row, places(left, right, |a, b| differs(a, b) || unlike(a, b, 7..11)).next())
        })),
    fault("ORDER_COMPARED", "the order between PMRs is compared too", &[LogCompare],
        |found| each(found, |row, left, right| {
            put(row, places(left, right, |a, b| differs(a, b) || unlike(a, b, 3..7)).next())
        })),
    fault("LAST_DIFFERENCE", "the last difference is answered", &[LogCompare],
        |found| each(found, |row, left, right| put(row, places(left, right, differs).last()))),
    fault("PLACE_FROM_1", "the place of a difference counts from 1", &[LogCompare],
        |found| each(found, |row, _, _| row[4] += 1 - row[3])),
    fault("PLACE_OVER_LOG", "the place of a difference counts over the whole log", &[LogCompare],
        |found| each(found, |row, left, right| {
            if let Some(place) = places(left, right, differs).next() {
                row[4] = left.get(place).unwrap_or_else(|| &right[place])[3];
            }
        })),
    fault("END_AT_AGREEMENT", "digests that agree have their end as a place", &[LogCompare],
        |found| each(found, |row, _, _| if row[3] == 1 { row[4] = row[0] })),
];

/// Changes what an accepted comparison answers of each PMR.
fn each(found: &mut Found, change: fn(&mut Row, &Entries, &Entries)) {
    if found.is_accepted() {
        let mut rows: Compared = found.value("comparison");
        for (pmr, row) in (0..PMRS as u8).zip(&mut rows) {
            let [left, right] = ["left", "right"].map(|name| entries(found.case.bytes(name), pmr));
            change(row, &left, &right);
        }
        found.set("comparison", &rows);
    }
}

fn entries(text: &[u8], pmr: u8) -> Vec<&[u8]> {
    text.chunks_exact(ENTRY_LEN).filter(|entry| entry[12] == pmr).collect()
}

/// The places at which the two differ, by some rule for what each has there.
fn places<'a>(left: &'a Entries, right: &'a Entries, differ: fn(Entry, Entry) -> bool) -> impl Iterator<Item = usize> {
    (0..left.len().max(right.len())).filter(move |&place| differ(left.get(place), right.get(place)))
}

/// Whether two entries are unlike in these bytes; an end is unlike any.
fn unlike(left: Entry, right: Entry, bytes: std::ops::Range<usize>) -> bool {
    left.map(|entry| &entry[bytes.clone()]) != right.map(|entry| &entry[bytes.clone()])
}

/// The right rule: by the whole digest.
fn differs(left: Entry, right: Entry) -> bool {
    unlike(left, right, 21..53)
}

fn anywhere(row: &mut Row, left: &Entries, right: &Entries) {
    let is_there = |entry: &&[u8]| right.iter().any(|other| other[21..53] == entry[21..53]);
    let differs = |place: &usize| match (left.get(*place), right.get(*place)) {
        (Some(entry), Some(_)) => !is_there(entry),
        (left, right) => left.is_some() || right.is_some(),
    };
    put(row, (0..left.len().max(right.len())).find(differs));
}

/// Puts the place of the difference that is answered, or that there is none.
fn put(row: &mut Row, place: Option<usize>) {
    (row[3], row[4]) = (u8::from(place.is_none()), place.unwrap_or(0) as u8);
}
