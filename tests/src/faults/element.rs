//! Faults of the manifest elements.

use super::hash::as_type;
use super::{Fault, Found, fault};
use crate::calls::Call::{self, *};
use crate::case::Case;
use crate::model::element::read_region;
use crate::model::hash::hash_len;

const REGION_LEN: usize = 8;
const PREFIX_LEN: usize = 4;
const WRITERS: &[Call] = &[RegionWrite, RwRegionWrite, SignedImageWrite, RootCasWrite];
const OF_PARTS: &[Call] = &[SignedImageRead, SignedImageWrite, RootCasRead, RootCasWrite];
const OF_INDICES: &[Call] = &[SignedImageRegion, RootCasHash];

#[rustfmt::skip]
pub const FAULTS: &[Fault] = &[
    fault("END_EXCLUSIVE", "a region's end is one past its last byte",
        &[RegionRead, RegionWrite, RwRegionRead, RwRegionWrite, SignedImageRead, SignedImageRegion, SignedImageWrite],
        |found| {
            let is_empty = |region: &[u8]| region[..4] == region[4..];
            if found.is(&[0, 3]) && regions(found.case).chunks_exact(REGION_LEN).any(is_empty) {
                found.refuse(12);
            }
        }),
    fault("BUFFER_FIRST", "writers give 3 before 12", WRITERS,
        |found| if found.answer == 12 && found.case.len("buffer") != element_len(found.case) { found.refuse(3) }),
    fault("LONGER_ELEMENT", "an element may be longer than its fields",
        &[RegionRead, RwRegionRead, SignedImageRead, RootCasRead], longer_element),
    fault("RESERVED_OPERATION", "operation 3 is malformed", &[RwRegionRead, RwRegionWrite], |found| {
        let case = found.case;
        let is_3 = || if case.call == RwRegionRead { case.bytes("element")[0] == 3 } else { case.numbers[0] == 3 };
        if found.is(&[0, 3]) && is_3() {
            found.refuse(12);
        }
    }),
    fault("RESERVED_BYTES", "reserved bytes aren't looked at", &[RwRegionRead, SignedImageRead, RootCasRead], |found| {
        let from = if found.case.call == SignedImageRead { 3 } else { 1 };
        if found.case.bytes("element").len() >= PREFIX_LEN {
            found.redo(|case| case.bytes_mut("element")[from..PREFIX_LEN].fill(0));
        }
    }),
    fault("VALIDATE_BITS", "the bits beside must-validate aren't looked at", &[SignedImageRead, SignedImageRegion],
        |found| if found.case.bytes("element").len() >= PREFIX_LEN {
            found.redo(|case| case.bytes_mut("element")[2] &= 1);
        }),
    fault("LAST_REGION", "a signed image's last region isn't judged", &[SignedImageRead, SignedImageWrite],
        last_region),
    fault("HASH_TYPE_3", "hash type 3 is taken as 64 bytes",
        &[Hash, HashMatches, SignedImageRead, SignedImageWrite, RootCasRead, RootCasWrite], hash_type_3),
    fault("COUNT_WRAPS", "a count above 255 wraps", &[SignedImageWrite, RootCasWrite],
        |found| take_count(found, |count| (256..512).contains(&count))),
    fault("NO_PARTS", "a count of 0 passes", OF_PARTS, |found| match found.case.call {
        SignedImageRead | RootCasRead => no_parts(found),
        _ => take_count(found, |count| count == 0),
    }),
    fault("INDEX_8_BITS", "an index is taken modulo 256", OF_INDICES,
        |found| found.redo(|case| case.set_number("index", case.number("index") % 256))),
    fault("PRODUCT_OVERFLOW", "an index times a length is taken modulo 2^64", OF_INDICES, |found| {
        let (index, len) = (found.case.number("index"), part_len(found.case) as u64);
        if len != 0 {
            found.redo(|case| case.set_number("index", index.wrapping_mul(len) / len));
        }
    }),
];

/// The type by which hashes are judged, or that the element has.
fn type_of(case: &Case) -> u8 {
    match case.call {
        SignedImageRead | SignedImageRegion => case.bytes("element").first().copied().unwrap_or(u8::MAX),
        _ => case.number("hash_type") as u8,
    }
}

/// 0 for a type that there isn't.
fn type_len(case: &Case) -> usize {
    hash_len(type_of(case)).unwrap_or(0)
}

/// All regions of a sound element, or that a writer is handed.
fn regions(case: &Case) -> Vec<u8> {
    let pair = |start: &str| {
        let numbers = [case.number(start) as u32, case.number("end") as u32];
        numbers.map(u32::to_le_bytes).concat()
    };
    match case.call {
        RegionRead => case.bytes("element").to_vec(),
        RwRegionRead => case.bytes("element")[PREFIX_LEN..].to_vec(),
        SignedImageRead | SignedImageRegion => case.bytes("element")[PREFIX_LEN + type_len(case)..].to_vec(),
        SignedImageWrite => case.bytes("regions").to_vec(),
        _ => pair("start"),
    }
}

/// The length of the element that a writer writes.
fn element_len(case: &Case) -> usize {
    match case.call {
        RegionWrite => REGION_LEN,
        RwRegionWrite => PREFIX_LEN + REGION_LEN,
        SignedImageWrite => PREFIX_LEN.wrapping_add(case.len("hash")).wrapping_add(case.len("regions")),
        _ => PREFIX_LEN.wrapping_add(case.len("hashes")),
    }
}

/// The length that an element's fields have, if it has them.
fn fields_len(case: &Case) -> Option<usize> {
    let element = case.bytes("element");
    let hash = || hash_len(type_of(case)).ok();
    match case.call {
        RegionRead => Some(REGION_LEN),
        RwRegionRead => Some(PREFIX_LEN + REGION_LEN),
        SignedImageRead => Some(PREFIX_LEN + hash()? + REGION_LEN * usize::from(*element.get(1)?)),
        _ => Some(PREFIX_LEN + hash()? * usize::from(*element.first()?)),
    }
}

fn longer_element(found: &mut Found) {
    let case = found.case;
    let Some(len) = fields_len(case) else { return };
    if case.len("element") > len && case.bytes("element").len() >= len {
        found.redo(|case| {
            case.claim = None;
            case.bytes_mut("element").truncate(len);
        });
    }
}

/// The last region is judged as if it were zeros.
fn last_region(found: &mut Found) {
    let name = if found.case.call == SignedImageRead { "element" } else { "regions" };
    let Some(at) = found.case.bytes(name).len().checked_sub(REGION_LEN) else { return };
    if found.answer != 12 || (name == "element" && at < PREFIX_LEN + type_len(found.case)) {
        return;
    }
    found.redo(|case| case.bytes_mut(name)[at..].fill(0));
    if name == "regions" && found.is_accepted() {
        let (regions, len) = (found.case.bytes("regions"), found.case.len("buffer"));
        found.bytes("buffer")[len - REGION_LEN..].copy_from_slice(&regions[at..]);
    }
}

/// Type 3 is taken as 2, and answered or written as 3.
fn hash_type_3(found: &mut Found) {
    if type_of(found.case) != 3 {
        return;
    }
    match found.case.call {
        Hash | HashMatches => return as_type(found, 2),
        SignedImageRead => found.redo(|case| case.bytes_mut("element")[0] = 2),
        _ => found.redo(|case| case.set_number("hash_type", 2)),
    }
    match found.case.call {
        SignedImageRead if found.is_accepted() => found.set("hash_type", &3u8),
        SignedImageWrite if found.is_accepted() => found.bytes("buffer")[0] = 3,
        _ => {}
    }
}

/// The parts of an element that a writer is handed, and the length of each.
fn parts(case: &Case) -> (&str, usize) {
    if case.call == SignedImageWrite { ("regions", REGION_LEN) } else { ("hashes", type_len(case)) }
}

/// A writer takes these counts of parts too. By one part the model judges the other fields.
fn take_count(found: &mut Found, is_taken: fn(usize) -> bool) {
    let case = found.case;
    let (name, len) = parts(case);
    let handed = case.bytes(name);
    let is_whole = len != 0 && case.claim.is_none() && handed.len().is_multiple_of(len);
    let is_sound =
        || case.call == RootCasWrite || handed.chunks_exact(REGION_LEN).all(|part| read_region(part).is_ok());
    if found.answer != 12 || !is_whole || !is_taken(handed.len() / len) || !is_sound() {
        return;
    }
    found.redo(|case| {
        *case.bytes_mut(name) = vec![0; len];
        let buffer_len = element_len(case);
        *case.bytes_mut("buffer") = vec![0xff; buffer_len];
    });
    if found.is_accepted() {
        put_parts(found, name, (handed.len() / len) as u8);
    }
}

/// Puts an element with all parts that were handed in, if the buffer has its length.
fn put_parts(found: &mut Found, name: &str, count: u8) {
    let case = found.case;
    let mut element = std::mem::take(found.bytes("buffer"));
    element.truncate(element.len() - parts(case).1);
    element.extend(case.bytes(name));
    element[usize::from(case.call == SignedImageWrite)] = count;
    if element.len() != case.len("buffer") {
        return found.refuse(3);
    }
    found.refuse(0);
    *found.bytes("buffer") = element;
}

/// A reader takes an element without parts: the model is handed it with one, and answers none.
fn no_parts(found: &mut Found) {
    let case = found.case;
    let (at, len, count) = match case.call {
        SignedImageRead => (1, REGION_LEN, "region_count"),
        _ => (0, type_len(case), "count"),
    };
    if case.bytes("element").get(at) == Some(&0) {
        found.redo(|case| {
            case.bytes_mut("element")[at] = 1;
            case.bytes_mut("element").extend(vec![0; len]);
        });
        if found.is_accepted() {
            found.set(count, &0u8);
        }
    }
}

/// The length of the parts that an index counts, 0 where there are none.
fn part_len(case: &Case) -> usize {
    if case.call == SignedImageRegion { REGION_LEN } else { type_len(case) }
}
