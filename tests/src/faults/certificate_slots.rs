//! Faults of the certificate slots.

use super::{Fault, Found, fault};
use crate::calls::Call::CertificateSlots;

pub const FAULTS: &[Fault] = &[
    fault("LOWEST_FROM_TOP", "the lowest slot is counted from the top", &[CertificateSlots], |found| {
        of_any(found, |mask| mask.leading_zeros())
    }),
    fault("HIGHEST_SLOT", "the highest slot is answered", &[CertificateSlots], |found| {
        of_any(found, |mask| 7 - mask.leading_zeros())
    }),
    fault("SLOTS_FROM_1", "slots are numbered from 1", &[CertificateSlots], |found| {
        of_any(found, |mask| mask.trailing_zeros() + 1)
    }),
    fault("SLOT_0_UNCOUNTED", "slot 0 isn't counted", &[CertificateSlots], |found| {
        let count = (mask(found) & 0xfe).count_ones() as u8;
        found.set("count", &count);
    }),
    fault("SLOT_0_UNSEEN", "slot 0 is never the lowest", &[CertificateSlots], |found| {
        let count: u8 = found.value("count");
        found.redo(|case| case.set_number("mask", case.number("mask") & 0xfe));
        found.set("count", &count);
    }),
    fault("NONE_0", "no slot is answered as 0", &[CertificateSlots], |found| of_none(found, 0)),
    fault("NONE_8", "no slot is answered as 8", &[CertificateSlots], |found| of_none(found, 8)),
    fault("NONE_KEPT", "without a slot the answer's memory stays", &[CertificateSlots], |found| {
        if mask(found) == 0 {
            found.keep("lowest");
        }
    }),
];

fn mask(found: &Found) -> u8 {
    found.case.number("mask") as u8
}

/// Another slot where some holds a chain.
fn of_any(found: &mut Found, slot: fn(u8) -> u32) {
    if mask(found) != 0 {
        let slot = slot(mask(found)) as u8;
        found.set("lowest", &slot);
    }
}

fn of_none(found: &mut Found, slot: u8) {
    if mask(found) == 0 {
        found.set("lowest", &slot);
    }
}
