//! Faults that many calls share.

use super::log::is_text_len;
use super::{Fault, Found, fault};
use crate::calls::Call::{self, *};
use crate::calls::OVER_STATE;
use crate::case::Case;
use crate::model::slot::Slot;

/// The calls of which each buffer's end is written past, with the buffer.
const PAST: [(Call, &str); 6] = [
    (Sha384, "digest"),
    (Sha512, "digest"),
    (Hash, "hash"),
    (PairingKey, "pairing_key"),
    (LogReset, "buffer"),
    (SlotOpen, "active"),
];

#[rustfmt::skip]
pub const FAULTS: &[Fault] = &[
    fault("REFUSES_ALL", "everything is refused",
        &[Hash, HmacSha256, PairingKey, LogRecord, LogCheck, LogReplay, LogTextVerdict, LogCompare, SlotActivate,
          Command, SignedImageRead],
        refuse_all),
    fault("PAST_BUFFER", "the byte behind the buffer is written",
        &[Sha384, Sha512, Hash, PairingKey, LogReset, SlotOpen],
        |found| {
            let past = PAST.iter().find(|(call, _)| *call == found.case.call && found.is_accepted());
            if let Some((_, buffer)) = past {
                found.bytes(buffer).push(0);
            }
        }),
    fault("STATE_BEFORE_BUFFER", "4 comes before 3",
        &[LogRecord, LogRegister, LogReadOut, LogReadOutVerdict, LogCheck, SlotPrepare, SlotUpdate, SlotActivate,
          SlotManifest, Command],
        |found| {
            if found.answer == 3 && !has_sound_state(found.case) {
                found.refuse(4);
            }
        }),
];

/// Whether the log's or the slot's state that was handed in is one.
fn has_sound_state(case: &Case) -> bool {
    if OVER_STATE.contains(&case.call) {
        return case.state().is_permitted();
    }
    Slot::of_numbers(&case.slot()).is_ok()
}

/// The last refusal that a call has in its order, where none that comes before applies.
fn refuse_all(found: &mut Found) {
    let refusal = match found.case.call {
        Hash => Some(3),
        HmacSha256 => Some(2),
        PairingKey => found.is_accepted().then_some(2),
        LogRecord => (!found.is(&[3, 4])).then_some(7),
        LogCompare => (is_text_len(found.case.len("left")) && !found.is(&[4])).then_some(4),
        LogCheck | LogReplay | LogTextVerdict => found.is_accepted().then_some(4),
        SlotActivate => (!found.is(&[3, 4])).then_some(6),
        Command if found.case.bytes("message").get(4) == Some(&0x65) => found.is(&[0, 8, 9, 10]).then_some(6),
        Command => found.is_accepted().then_some(11),
        _ => Some(12),
    };
    if let Some(refusal) = refusal {
        found.refuse(refusal);
    }
}
