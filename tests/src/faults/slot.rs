//! Faults of the manifest slot, by its calls and by the commands that stand for them.

use super::{Fault, Found, fault};
use crate::calls::Call::{self, *};
use crate::case::Case;
use crate::model::little_endian;
use crate::model::message::{Command as Code, HEADER_LEN, header};
use crate::model::slot::{BUFFER_LEN, Numbers};

const UPDATE: &[Call] = &[SlotUpdate, Command];
const ACTIVATE: &[Call] = &[SlotActivate, Command];
const HEADER: u64 = 12;

#[rustfmt::skip]
pub const FAULTS: &[Fault] = &[
    fault("EQUAL_ID", "an equal version id is taken as forward", ACTIVATE, |found| {
        let slot = found.case.slot();
        if found.answer == 9 && pending_id(found.case) == slot.active_id {
            // Without an active manifest any id goes forward.
            found.redo(|case| case.set("slot", &Numbers { active_length: 0, active_id: 0, ..slot }));
        }
    }),
    fault("RECEIVED_RAISED", "a refused update raises received", UPDATE, |found| {
        let slot = found.case.slot();
        if found.answer == 5 && is_step(found, SlotUpdate) {
            found.set("slot", &Numbers { received: slot.total, ..slot });
        }
    }),
    fault("OPEN_KEEPS", "opening leaves the active buffer", &[SlotOpen],
        |found| if found.is_accepted() { found.keep("active") }),
    fault("IDLE_NUMBERS", "an idle state may have a total",
        &[SlotPrepare, SlotUpdate, SlotActivate, SlotManifest, Command],
        |found| {
            let slot = found.case.slot();
            if found.answer == 4 && slot.receiving == 0 {
                found.redo(|case| case.set("slot", &Numbers { total: 0, received: 0, ..slot }));
            }
        }),
    fault("TOTAL_12", "a total of 12 passes", &[SlotPrepare, Command], |found| {
        if found.answer == 5 && is_step(found, SlotPrepare) && total(found.case) == HEADER {
            accept(found, Numbers { receiving: 1, total: HEADER, received: 0, ..found.case.slot() });
        }
    }),
    fault("PREPARE_CLEARS", "prepare clears the pending buffer", &[SlotPrepare, Command],
        |found| if found.is_accepted() && is_step(found, SlotPrepare) { found.bytes("pending").fill(0) }),
    fault("STEP_BEFORE_LENGTH", "an empty update while idle is 6", UPDATE, |found| {
        if found.answer == 2 && is_step(found, SlotUpdate) && found.case.slot().receiving == 0 {
            found.refuse(6);
        }
    }),
    fault("TO_THE_FRONT", "an update's bytes go to the front", UPDATE, |found| {
        if found.is_accepted() && is_step(found, SlotUpdate) {
            let payload = payload(found.case);
            found.keep("pending");
            found.bytes("pending")[..payload.len()].copy_from_slice(payload);
        }
    }),
    fault("RECEIVED_INVENTED", "every update completes the transfer", UPDATE, |found| {
        let slot = found.case.slot();
        if found.is_accepted() && is_step(found, SlotUpdate) {
            found.set("slot", &Numbers { received: slot.total, ..slot });
        }
    }),
    fault("UPDATE_OVERFLOW", "received plus length is taken modulo 2^64", &[SlotUpdate], |found| {
        let (slot, len) = (found.case.slot(), found.case.len("payload") as u64);
        let received = slot.received.wrapping_add(len);
        if found.answer == 5 && len > BUFFER_LEN as u64 && received <= slot.total {
            accept(found, Numbers { received, ..slot });
        }
    }),
    fault("ACTIVE_TAIL", "activate leaves old bytes behind the manifest", ACTIVATE, |found| {
        if found.is_accepted() && is_step(found, SlotActivate) {
            let (total, old) = (found.case.slot().total as usize, found.case.bytes("active"));
            found.bytes("active")[total..].copy_from_slice(&old[total..]);
        }
    }),
    fault("FULL_SIGNATURE", "a signature that fills all behind the header is 8", ACTIVATE, |found| {
        let fills = |case: &Case| little_endian(&case.bytes("pending")[8..10]) == case.slot().total - HEADER;
        if found.is(&[0, 9, 10]) && is_step(found, SlotActivate) && fills(found.case) {
            found.refuse(8);
        }
    }),
    fault("ANY_YES", "any number but 0 is taken as a good signature", ACTIVATE, |found| {
        if found.case.number("signature_good") != 0 {
            found.redo(|case| case.set_number("signature_good", 1));
        }
    }),
    fault("FIRST_ID_0", "without an active manifest an id of 0 is 9", ACTIVATE, |found| {
        let first = found.is(&[0, 10]) && is_step(found, SlotActivate) && found.case.slot().active_length == 0;
        if first && pending_id(found.case) == 0 {
            found.refuse(9);
        }
    }),
    fault("SIGNATURE_FIRST", "10 comes before 9", ACTIVATE,
        |found| if found.answer == 9 && found.case.number("signature_good") != 1 { found.refuse(10) }),
    fault("VERSION_FIRST", "9 comes before 8", ACTIVATE, |found| {
        let slot = found.case.slot();
        if found.answer == 8 && slot.active_length != 0 && pending_id(found.case) <= slot.active_id {
            found.refuse(9);
        }
    }),
    fault("STILL_RECEIVING", "after activate the slot isn't idle", ACTIVATE, |found| {
        if found.is_accepted() && is_step(found, SlotActivate) {
            let (before, next): (Numbers, Numbers) = (found.case.slot(), found.value("slot"));
            let Numbers { receiving, total, received, .. } = before;
            found.set("slot", &Numbers { receiving, total, received, ..next });
        }
    }),
    fault("OTHER_ROLE", "any role but 0 is taken as pending", &[SlotManifest],
        |found| if found.answer == 5 { found.redo(|case| case.set_number("role", 1)) }),
    fault("PENDING_TOTAL", "the pending manifest has its total's length", &[SlotManifest],
        |found| if found.is_accepted() && found.case.number("role") == 1 {
            found.set("length", &(found.case.slot().total as usize));
        }),
];

/// Whether the case is of this slot call, or a message that is offered and stands for it.
fn is_step(found: &Found, step: Call) -> bool {
    let case = found.case;
    if case.call != Command {
        return case.call == step;
    }
    match header(case.bytes("message")) {
        Ok(Code::PreparePcd) => step == SlotPrepare,
        Ok(Code::UpdatePcd) => step == SlotUpdate,
        Ok(Code::ActivatePcd) => step == SlotActivate,
        Ok(Code::GetPcdId) | Err(_) => false,
    }
}

fn payload(case: &Case) -> &[u8] {
    if case.call == Command { &case.bytes("message")[HEADER_LEN..] } else { case.bytes("payload") }
}

fn total(case: &Case) -> u64 {
    if case.call == Command { little_endian(payload(case)) } else { case.number("total") }
}

/// The version id of the pending manifest.
fn pending_id(case: &Case) -> u64 {
    little_endian(&case.bytes("pending")[4..8])
}

/// The call is accepted and leaves this state.
fn accept(found: &mut Found, slot: Numbers) {
    found.answer = 0;
    found.set("slot", &slot);
    if found.case.call == Command {
        found.set("written", &0usize);
    }
}
