//! The manifest slot.

use super::broken;
use crate::calls::Call;
use crate::case::Case;
use crate::ffi::slot_bytes;
use crate::generate::message::{COMMANDS, of, of_message};
use crate::generate::size;
use crate::generate::slot::{Header, absurd_update};
use crate::harness::Harness;
use crate::model::slot::{BUFFER_LEN, Numbers};
use crate::rng::Rng;

pub const IDLE: Numbers =
    Numbers { magic: 0x1029, active_length: 0, active_id: 0, receiving: 0, total: 0, received: 0 };
const ACTIVE: Numbers = Numbers { active_length: 200, active_id: 7, ..IDLE };
const COMPLETE: Numbers = Numbers { receiving: 1, total: 100, received: 100, ..ACTIVE };
const UNDER_WAY: Numbers = Numbers { received: 40, ..COMPLETE };
const FIRST: Numbers = Numbers { receiving: 1, total: 13, received: 13, ..IDLE };
const STATES: [Numbers; 5] = [IDLE, ACTIVE, COMPLETE, UNDER_WAY, FIRST];

/// Numbers at every limit of every field.
const EDGES: [u64; 24] = [
    0,
    1,
    2,
    11,
    12,
    13,
    14,
    39,
    40,
    41,
    99,
    100,
    101,
    4095,
    4096,
    4097,
    0xffff,
    0x1_0000,
    0xffff_ffff,
    0x1_0000_0000,
    0x1_0000_000d,
    1 << 63,
    u64::MAX - 1,
    u64::MAX,
];

fn buffer(rng: &mut Rng) -> Vec<u8> {
    rng.filling(BUFFER_LEN)
}

/// A pending buffer that holds a manifest which this state would activate.
pub fn ready_pending(slot: &Numbers, rng: &mut Rng) -> Vec<u8> {
    let mut pending = rng.bytes(BUFFER_LEN);
    ready_header(slot).write(&mut pending);
    pending
}

fn ready_header(slot: &Numbers) -> Header {
    Header { length: slot.total, magic: slot.magic, id: slot.active_id.wrapping_add(1), signature_length: 1 }
}

fn activate(slot: &Numbers, signature: u64, pending: Vec<u8>, rng: &mut Rng) -> Case {
    Case::new(Call::SlotActivate, &[signature], vec![slot_bytes(slot), pending, buffer(rng)])
}

fn prepare(slot: &Numbers, total: u64, rng: &mut Rng) -> Case {
    Case::new(Call::SlotPrepare, &[total], vec![slot_bytes(slot), buffer(rng), buffer(rng)])
}

fn update(slot: &Numbers, len: usize, rng: &mut Rng) -> Case {
    Case::new(Call::SlotUpdate, &[], vec![slot_bytes(slot), rng.bytes(len), buffer(rng), buffer(rng)])
}

fn manifest(slot: &Numbers, role: u64, rng: &mut Rng) -> Case {
    Case::new(Call::SlotManifest, &[role], vec![slot_bytes(slot), buffer(rng), buffer(rng), size(rng)])
}

/// Every call on a state, with commands by message too.
fn run_all(harness: &mut Harness, slot: &Numbers, rng: &mut Rng) {
    harness.run(prepare(slot, 13, rng));
    harness.run(update(slot, 1, rng));
    let pending = ready_pending(slot, rng);
    harness.run(activate(slot, 1, pending, rng));
    harness.run(manifest(slot, 0, rng));
    harness.run(manifest(slot, 1, rng));
    for command in COMMANDS {
        let body: &[u8] = match command {
            0x63 => &[13, 0, 0, 0],
            0x64 => &[0x77],
            _ => &[],
        };
        let (pending, active, response) = (ready_pending(slot, rng), buffer(rng), rng.bytes(10));
        harness.run(of_message(of(command, body), slot, 1, pending, active, response, rng));
    }
}

/// Each number of a state, and each two of them, at every limit.
pub fn states(harness: &mut Harness, rng: &mut Rng) {
    for base in STATES {
        for (field, edge) in (0..6).flat_map(|field| EDGES.map(|edge| (field, edge))) {
            let once = with_field(base, field, edge);
            run_all(harness, &once, rng);
            let other = with_field(once, rng.below(6), rng.pick(&EDGES));
            run_all(harness, &other, rng);
        }
    }
}

fn with_field(mut slot: Numbers, field: usize, value: u64) -> Numbers {
    let place = match field {
        0 => &mut slot.magic,
        1 => &mut slot.active_length,
        2 => &mut slot.active_id,
        3 => &mut slot.receiving,
        4 => &mut slot.total,
        _ => &mut slot.received,
    };
    *place = value;
    slot
}

/// Every total up to some past the limit, and far ones.
pub fn totals(harness: &mut Harness, rng: &mut Rng) {
    for total in (0..4200).chain([0xffff, 0x1_0000, 0x1_000d, 0x8000_000d, 0xffff_ffff]) {
        for state in [IDLE, UNDER_WAY] {
            harness.run(prepare(&state, total, rng));
        }
    }
}

/// Payloads at every limit of what is still to come.
pub fn payloads(harness: &mut Harness, rng: &mut Rng) {
    for total in [13, 14, 100, 255, 256, 257, 4095, 4096] {
        for received in [0, 1, 12, 13, total / 2, total - 1, total] {
            let slot = Numbers { receiving: 1, total, received, ..ACTIVE };
            let left = (total - received) as usize;
            for len in [0, 1, 2, left.saturating_sub(1), left, left + 1, left + 256, 4096, 4097, 5000] {
                harness.run(update(&slot, len, rng));
            }
            let wraps = 0usize.wrapping_sub(received as usize);
            for len in [1 << 32, 1 << 63, wraps.wrapping_add(left), wraps.wrapping_sub(1), usize::MAX] {
                if len > left {
                    harness.run(absurd_update(slot, len, rng));
                }
            }
        }
    }
    for len in [0, 1, 13, 4096, 5000] {
        harness.run(update(&IDLE, len, rng));
        harness.run(update(&ACTIVE, len, rng));
    }
    harness.run(absurd_update(IDLE, usize::MAX, rng));
}

/// Every value of every byte of the manifest header.
pub fn header_bytes(harness: &mut Harness, rng: &mut Rng) {
    for total in [13, 100, 0x10d, 4096] {
        let slot = Numbers { total, received: total, ..COMPLETE };
        for (at, value) in (0..13).flat_map(|at| (0..=255).map(move |value| (at, value))) {
            let mut pending = ready_pending(&slot, rng);
            pending[at] = value;
            harness.run(activate(&slot, 1, pending, rng));
        }
    }
}

/// Signature lengths and version ids at their limits.
pub fn header_limits(harness: &mut Harness, rng: &mut Rng) {
    for total in [13, 14, 15, 100, 4095, 4096] {
        let slot = Numbers { total, received: total, ..COMPLETE };
        for signature_length in [0, 1, 2, total - 13, total - 12, total - 11, total, 0x7fff, 0xffff] {
            let mut pending = rng.bytes(BUFFER_LEN);
            Header { signature_length, ..ready_header(&slot) }.write(&mut pending);
            harness.run(activate(&slot, 1, pending, rng));
        }
    }
    let ids = [0, 1, 2, 0xff, 0x100, 0x0102_0304, 0x0403_0201, 0x7fff_ffff, 0x8000_0000, 0xffff_fffe, 0xffff_ffff];
    for (active_id, id) in ids.iter().flat_map(|&a| ids.map(|b| (a, b))) {
        for base in [COMPLETE, FIRST] {
            let slot = if base.active_length > 0 { Numbers { active_id, ..base } } else { base };
            let mut pending = rng.bytes(BUFFER_LEN);
            Header { id, ..ready_header(&slot) }.write(&mut pending);
            harness.run(activate(&slot, 1, pending, rng));
        }
    }
}

/// Every number for a role and for the board's verdict.
pub fn roles_and_verdicts(harness: &mut Harness, rng: &mut Rng) {
    for number in 0..=255 {
        for state in STATES {
            harness.run(manifest(&state, number, rng));
            let pending = ready_pending(&state, rng);
            harness.run(activate(&state, number, pending, rng));
        }
    }
}

/// Every length of either buffer up to some past the right one.
pub fn buffer_lengths(harness: &mut Harness, rng: &mut Rng) {
    for len in 0..BUFFER_LEN + 100 {
        let (odd, right) = (rng.bytes(len), buffer(rng));
        for (pending, active) in [(odd.clone(), right.clone()), (right, odd)] {
            harness.run(Case::new(Call::SlotOpen, &[0x1029], vec![rng.bytes(48), pending.clone(), active.clone()]));
            let slot = slot_bytes(&UNDER_WAY);
            let case = match rng.below(4) {
                0 => Case::new(Call::SlotPrepare, &[13], vec![slot, pending, active]),
                1 => Case::new(Call::SlotUpdate, &[], vec![slot, rng.bytes(9), pending, active]),
                2 => Case::new(Call::SlotActivate, &[1], vec![slot, pending, active]),
                _ => Case::new(Call::SlotManifest, &[1], vec![slot, pending, active, size(rng)]),
            };
            harness.run(case);
        }
    }
}

/// Every set of activate's broken rules, and of the other calls' as far as they have them.
pub fn refusals_at_once(harness: &mut Harness, rng: &mut Rng) {
    for set in 0..256 {
        for base in [COMPLETE, FIRST] {
            let (slot, pending) = corrupted(set, base, rng);
            let mut active = buffer(rng);
            if broken(set, 6) {
                active.resize(rng.pick(&[0, BUFFER_LEN - 1, BUFFER_LEN + 1]), 0);
            }
            let signature = u64::from(!broken(set, 0));
            let slot = slot_bytes(&slot);
            let total = rng.pick(&[12, 13, 4096, 4097]);
            let payload = rng.pick(&[0, 1, 60, 61]);
            let role = rng.pick(&[0, 1, 2]);
            let lent = vec![slot.clone(), pending.clone(), active.clone()];
            harness.run(Case::new(Call::SlotActivate, &[signature], lent.clone()));
            harness.run(Case::new(Call::SlotPrepare, &[total], lent));
            let lent = vec![slot.clone(), rng.bytes(payload), pending.clone(), active.clone()];
            harness.run(Case::new(Call::SlotUpdate, &[], lent));
            harness.run(Case::new(Call::SlotManifest, &[role], vec![slot, pending, active, size(rng)]));
        }
    }
}

/// A complete transfer of which the rules in `set` are broken.
pub fn corrupted(set: u32, base: Numbers, rng: &mut Rng) -> (Numbers, Vec<u8>) {
    let mut slot = base;
    let mut header = ready_header(&slot);
    if broken(set, 1) {
        header.id = slot.active_id;
    }
    if broken(set, 2) {
        header.magic ^= 1 << rng.below(16);
    }
    if broken(set, 3) {
        header.length += 1;
    }
    if broken(set, 4) {
        slot.received -= 1;
    }
    if broken(set, 5) {
        slot.active_id = 1 << 32;
    }
    let mut pending = rng.bytes(BUFFER_LEN);
    header.write(&mut pending);
    if broken(set, 7) {
        pending.resize(rng.pick(&[0, BUFFER_LEN - 1, BUFFER_LEN + 1]), 0);
    }
    (slot, pending)
}
