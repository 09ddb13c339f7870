//! Slots: states within and outside the rules, manifests that pass and that break a rule each.

use super::{absurd_len, size, wrong_len};
use crate::calls::Call;
use crate::case::Case;
use crate::ffi::slot_bytes;
use crate::model::slot::{BUFFER_LEN, Numbers};
use crate::rng::Rng;

const MAGICS: [u64; 6] = [0x1029, 0x706d, 0, 1, 0xff00, 0xffff];
const IDS: [u64; 8] = [0, 1, 2, 0x0102_0304, 0x7fff_ffff, 0x8000_0000, 0xffff_fffe, 0xffff_ffff];

/// A length of 13 to 4,096, often at an edge.
pub fn manifest_len(rng: &mut Rng) -> usize {
    match rng.below(4) {
        0 => rng.pick(&[13, 14, 15, 255, 256, 257, 4095, 4096]),
        1 => 13 + rng.below(60),
        _ => 13 + rng.below(BUFFER_LEN - 12),
    }
}

/// A state within the rules.
pub fn sound_state(rng: &mut Rng) -> Numbers {
    let mut slot =
        Numbers { magic: rng.pick(&MAGICS), active_length: 0, active_id: 0, receiving: 0, total: 0, received: 0 };
    if rng.chance(60) {
        slot.active_length = manifest_len(rng) as u64;
        slot.active_id = if rng.chance(60) { rng.pick(&IDS) } else { rng.next() >> 32 };
    }
    if rng.chance(70) {
        slot.receiving = 1;
        slot.total = manifest_len(rng) as u64;
        let random = rng.below(slot.total as usize + 1) as u64;
        slot.received = rng.pick(&[0, 1, 11, 12, slot.total - 1, slot.total, slot.total, random, random]);
    }
    slot
}

/// Breaks one rule of a state, as a rule.
fn break_rule(slot: &mut Numbers, rng: &mut Rng) {
    match rng.below(6) {
        0 => slot.magic = rng.pick(&[0x1_0000, 0x1_0000 + slot.magic, 1 << 32, (1 << 32) + slot.magic, u64::MAX]),
        1 => slot.active_length = length_outside(rng),
        2 if rng.chance(50) => (slot.active_length, slot.active_id) = (0, rng.pick(&[1, 2, 0xffff_ffff, 1 << 32])),
        2 => slot.active_id = rng.pick(&[1 << 32, (1 << 32) + slot.active_id, u64::MAX]),
        3 if rng.chance(50) => slot.receiving ^= 1,
        3 => slot.receiving = rng.pick(&[2, 3, 256, 257, 1 << 32, (1 << 32) + 1, u64::MAX]),
        4 => slot.total = length_outside(rng),
        _ => {
            slot.received =
                rng.pick(&[1, slot.total + 1, slot.total + 256, (1 << 32) + slot.received, 1 << 63, u64::MAX])
        }
    }
}

/// A length that is not 13 to 4,096.
fn length_outside(rng: &mut Rng) -> u64 {
    rng.pick(&[
        0,
        1,
        11,
        12,
        4097,
        4098,
        0xffff,
        0x1_000d,
        1 << 32,
        (1 << 32) + 13,
        (1 << 32) + 4096,
        1 << 63,
        u64::MAX,
    ])
}

pub fn state(rng: &mut Rng) -> Numbers {
    let mut slot = sound_state(rng);
    if rng.chance(15) {
        break_rule(&mut slot, rng);
    }
    slot
}

/// The two lent buffers; one has a wrong length now and then.
pub fn buffers(rng: &mut Rng) -> (Vec<u8>, Vec<u8>) {
    let pending = rng.filling(BUFFER_LEN);
    let active = rng.filling(BUFFER_LEN);
    (sometimes_wrong(pending, rng), sometimes_wrong(active, rng))
}

fn sometimes_wrong(mut buffer: Vec<u8>, rng: &mut Rng) -> Vec<u8> {
    if rng.chance(4) {
        buffer.resize(wrong_len(BUFFER_LEN, rng), 0x5a);
    }
    buffer
}

/// The same case, with an absurd length passed for one of the slot's buffers now and then.
fn sometimes_absurd(case: Case, buffers: [usize; 2], rng: &mut Rng) -> Case {
    if rng.chance(2) {
        let which = rng.pick(&buffers);
        return case.claiming(which, absurd_len(BUFFER_LEN, rng), 3);
    }
    case
}

pub fn open(rng: &mut Rng) -> Case {
    let (mut pending, mut active) = (rng.filling(BUFFER_LEN), rng.filling(BUFFER_LEN));
    if rng.chance(25) {
        pending.resize(wrong_len(BUFFER_LEN, rng), 0);
    }
    if rng.chance(25) {
        active.resize(wrong_len(BUFFER_LEN, rng), 0);
    }
    let magic = rng.next() & 0xffff;
    let case = Case::new(Call::SlotOpen, &[magic], vec![rng.bytes(48), pending, active]);
    sometimes_absurd(case, [1, 2], rng)
}

pub fn total(rng: &mut Rng) -> u32 {
    match rng.below(4) {
        0 => rng.pick(&[0, 1, 12, 4097, 4098, 8192, 0x1_000d, 0x8000_000d, 0xffff_ffff]),
        1 => rng.next() as u32,
        _ => manifest_len(rng) as u32,
    }
}

pub fn prepare(rng: &mut Rng) -> Case {
    let (slot, (pending, active)) = (state(rng), buffers(rng));
    let case = Case::new(Call::SlotPrepare, &[u64::from(total(rng))], vec![slot_bytes(&slot), pending, active]);
    sometimes_absurd(case, [1, 2], rng)
}

/// A payload's length, near what is still to come.
pub fn payload_len(slot: &Numbers, rng: &mut Rng) -> usize {
    let left = slot.total.wrapping_sub(slot.received).min(4096) as usize;
    match rng.below(10) {
        0 => 0,
        1 => rng.pick(&[4095, 4096, 4097, 5000]),
        2 => left + 1,
        3 => left,
        4 => left.saturating_sub(1),
        5 => 1,
        _ => rng.below(left + 1),
    }
}

pub fn update(rng: &mut Rng) -> Case {
    let (slot, (pending, active)) = (state(rng), buffers(rng));
    let len = payload_len(&slot, rng);
    let case = Case::new(Call::SlotUpdate, &[], vec![slot_bytes(&slot), rng.filling(len), pending, active]);
    sometimes_absurd(case, [2, 3], rng)
}

/// An update whose received count plus length overflows: the length alone decides.
pub fn absurd_update(slot: Numbers, len: usize, rng: &mut Rng) -> Case {
    let lent = vec![slot_bytes(&slot), rng.bytes(16), rng.bytes(BUFFER_LEN), rng.bytes(BUFFER_LEN)];
    let answer = if slot.receiving == 1 { 5 } else { 6 };
    Case::new(Call::SlotUpdate, &[], lent).claiming(1, len, answer)
}

/// The fields of a manifest header that are judged.
#[derive(Clone, Copy)]
pub struct Header {
    pub length: u64,
    pub magic: u64,
    pub id: u64,
    pub signature_length: u64,
}

impl Header {
    /// One that passes on this slot if its id can go forward.
    pub fn sound(slot: &Numbers, total: usize, rng: &mut Rng) -> Header {
        let random = 1 + rng.below((total - 12).max(1)) as u64;
        Header {
            length: total as u64,
            magic: slot.magic,
            id: forward(slot, rng),
            signature_length: rng.pick(&[1, total as u64 - 12, random]),
        }
    }

    /// Writes the header over the front of a manifest, as 002 has it.
    pub fn write(&self, manifest: &mut [u8]) {
        manifest[0..2].copy_from_slice(&(self.length as u16).to_le_bytes());
        manifest[2..4].copy_from_slice(&(self.magic as u16).to_le_bytes());
        manifest[4..8].copy_from_slice(&(self.id as u32).to_le_bytes());
        manifest[8..10].copy_from_slice(&(self.signature_length as u16).to_le_bytes());
    }

    /// Breaks some of activate's rules: each field with this chance.
    pub fn corrupt(&mut self, slot: &Numbers, total: usize, percent: usize, rng: &mut Rng) {
        let total = total as u64;
        if rng.chance(percent) {
            self.length = rng.pick(&[total - 1, total + 1, total ^ 0x100, total.swap_bytes() >> 48, 0]);
        }
        if rng.chance(percent) {
            self.magic = rng.pick(&[slot.magic ^ 1, slot.magic ^ 0x100, slot.magic.swap_bytes() >> 48, 0]);
        }
        if rng.chance(percent) {
            let active = slot.active_id;
            self.id = rng.pick(&[active, active.wrapping_sub(1), active >> 1, 0, active.swap_bytes() >> 32]);
        }
        if rng.chance(percent) {
            self.signature_length = rng.pick(&[0, total - 11, total - 10, total, 0x8000, 0xffff]);
        }
    }
}

/// An id above the active one, where there is one.
fn forward(slot: &Numbers, rng: &mut Rng) -> u64 {
    if slot.active_length == 0 && rng.chance(70) {
        return rng.pick(&[0, 1, 0xffff_ffff, 0x0102_0304]);
    }
    match rng.below(8) {
        0 => rng.next() >> 32,
        1 => 0xffff_ffff,
        _ => slot.active_id.wrapping_add(rng.pick(&[1, 1, 2, 0x100])),
    }
}

/// Complete in three of four cases, so that the header is judged.
pub fn activate(rng: &mut Rng) -> Case {
    let mut slot = sound_state(rng);
    if slot.receiving == 1 && rng.chance(75) {
        slot.received = slot.total;
    }
    let (mut pending, active) = buffers(rng);
    if slot.receiving == 1 && pending.len() == BUFFER_LEN {
        let total = slot.total as usize;
        let mut header = Header::sound(&slot, total, rng);
        let percent = rng.pick(&[0, 0, 10, 30]);
        header.corrupt(&slot, total, percent, rng);
        header.write(&mut pending);
    }
    if rng.chance(10) {
        break_rule(&mut slot, rng);
    }
    let case = Case::new(Call::SlotActivate, &[signature(rng)], vec![slot_bytes(&slot), pending, active]);
    sometimes_absurd(case, [1, 2], rng)
}

/// The board's verdict: 1 is yes.
pub fn signature(rng: &mut Rng) -> u64 {
    if rng.chance(75) { 1 } else { rng.pick(&[0, 0, 2, 3, 0x80, 0x81, 0xff]) }
}

pub fn manifest(rng: &mut Rng) -> Case {
    let (slot, (pending, active)) = (state(rng), buffers(rng));
    let role = if rng.chance(80) { rng.next() & 1 } else { rng.pick(&[2, 3, 0x80, 0x81, 0xff]) };
    let case = Case::new(Call::SlotManifest, &[role], vec![slot_bytes(&slot), pending, active, size(rng)]);
    sometimes_absurd(case, [1, 2], rng)
}
