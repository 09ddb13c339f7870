//! Cerberus messages: each command with right and wrong bodies, behind right and wrong headers.

use super::slot::{self, Header};
use super::{absurd_len, size};
use crate::calls::Call;
use crate::case::Case;
use crate::ffi::slot_bytes;
use crate::model::slot::{BUFFER_LEN, Numbers};
use crate::rng::Rng;

pub const GET: u8 = 0x62;
pub const PREPARE: u8 = 0x63;
pub const UPDATE: u8 = 0x64;
pub const ACTIVATE: u8 = 0x65;
pub const COMMANDS: [u8; 4] = [GET, PREPARE, UPDATE, ACTIVATE];

/// A message whose header passes.
pub fn of(command: u8, body: &[u8]) -> Vec<u8> {
    [&[0x7e, 0x14, 0x14, 0x00, command], body].concat()
}

/// Breaks rules of the header: each with its own small chance.
fn corrupt(message: &mut [u8], percent: usize, rng: &mut Rng) {
    if rng.chance(percent) {
        message[0] = rng.pick(&[0xfe, 0x7f, 0x7d, 0x00, 0xff, 0x3f]);
    }
    if rng.chance(percent) {
        let at = 1 + rng.below(2);
        message[at] = rng.pick(&[0x15, 0x41, 0x00, 0x94]);
    }
    if rng.chance(2 * percent) {
        message[3] = if rng.chance(70) { 1 << rng.below(8) } else { rng.byte() };
    }
    if rng.chance(percent) {
        message[3] |= 0x80 >> (2 * rng.below(2));
    }
    if rng.chance(2 * percent) {
        message[4] = rng.pick(&[0x61, 0x66, 0x00, 0x22, 0x5e, 0x7f, 0xe2, 0xff]);
    }
}

/// Cuts a message, within the header now and then.
fn sometimes_cut(mut message: Vec<u8>, rng: &mut Rng) -> Vec<u8> {
    if rng.chance(6) {
        message.truncate(rng.below(6));
    }
    message
}

pub fn header(rng: &mut Rng) -> Case {
    let few = rng.below(12);
    let mut message = of(rng.pick(&COMMANDS), &rng.bytes(few));
    let percent = rng.pick(&[0, 0, 5, 15]);
    corrupt(&mut message, percent, rng);
    let message = if rng.chance(5) { rng.bytes(few) } else { sometimes_cut(message, rng) };
    Case::new(Call::Header, &[], vec![message])
}

/// A body for a command, of the right length in most cases.
fn body(command: u8, slot: &Numbers, rng: &mut Rng) -> Vec<u8> {
    if command != UPDATE && rng.chance(15) {
        let len = rng.pick(&[0, 1, 2, 3, 4, 5, 6, 300]);
        return rng.filling(len);
    }
    match command {
        GET => rng
            .pick(&[&[] as &[u8], &[0x00], &[0x01], &[0x02], &[0x80], &[0xff], &[0x01, 0x00], &[0x00, 0x00]])
            .to_vec(),
        PREPARE => slot::total(rng).to_le_bytes().to_vec(),
        UPDATE => {
            let len = slot::payload_len(slot, rng);
            rng.filling(len)
        }
        _ => Vec::new(),
    }
}

pub fn command(rng: &mut Rng) -> Case {
    let command = rng.pick(&COMMANDS);
    let mut slot = slot::state(rng);
    let (mut pending, active) = slot::buffers(rng);
    if command == ACTIVATE {
        ready(&mut slot, &mut pending, rng);
    }
    let mut message = of(command, &body(command, &slot, rng));
    let percent = rng.pick(&[0, 0, 0, 4, 12]);
    corrupt(&mut message, percent, rng);
    let message = sometimes_cut(message, rng);
    let case = of_message(message, &slot, slot::signature(rng), pending, active, response(rng), rng);
    if rng.chance(2) {
        let which = rng.pick(&[2, 3]);
        return case.claiming(which, absurd_len(BUFFER_LEN, rng), 3);
    }
    case
}

/// Makes a transfer complete and its manifest's header sound, in most cases.
fn ready(slot: &mut Numbers, pending: &mut [u8], rng: &mut Rng) {
    if slot.receiving != 1 || !(13..=4096).contains(&slot.total) || pending.len() < BUFFER_LEN {
        return;
    }
    if rng.chance(85) {
        slot.received = slot.total;
    }
    let total = slot.total as usize;
    let mut header = Header::sound(slot, total, rng);
    let percent = rng.pick(&[0, 0, 10, 30]);
    header.corrupt(slot, total, percent, rng);
    header.write(pending);
}

/// A response buffer, too short now and then.
pub fn response(rng: &mut Rng) -> Vec<u8> {
    let len = if rng.chance(8) { rng.below(10) } else { rng.pick(&[10, 10, 11, 16, 64]) };
    rng.filling(len)
}

pub fn of_message(
    message: Vec<u8>,
    slot: &Numbers,
    signature: u64,
    pending: Vec<u8>,
    active: Vec<u8>,
    response: Vec<u8>,
    rng: &mut Rng,
) -> Case {
    let lent = vec![slot_bytes(slot), message, pending, active, response, size(rng)];
    Case::new(Call::Command, &[signature], lent)
}
