//! Messages and commands.

use super::broken;
use super::slot::{IDLE, ready_pending};
use crate::calls::Call;
use crate::case::Case;
use crate::generate::message::{ACTIVATE, COMMANDS, GET, PREPARE, UPDATE, of, of_message};
use crate::harness::Harness;
use crate::model::slot::{BUFFER_LEN, Numbers};
use crate::rng::Rng;

const COMPLETE: Numbers =
    Numbers { active_length: 60, active_id: 0x0102_0304, receiving: 1, total: 80, received: 80, ..IDLE };
const UNDER_WAY: Numbers = Numbers { received: 30, ..COMPLETE };

fn header_case(message: Vec<u8>) -> Case {
    Case::new(Call::Header, &[], vec![message])
}

/// Every byte four with every command byte.
pub fn headers(harness: &mut Harness) {
    for (bits, command) in (0..=255).flat_map(|bits| (0..=255).map(move |command| (bits, command))) {
        harness.run(header_case(vec![0x7e, 0x14, 0x14, bits, command]));
    }
}

/// Every value of every header byte, and every short length.
pub fn header_bytes(harness: &mut Harness, rng: &mut Rng) {
    for (at, value) in (0..5).flat_map(|at| (0..=255).map(move |value| (at, value))) {
        for command in COMMANDS {
            let mut message = of(command, &rng.bytes(at));
            message[at] = value;
            harness.run(header_case(message.clone()));
            for len in 0..=5 {
                harness.run(header_case(message[..len].to_vec()));
            }
        }
    }
}

/// A command on a state of which it finds the pending manifest ready.
fn command(message: Vec<u8>, slot: &Numbers, rng: &mut Rng) -> Case {
    let (pending, active) = (ready_pending(slot, rng), rng.filling(BUFFER_LEN));
    let response = rng.bytes(12);
    of_message(message, slot, 1, pending, active, response, rng)
}

/// Every bit of byte four with commands and bodies of several lengths.
pub fn bits_and_bodies(harness: &mut Harness, rng: &mut Rng) {
    for bits in 0..=255 {
        for code in [GET, PREPARE, UPDATE, ACTIVATE, 0x61, 0x66] {
            for len in 0..=6 {
                let mut message = of(code, &vec![0; len]);
                message[3] = bits;
                let slot = if rng.chance(50) { COMPLETE } else { UNDER_WAY };
                harness.run(command(message, &slot, rng));
            }
        }
    }
}

/// Every value of every byte of sound messages.
pub fn damaged(harness: &mut Harness, rng: &mut Rng) {
    let total = 80u32.to_le_bytes();
    let payload = rng.bytes(12);
    let bodies: [(u8, &[u8]); 6] =
        [(GET, &[]), (GET, &[0]), (GET, &[0, 0]), (PREPARE, &total), (UPDATE, &payload), (ACTIVATE, &[])];
    for (code, body) in bodies {
        let message = of(code, body);
        for (at, value) in (0..message.len()).flat_map(|at| (0..=255).map(move |value| (at, value))) {
            let mut message = message.clone();
            message[at] = value;
            let slot = if code == UPDATE { UNDER_WAY } else { COMPLETE };
            harness.run(command(message, &slot, rng));
        }
    }
}

/// Every length of response buffer up to some past ten, on each command.
pub fn response_lengths(harness: &mut Harness, rng: &mut Rng) {
    for len in 0..40 {
        for code in COMMANDS {
            let body: &[u8] = if code == PREPARE { &[80, 0, 0, 0] } else { &[] };
            for slot in [IDLE, COMPLETE, UNDER_WAY] {
                let (pending, active) = (ready_pending(&slot, rng), rng.bytes(BUFFER_LEN));
                let response = rng.filling(len);
                harness.run(of_message(of(code, body), &slot, 1, pending, active, response, rng));
            }
        }
    }
}

/// Every set of broken rules, on each command.
pub fn refusals_at_once(harness: &mut Harness, rng: &mut Rng) {
    for set in 0..1024 {
        for code in COMMANDS {
            harness.run(corrupted(set, code, rng));
        }
    }
}

fn corrupted(set: u32, code: u8, rng: &mut Rng) -> Case {
    let mut slot = if broken(set, 0) { Numbers { received: 79, ..COMPLETE } } else { COMPLETE };
    let mut body: Vec<u8> = match code {
        GET => vec![if broken(set, 0) { 2 } else { 0 }],
        PREPARE => (if broken(set, 0) { 12u32 } else { 13 }).to_le_bytes().to_vec(),
        UPDATE => vec![0; if broken(set, 0) { 2 } else { 1 }],
        _ => Vec::new(),
    };
    if broken(set, 1) {
        body = if code == UPDATE { Vec::new() } else { vec![1; 5] };
    }
    if broken(set, 2) {
        slot.total = rng.pick(&[12, 4097, u64::MAX]);
    }
    let mut message = of(code, &body);
    if broken(set, 3) {
        message[4] = rng.pick(&[0x61, 0x66, 0x00]);
    }
    if broken(set, 4) {
        message[3] |= rng.pick(&[0x80, 0x20, 0xa0]);
    }
    if broken(set, 5) {
        message[3] |= rng.pick(&[0x40, 0x10, 0x01, 0x5f]);
    }
    if broken(set, 6) {
        message[0] = 0xfe;
    }
    let signature = u64::from(!broken(set, 7));
    let mut pending = ready_pending(&slot, rng);
    if broken(set, 8) {
        pending.resize(rng.pick(&[0, BUFFER_LEN - 1, BUFFER_LEN + 1]), 0);
    }
    let response_len = if broken(set, 9) { rng.below(10) } else { 10 };
    let response = rng.bytes(response_len);
    let active = rng.bytes(BUFFER_LEN);
    of_message(message, &slot, signature, pending, active, response, rng)
}
