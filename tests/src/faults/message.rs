//! Faults of messages and commands, but for what a command does to a slot.

use super::{Fault, Found, fault};
use crate::calls::Call::{self, *};
use crate::model::message::{Command as Code, HEADER_LEN, RESPONSE_LEN, header};

const OF_HEADERS: &[Call] = &[Header, Command];
const GET: u8 = Code::GetPcdId as u8;

#[rustfmt::skip]
pub const FAULTS: &[Fault] = &[
    fault("LENGTH_FIRST", "2 comes before 11", &[Command], |found| {
        let message = found.case.bytes("message");
        if found.answer == 11 && header(message).is_err() && !is_body_len(message[4], message.len() - HEADER_LEN) {
            found.refuse(2);
        }
    }),
    fault("RESERVED_BIT", "a reserved bit of byte four is ignored", OF_HEADERS, |found| {
        if found.answer == 1 && found.case.bytes("message").len() >= HEADER_LEN {
            found.redo(|case| case.bytes_mut("message")[3] &= !0x10);
        }
    }),
    fault("OFFERED_FIRST", "11 comes before 1", OF_HEADERS, |found| {
        let message = found.case.bytes("message");
        if found.answer == 1 && message.len() >= HEADER_LEN && !is_offered(message) {
            found.refuse(11);
        }
    }),
    fault("ANY_COMMAND", "a fifth command is offered", OF_HEADERS, fifth_command),
    fault("HEADER_BEFORE_STATE", "1 comes before 4", &[Command],
        |found| if found.answer == 4 && is_foreign(found) { found.refuse(1) }),
    fault("RESPONSE_TAIL", "bytes behind the response are cleared", &[Command],
        |found| if is_answered(found) { found.bytes("response")[RESPONSE_LEN..].fill(0) }),
    fault("RESPONSE_FOR_GET", "the response buffer is judged for Get PCD Id alone", &[Command], |found| {
        let is_get = found.case.bytes("message").get(4) == Some(&GET);
        if found.answer == 3 && found.case.len("response") < RESPONSE_LEN && !is_get {
            found.redo(|case| case.bytes_mut("response").resize(RESPONSE_LEN, 0));
        }
    }),
    fault("ID_HIGH_FIRST", "the version id is answered high byte first", &[Command],
        |found| if is_answered(found) { found.bytes("response")[6..10].reverse() }),
    fault("PLATFORM_ID", "the platform id is 5", &[Command],
        |found| if found.answer == 11 && header(found.case.bytes("message")).is_ok() { found.refuse(5) }),
    fault("LONG_PLATFORM_ID", "a longer body that begins with 01 is 11", &[Command], |found| {
        let message = found.case.bytes("message");
        if found.answer == 2 && message[4] == GET && message[5] == 1 {
            found.refuse(11);
        }
    }),
    fault("WRITTEN_CLEARED", "a refused command sets its response's length to 0", &[Command],
        |found| if !found.is_accepted() { found.set("written", &0usize) }),
];

/// Whether a command that there is may have a body of this length.
fn is_body_len(command: u8, len: usize) -> bool {
    match command {
        0x62 => len <= 1,
        0x63 => len == 4,
        0x64 => len >= 1,
        0x65 => len == 0,
        _ => true,
    }
}

/// Whether byte four and the command are those of a message that is offered.
fn is_offered(message: &[u8]) -> bool {
    message[3] & 0xa0 == 0 && (0x62..=0x65).contains(&message[4])
}

fn is_foreign(found: &Found) -> bool {
    header(found.case.bytes("message")).is_err_and(|refusal| refusal as u8 == 1)
}

/// Whether an accepted command wrote a response.
fn is_answered(found: &Found) -> bool {
    found.is_accepted() && found.case.bytes("message")[4] == GET
}

/// The fifth command has no body and does nothing.
fn fifth_command(found: &mut Found) {
    let message = found.case.bytes("message");
    let is_taken = |command: u8| header(&[&message[..4], &[command]].concat()).is_ok();
    if found.answer != 11 || message[4] != 0x66 || !is_taken(0x65) {
        return;
    }
    match found.case.call {
        Command if message.len() > HEADER_LEN => found.refuse(2),
        Command => {
            found.answer = 0;
            found.set("written", &0usize);
        }
        _ => found.answer = 0,
    }
}
