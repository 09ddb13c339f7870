//! The Cerberus message header and the four PCD commands.

use super::slot::{self, Numbers, Slot};
use super::{Answer, Refusal, demand, little_endian};

/// MCTP's vendor-defined message type without the integrity check flag, and the PCI vendor id.
const OPENING: [u8; 3] = [0x7e, 0x14, 0x14];
pub const HEADER_LEN: usize = 5;
pub const RESPONSE_LEN: usize = 10;

/// Byte four, from the top: request type, reserved, crypt, five reserved bits.
const REQUEST_TYPE: u8 = 0b1000_0000;
const CRYPT: u8 = 0b0010_0000;
const RESERVED: u8 = 0b0101_1111;

/// The command bytes of document 000's table.
#[derive(Clone, Copy, Debug, PartialEq, Eq)]
pub enum Command {
    GetPcdId = 0x62,
    PreparePcd = 0x63,
    UpdatePcd = 0x64,
    ActivatePcd = 0x65,
}

const COMMANDS: [Command; 4] = [Command::GetPcdId, Command::PreparePcd, Command::UpdatePcd, Command::ActivatePcd];

/// The command of a message that is ours and offered.
pub fn header(message: &[u8]) -> Answer<Command> {
    demand(message.len() >= HEADER_LEN, Refusal::ForeignHeader)?;
    demand(message[..3] == OPENING, Refusal::ForeignHeader)?;
    let (bits, command) = (message[3], message[4]);
    demand(bits & RESERVED == 0, Refusal::ForeignHeader)?;
    demand(bits & (REQUEST_TYPE | CRYPT) == 0, Refusal::NotOffered)?;
    COMMANDS.into_iter().find(|&offered| offered as u8 == command).ok_or(Refusal::NotOffered)
}

/// The state after the command, and the length of the response.
pub fn command(
    numbers: &Numbers,
    signature_good: bool,
    message: &[u8],
    pending: &mut [u8],
    active: &mut [u8],
    response: &mut [u8],
) -> Answer<(Slot, u64)> {
    let right = pending.len() == slot::BUFFER_LEN && active.len() == slot::BUFFER_LEN;
    demand(right && response.len() >= RESPONSE_LEN, Refusal::WrongBuffer)?;
    let slot = slot::entered(numbers, pending, active)?;
    let command = header(message)?;
    let body = &message[HEADER_LEN..];
    match command {
        Command::GetPcdId => {
            get_pcd_id(slot, body, response)?;
            Ok((slot, RESPONSE_LEN as u64))
        }
        Command::PreparePcd => {
            demand(body.len() == 4, Refusal::BadLength)?;
            Ok((slot::prepare(slot, little_endian(body) as u32)?, 0))
        }
        Command::UpdatePcd => Ok((slot::update(slot, body, pending)?, 0)),
        Command::ActivatePcd => {
            demand(body.is_empty(), Refusal::BadLength)?;
            Ok((slot::activate(slot, signature_good, pending, active)?, 0))
        }
    }
}

fn get_pcd_id(slot: Slot, body: &[u8], response: &mut [u8]) -> Answer<()> {
    match body {
        [] | [0x00] => {}
        [0x01] => return Err(Refusal::NotOffered),
        [_] => return Err(Refusal::OutOfRange),
        _ => return Err(Refusal::BadLength),
    }
    response[..3].copy_from_slice(&OPENING);
    response[3] = 0x00;
    response[4] = Command::GetPcdId as u8;
    response[5] = u8::from(slot.active.is_some());
    let id = slot.active.map_or(0, |active| active.id);
    response[6..10].copy_from_slice(&id.to_le_bytes());
    Ok(())
}
