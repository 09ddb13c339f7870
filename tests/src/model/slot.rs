//! The manifest slot.

use super::{Answer, Refusal, demand, little_endian};
use std::ops::RangeInclusive;

pub const BUFFER_LEN: usize = 4096;
const MANIFEST_LEN: RangeInclusive<u64> = 13..=4096;
const HEADER_LEN: u64 = 12;

/// The state as the C interface has it: six numbers of any size.
#[derive(Clone, Copy, Debug, PartialEq, Eq)]
pub struct Numbers {
    pub magic: u64,
    pub active_length: u64,
    pub active_id: u64,
    pub receiving: u64,
    pub total: u64,
    pub received: u64,
}

/// A state within the rules.
#[derive(Clone, Copy, Debug, PartialEq, Eq)]
pub struct Slot {
    pub magic: u16,
    pub active: Option<Active>,
    pub transfer: Option<Transfer>,
}

#[derive(Clone, Copy, Debug, PartialEq, Eq)]
pub struct Active {
    pub length: u64,
    pub id: u32,
}

#[derive(Clone, Copy, Debug, PartialEq, Eq)]
pub struct Transfer {
    pub total: u64,
    pub received: u64,
}

impl Slot {
    /// The state that the numbers stand for, or refusal 4.
    pub fn of_numbers(numbers: &Numbers) -> Answer<Slot> {
        Ok(Slot {
            magic: u16::try_from(numbers.magic).map_err(|_| Refusal::UnsoundState)?,
            active: active_of(numbers)?,
            transfer: transfer_of(numbers)?,
        })
    }

    pub fn numbers(&self) -> Numbers {
        Numbers {
            magic: u64::from(self.magic),
            active_length: self.active.map_or(0, |active| active.length),
            active_id: self.active.map_or(0, |active| u64::from(active.id)),
            receiving: u64::from(self.transfer.is_some()),
            total: self.transfer.map_or(0, |transfer| transfer.total),
            received: self.transfer.map_or(0, |transfer| transfer.received),
        }
    }
}

fn active_of(numbers: &Numbers) -> Answer<Option<Active>> {
    let length = numbers.active_length;
    match (length, numbers.active_id) {
        (0, 0) => Ok(None),
        (_, id) if MANIFEST_LEN.contains(&length) && id <= u64::from(u32::MAX) => {
            Ok(Some(Active { length, id: id as u32 }))
        }
        _ => Err(Refusal::UnsoundState),
    }
}

fn transfer_of(numbers: &Numbers) -> Answer<Option<Transfer>> {
    let Numbers { receiving, total, received, .. } = *numbers;
    match receiving {
        0 if total == 0 && received == 0 => Ok(None),
        1 if MANIFEST_LEN.contains(&total) && received <= total => Ok(Some(Transfer { total, received })),
        _ => Err(Refusal::UnsoundState),
    }
}

/// What every slot call but opening looks at first: the lent buffers, then the state.
pub fn entered(numbers: &Numbers, pending: &[u8], active: &[u8]) -> Answer<Slot> {
    right_buffers(pending, active)?;
    Slot::of_numbers(numbers)
}

fn right_buffers(pending: &[u8], active: &[u8]) -> Answer<()> {
    demand(pending.len() == BUFFER_LEN && active.len() == BUFFER_LEN, Refusal::WrongBuffer)
}

pub fn open(magic: u16, pending: &mut [u8], active: &mut [u8]) -> Answer<Slot> {
    right_buffers(pending, active)?;
    pending.fill(0);
    active.fill(0);
    Ok(Slot { magic, active: None, transfer: None })
}

/// The calls below are given a state and buffers that have passed `entered`.
pub fn prepare(slot: Slot, total: u32) -> Answer<Slot> {
    let total = u64::from(total);
    demand(MANIFEST_LEN.contains(&total), Refusal::OutOfRange)?;
    Ok(Slot { transfer: Some(Transfer { total, received: 0 }), ..slot })
}

pub fn update(slot: Slot, payload: &[u8], pending: &mut [u8]) -> Answer<Slot> {
    demand(!payload.is_empty(), Refusal::BadLength)?;
    let Transfer { total, received } = slot.transfer.ok_or(Refusal::OutOfStep)?;
    demand(payload.len() as u64 <= total - received, Refusal::OutOfRange)?;
    let at = received as usize;
    pending[at..at + payload.len()].copy_from_slice(payload);
    let received = received + payload.len() as u64;
    Ok(Slot { transfer: Some(Transfer { total, received }), ..slot })
}

pub fn activate(slot: Slot, signature_good: bool, pending: &[u8], active: &mut [u8]) -> Answer<Slot> {
    let Transfer { total, received } = slot.transfer.ok_or(Refusal::OutOfStep)?;
    demand(received == total, Refusal::OutOfStep)?;
    let header = Header::of(pending);
    demand(header.fits(total, slot.magic), Refusal::BadManifestHeader)?;
    demand(slot.active.is_none_or(|active| header.id > active.id), Refusal::StaleVersion)?;
    demand(signature_good, Refusal::BadSignature)?;
    active.fill(0);
    active[..total as usize].copy_from_slice(&pending[..total as usize]);
    Ok(Slot { active: Some(Active { length: total, id: header.id }), transfer: None, ..slot })
}

/// The manifest header's fields that are judged; 002 has them in this order, behind one another.
struct Header {
    length: u64,
    magic: u64,
    id: u32,
    signature_length: u64,
}

impl Header {
    fn of(manifest: &[u8]) -> Header {
        Header {
            length: little_endian(&manifest[0..2]),
            magic: little_endian(&manifest[2..4]),
            id: little_endian(&manifest[4..8]) as u32,
            signature_length: little_endian(&manifest[8..10]),
        }
    }

    fn fits(&self, total: u64, magic: u16) -> bool {
        self.length == total
            && self.magic == u64::from(magic)
            && (1..=total - HEADER_LEN).contains(&self.signature_length)
    }
}

#[derive(Clone, Copy, Debug, PartialEq, Eq)]
pub enum Role {
    Active,
    Pending,
}

/// How many bytes of the role's buffer, from its start, are its manifest.
pub fn manifest_len(slot: Slot, role: Role) -> u64 {
    match role {
        Role::Active => slot.active.map_or(0, |active| active.length),
        Role::Pending => slot.transfer.map_or(0, |transfer| transfer.received),
    }
}
