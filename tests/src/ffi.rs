//! What the pointers of include/cerberus.h point to: C's name of it and how it lies in memory.

use crate::model::comparison::PmrComparison;
use crate::model::little_endian;
use crate::model::log::{PMRS, Pmr, State};
use crate::model::slot::Numbers;

/// What lent memory serves as.
#[derive(Clone, Copy, PartialEq, Eq)]
pub enum Kind {
    /// Bytes at any address, passed with their length or of a fixed length.
    Bytes,
    /// A number or a struct behind a pointer, so aligned.
    Value,
}

/// A type of the header.
pub trait InC {
    const NAME: &'static str;
    /// Where the header declares a parameter as an array: of so many.
    const ARRAY: Option<usize> = None;
}

/// What is lent behind a pointer without a length.
pub trait Pointee: InC + Sized {
    const KIND: Kind;
    /// Any bytes are something, and `store` puts the same bytes back.
    fn load(memory: &[u8]) -> Self;
    fn store(&self, memory: &mut [u8]);
}

macro_rules! numbers {
    ($($type:ident is $name:literal;)*) => {$(
        impl InC for $type {
            const NAME: &'static str = $name;
        }

        impl Pointee for $type {
            const KIND: Kind = Kind::Value;
            fn load(memory: &[u8]) -> $type {
                $type::from_ne_bytes(memory.try_into().unwrap())
            }
            fn store(&self, memory: &mut [u8]) {
                memory.copy_from_slice(&self.to_ne_bytes());
            }
        }
    )*};
}

numbers! {
    u8 is "uint8_t";
    u16 is "uint16_t";
    u32 is "uint32_t";
    usize is "size_t";
}

impl<const N: usize> InC for [u8; N] {
    const NAME: &'static str = u8::NAME;
    const ARRAY: Option<usize> = Some(N);
}

impl<const N: usize> Pointee for [u8; N] {
    const KIND: Kind = Kind::Bytes;
    fn load(memory: &[u8]) -> [u8; N] {
        memory.try_into().unwrap()
    }
    fn store(&self, memory: &mut [u8]) {
        memory.copy_from_slice(self);
    }
}

/// A struct of the header: its fields, each with its first byte, and its length.
pub struct Layout {
    pub name: &'static str,
    pub fields: &'static [(&'static str, usize)],
    pub len: usize,
}

/// All of them, for the compiler to compare with the header's.
pub const LAYOUTS: [Layout; 4] = [
    Layout {
        name: Numbers::NAME,
        fields: &[
            ("magic", 0),
            ("active_length", 8),
            ("active_id", 16),
            ("receiving", 24),
            ("total", 32),
            ("received", 40),
        ],
        len: SLOT_LEN,
    },
    Layout { name: "cerberus_pmr", fields: &[("value", 0), ("entries", 32)], len: PMR_LEN },
    Layout { name: State::NAME, fields: &[("count", 0), ("pmrs", 8)], len: LOG_LEN },
    Layout {
        name: Compared::NAME,
        fields: &[("left_records", 0), ("right_records", 1), ("same_register", 2), ("agree", 3), ("differ_at", 4)],
        len: COMPARED_LEN,
    },
];

pub const SLOT_LEN: usize = 48;

impl InC for Numbers {
    const NAME: &'static str = "cerberus_slot";
}

impl Pointee for Numbers {
    const KIND: Kind = Kind::Value;
    fn load(memory: &[u8]) -> Numbers {
        slot_numbers(memory)
    }
    fn store(&self, memory: &mut [u8]) {
        memory.copy_from_slice(&slot_bytes(self));
    }
}

/// A slot's bytes, as they lie in memory.
pub fn slot_bytes(slot: &Numbers) -> Vec<u8> {
    let fields = [slot.magic, slot.active_length, slot.active_id, slot.receiving, slot.total, slot.received];
    fields.iter().flat_map(|field| field.to_ne_bytes()).collect()
}

pub fn slot_numbers(bytes: &[u8]) -> Numbers {
    let field = |i: usize| u64::from_ne_bytes(bytes[8 * i..8 * i + 8].try_into().unwrap());
    Numbers {
        magic: field(0),
        active_length: field(1),
        active_id: field(2),
        receiving: field(3),
        total: field(4),
        received: field(5),
    }
}

const PMR_LEN: usize = 40;
pub const LOG_LEN: usize = 8 + PMRS * PMR_LEN;

impl InC for State {
    const NAME: &'static str = "cerberus_log";
}

/// It is read and written as bytes, at any address.
impl Pointee for State {
    const KIND: Kind = Kind::Bytes;
    fn load(memory: &[u8]) -> State {
        log_state(memory)
    }
    fn store(&self, memory: &mut [u8]) {
        memory.copy_from_slice(&log_bytes(self));
    }
}

/// A log's state, as the header has it lie in memory: numbers low byte first.
pub fn log_bytes(state: &State) -> Vec<u8> {
    let pmr = |pmr: &Pmr| [&pmr.register[..], &pmr.entries.to_le_bytes()].concat();
    state.count.to_le_bytes().into_iter().chain(state.pmrs.iter().flat_map(pmr)).collect()
}

/// The state in any so many bytes.
pub fn log_state(bytes: &[u8]) -> State {
    let (count, pmrs) = bytes.split_at(8);
    let pmr = |pmr: usize| {
        let (register, entries) = pmrs[PMR_LEN * pmr..][..PMR_LEN].split_at(32);
        Pmr { register: register.try_into().unwrap(), entries: little_endian(entries) }
    };
    State { count: little_endian(count), pmrs: std::array::from_fn(pmr) }
}

const COMPARED_LEN: usize = 5;
/// The five PMRs' comparisons, each the header's cerberus_pmr_comparison.
pub type Compared = [[u8; COMPARED_LEN]; PMRS];
pub const COMPARISON_LEN: usize = PMRS * COMPARED_LEN;

impl InC for Compared {
    const NAME: &'static str = "cerberus_pmr_comparison";
    const ARRAY: Option<usize> = Some(PMRS);
}

impl Pointee for Compared {
    const KIND: Kind = Kind::Bytes;
    fn load(memory: &[u8]) -> Compared {
        std::array::from_fn(|pmr| memory[COMPARED_LEN * pmr..][..COMPARED_LEN].try_into().unwrap())
    }
    fn store(&self, memory: &mut [u8]) {
        memory.copy_from_slice(self.as_flattened());
    }
}

/// A comparison's fields, in the header's order.
pub fn compared(comparison: &[PmrComparison; PMRS]) -> Compared {
    comparison.map(|pmr| {
        let (same_register, agree) = (u8::from(pmr.same_register), u8::from(pmr.differ_at.is_none()));
        [pmr.left_records, pmr.right_records, same_register, agree, pmr.differ_at.unwrap_or(0)]
    })
}
