//! The calls of the C interface, each described once: from its entry in the table follow its declaration, how the
//! library is called, what the model says of the same inputs, and which lists of calls it is on.

use crate::case::{Case, Outcome};
use crate::ffi::{Compared, InC, Kind, Pointee, compared};
use crate::marshal::Handed;
#[cfg(not(feature = "self-test"))]
use crate::marshal::Passed;
use crate::model::log::{Book, Record, State};
use crate::model::slot::{Numbers, Role, Slot};
use crate::model::{
    Answer, Refusal, certificate_slots, comparison, element, hash, hmac, log, meaning, message, pairing, sha256,
    sha512, slot,
};

/// What follows from a call's entry.
pub struct Signature {
    pub name: &'static str,
    /// The answers that the call's rules allow. Each must be reached, and no other may be.
    pub answers: &'static [u8],
    /// The parameters that are numbers, in the header's order.
    pub numbers: &'static [&'static str],
    /// The parameters that are lent memory, in the header's order.
    pub lent: &'static [(&'static str, Kind)],
    /// All parameters as C has them.
    pub in_c: &'static [CParameter],
    #[cfg(not(feature = "self-test"))]
    library: fn(Passed) -> u8,
    model: fn(Handed) -> Answer<()>,
}

/// A parameter's type in C.
pub struct CParameter {
    pub name: &'static str,
    pub constant: bool,
    pub pointer: bool,
    /// Where it is declared as an array: of so many.
    pub array: Option<usize>,
}

impl CParameter {
    const fn number<T: InC>() -> CParameter {
        CParameter { name: T::NAME, constant: false, pointer: false, array: None }
    }

    const fn to<T: InC>(constant: bool) -> CParameter {
        CParameter { name: T::NAME, constant, pointer: true, array: T::ARRAY }
    }
}

/// Which list a call is on. The jobs of the plan go by these lists.
#[derive(Clone, Copy, PartialEq, Eq)]
enum Group {
    /// It has jobs of its own.
    Alone,
    /// Of one hash each, in the order of the hash types.
    OneHash,
    LogReset,
    /// They go by a log's state, whatever the buffer holds.
    LogByState,
    /// They hold the buffer to the state.
    LogJudging,
    LogText,
    LogPair,
    Slot,
    Element,
}

/// A call's signature. Its parameters are taken one by one: bytes with a length, a pointer, a number. Each adds to the
/// lists [declared] [passed to the library] [handed to the model] [numbers] [lent memory] [types in C]; the last rule
/// makes the signature of them.
macro_rules! signature {
    ($next:ident $entry:tt [$($declared:tt)*] [$($passed:tt)*] [$($handed:tt)*] [$($number:tt)*] [$($lent:tt)*]
     [$($in_c:tt)*] ($parameter:ident: &mut [u8] $(, $($more:tt)*)?)) => {
        signature!($next $entry
            [$($declared)* _: *mut u8, _: usize,] [$($passed)* $next.pointer(), $next.len(),]
            [$($handed)* $next.bytes(),] [$($number)*] [$($lent)* (stringify!($parameter), Kind::Bytes),]
            [$($in_c)* CParameter::to::<u8>(false), CParameter::number::<usize>(),] ($($($more)*)?))
    };
    ($next:ident $entry:tt [$($declared:tt)*] [$($passed:tt)*] [$($handed:tt)*] [$($number:tt)*] [$($lent:tt)*]
     [$($in_c:tt)*] ($parameter:ident: &[u8] $(, $($more:tt)*)?)) => {
        signature!($next $entry
            [$($declared)* _: *const u8, _: usize,] [$($passed)* $next.pointer(), $next.len(),]
            [$($handed)* $next.bytes(),] [$($number)*] [$($lent)* (stringify!($parameter), Kind::Bytes),]
            [$($in_c)* CParameter::to::<u8>(true), CParameter::number::<usize>(),] ($($($more)*)?))
    };
    ($next:ident $entry:tt [$($declared:tt)*] [$($passed:tt)*] [$($handed:tt)*] [$($number:tt)*] [$($lent:tt)*]
     [$($in_c:tt)*] ($parameter:ident: &mut $type:ty $(, $($more:tt)*)?)) => {
        signature!($next $entry
            [$($declared)* _: *mut u8,] [$($passed)* $next.pointer(),]
            [$($handed)* &mut $next.value::<$type>(),] [$($number)*]
            [$($lent)* (stringify!($parameter), <$type as Pointee>::KIND),]
            [$($in_c)* CParameter::to::<$type>(false),] ($($($more)*)?))
    };
    ($next:ident $entry:tt [$($declared:tt)*] [$($passed:tt)*] [$($handed:tt)*] [$($number:tt)*] [$($lent:tt)*]
     [$($in_c:tt)*] ($parameter:ident: &$type:ty $(, $($more:tt)*)?)) => {
        signature!($next $entry
            [$($declared)* _: *const u8,] [$($passed)* $next.pointer(),]
            [$($handed)* &$next.constant::<$type>(),] [$($number)*]
            [$($lent)* (stringify!($parameter), <$type as Pointee>::KIND),]
            [$($in_c)* CParameter::to::<$type>(true),] ($($($more)*)?))
    };
    ($next:ident $entry:tt [$($declared:tt)*] [$($passed:tt)*] [$($handed:tt)*] [$($number:tt)*] [$($lent:tt)*]
     [$($in_c:tt)*] ($parameter:ident: $type:ty $(, $($more:tt)*)?)) => {
        signature!($next $entry
            [$($declared)* _: $type,] [$($passed)* $next.number() as $type,]
            [$($handed)* $next.number() as $type,] [$($number)* stringify!($parameter),] [$($lent)*]
            [$($in_c)* CParameter::number::<$type>(),] ($($($more)*)?))
    };
    ($next:ident {$name:ident ($($parameters:tt)*) [$($answer:literal),+] $model:block} [$($declared:tt)*]
     [$($passed:tt)*] [$($handed:tt)*] [$($number:tt)*] [$($lent:tt)*] [$($in_c:tt)*] ()) => {
        Signature {
            name: stringify!($name),
            answers: &[$($answer),+],
            numbers: &[$($number)*],
            lent: &[$($lent)*],
            in_c: &[$($in_c)*],
            #[cfg(not(feature = "self-test"))]
            library: {
                unsafe extern "C" {
                    fn $name($($declared)*) -> u8;
                }
                // SAFETY: every pointer is to a buffer of its own with the length that is passed; a claimed length is
                // one for which the library must look at no byte.
                |mut $next| unsafe { $name($($passed)*) }
            },
            model: {
                fn model($($parameters)*) -> Answer<()> {
                    $model
                    Ok(())
                }
                |mut $next| model($($handed)*)
            },
        }
    };
}

/// The table: a name for the call, C's name, its parameters (a slice is passed with its length), the answers that its
/// rules allow, its group, and what the model does.
macro_rules! calls {
    ($($call:ident = $name:ident $parameters:tt -> $answers:tt in $group:ident $model:block)*) => {
        #[derive(Clone, Copy, Debug, PartialEq, Eq)]
        pub enum Call {
            $($call,)*
        }

        pub const CALLS: &[Call] = &[$(Call::$call,)*];
        const GROUPS: &[Group] = &[$(Group::$group,)*];
        static SIGNATURES: &[Signature] =
            &[$(signature!(next {$name $parameters $answers $model} [] [] [] [] [] [] $parameters),)*];
    };
}

calls! {
    Meaning = cerberus_meaning(number: u8, text: &mut [u8], meaning_len: &mut usize) -> [0, 3, 5] in Alone {
        *meaning_len = meaning::meaning(number, text)? as usize;
    }
    Sha256 = cerberus_sha256(message: &[u8], digest: &mut [u8; 32]) -> [0, 2] in OneHash {
        *digest = sha256::sha256(message);
    }
    Sha384 = cerberus_sha384(message: &[u8], digest: &mut [u8; 48]) -> [0] in OneHash {
        *digest = sha512::sha384(message);
    }
    Sha512 = cerberus_sha512(message: &[u8], digest: &mut [u8; 64]) -> [0] in OneHash {
        *digest = sha512::sha512(message);
    }
    Hash = cerberus_hash(hash_type: u8, message: &[u8], hash: &mut [u8]) -> [0, 2, 3, 12] in Alone {
        hash::hash(hash_type, message, hash)?;
    }
    HashMatches = cerberus_hash_matches(hash_type: u8, message: &[u8], hash: &[u8], matches: &mut u8) -> [0] in Alone {
        *matches = hash::matches(hash_type, message, hash).into();
    }
    HmacSha256 = cerberus_hmac_sha256(key: &[u8], text: &[u8], mac: &mut [u8; 32]) -> [0, 2] in Alone {
        *mac = hmac::hmac(key, text)?;
    }
    PairingKey = cerberus_pairing_key(session_key: &[u8], pairing_key: &mut [u8]) -> [0, 2, 3] in Alone {
        pairing::pairing_key(session_key, pairing_key)?;
    }
    CertificateSlots = cerberus_certificate_slots(mask: u8, count: &mut u8, lowest: &mut u8) -> [0] in Alone {
        (*count, *lowest) = certificate_slots::count_and_lowest(mask);
    }
    LogReset = cerberus_log_reset(log: &mut State, buffer: &mut [u8]) -> [0, 3] in LogReset {
        *log = log::reset(buffer)?;
    }
    LogRecord = cerberus_log_record(
        log: &mut State, pmr: u8, event_type: u32, digest: &[u8; 32], buffer: &mut [u8]
    ) -> [0, 3, 4, 5, 7] in LogByState {
        *log = log::record(log, Record { pmr, event_type, digest: *digest }, buffer)?;
    }
    LogRegister = cerberus_log_register(
        log: &State, pmr: u8, buffer: &[u8], value: &mut [u8; 32]
    ) -> [0, 3, 4, 5] in LogByState {
        *value = log::register(log, pmr, buffer)?;
    }
    LogReadOut = cerberus_log_read_out(log: &State, buffer: &[u8], text_len: &mut usize) -> [0, 3, 4] in LogJudging {
        *text_len = log::read_out(log, buffer)? as usize;
    }
    LogReadOutVerdict = cerberus_log_read_out_verdict(log: &State, buffer: &[u8]) -> [0, 3, 4] in LogJudging {
        log::check(log, buffer)?;
    }
    LogCheck = cerberus_log_check(log: &State, buffer: &[u8]) -> [0, 3, 4] in LogJudging {
        log::check(log, buffer)?;
    }
    LogReplay = cerberus_log_replay(log: &mut State, text: &[u8], buffer: &mut [u8]) -> [0, 2, 3, 4] in LogText {
        *log = log::replay(text, buffer)?;
    }
    LogTextVerdict = cerberus_log_text_verdict(text: &[u8]) -> [0, 2, 4] in LogText {
        Book::of_text(text)?;
    }
    LogCompare = cerberus_log_compare(left: &[u8], right: &[u8], comparison: &mut Compared) -> [0, 2, 4] in LogPair {
        *comparison = compared(&comparison::compare(left, right)?);
    }
    SlotOpen = cerberus_slot_open(
        slot: &mut Numbers, magic: u16, pending: &mut [u8], active: &mut [u8]
    ) -> [0, 3] in Slot {
        *slot = slot::open(magic, pending, active)?.numbers();
    }
    SlotPrepare = cerberus_slot_prepare(
        slot: &mut Numbers, total: u32, pending: &[u8], active: &[u8]
    ) -> [0, 3, 4, 5] in Slot {
        let state = slot::entered(slot, pending, active)?;
        *slot = slot::prepare(state, total)?.numbers();
    }
    SlotUpdate = cerberus_slot_update(
        slot: &mut Numbers, payload: &[u8], pending: &mut [u8], active: &[u8]
    ) -> [0, 2, 3, 4, 5, 6] in Slot {
        let state = slot::entered(slot, pending, active)?;
        *slot = slot::update(state, payload, pending)?.numbers();
    }
    SlotActivate = cerberus_slot_activate(
        slot: &mut Numbers, signature_good: u8, pending: &[u8], active: &mut [u8]
    ) -> [0, 3, 4, 6, 8, 9, 10] in Slot {
        let state = slot::entered(slot, pending, active)?;
        *slot = slot::activate(state, is_yes(signature_good), pending, active)?.numbers();
    }
    SlotManifest = cerberus_slot_manifest(
        slot: &Numbers, role: u8, pending: &[u8], active: &[u8], length: &mut usize
    ) -> [0, 3, 4, 5] in Slot {
        let state = slot::entered(slot, pending, active)?;
        *length = slot::manifest_len(state, role_of(role)?) as usize;
    }
    Header = cerberus_header(message: &[u8]) -> [0, 1, 11] in Alone {
        message::header(message)?;
    }
    Command = cerberus_command(
        slot: &mut Numbers, signature_good: u8, message: &[u8], pending: &mut [u8], active: &mut [u8],
        response: &mut [u8], written: &mut usize
    ) -> [0, 1, 2, 3, 4, 5, 6, 8, 9, 10, 11] in Slot {
        let (next, len): (Slot, u64) =
            message::command(slot, is_yes(signature_good), message, pending, active, response)?;
        (*slot, *written) = (next.numbers(), len as usize);
    }
    RegionRead = cerberus_region_read(element: &[u8], start: &mut u32, end: &mut u32) -> [0, 12] in Element {
        let region = element::read_region(element)?;
        (*start, *end) = (region.start, region.end);
    }
    RegionWrite = cerberus_region_write(start: u32, end: u32, buffer: &mut [u8]) -> [0, 3, 12] in Element {
        element::write_region(element::Region { start, end }, buffer)?;
    }
    RwRegionRead = cerberus_rw_region_read(
        element: &[u8], operation: &mut u8, start: &mut u32, end: &mut u32
    ) -> [0, 12] in Element {
        let (read, region) = element::read_rw_region(element)?;
        (*operation, *start, *end) = (read, region.start, region.end);
    }
    RwRegionWrite = cerberus_rw_region_write(
        operation: u8, start: u32, end: u32, buffer: &mut [u8]
    ) -> [0, 3, 12] in Element {
        element::write_rw_region(operation, element::Region { start, end }, buffer)?;
    }
    SignedImageRead = cerberus_signed_image_read(
        element: &[u8], hash_type: &mut u8, region_count: &mut u8, must_validate: &mut u8, hash_len: &mut usize
    ) -> [0, 12] in Element {
        let image = element::read_signed_image(element)?;
        (*hash_type, *region_count) = (image.hash_type, image.regions.len() as u8);
        (*must_validate, *hash_len) = (image.must_validate, image.hash_len);
    }
    SignedImageRegion = cerberus_signed_image_region(
        element: &[u8], index: usize, start: &mut u32, end: &mut u32
    ) -> [0, 12] in Element {
        let region = element::signed_image_region(element, index as u64)?;
        (*start, *end) = (region.start, region.end);
    }
    SignedImageWrite = cerberus_signed_image_write(
        hash_type: u8, must_validate: u8, hash: &[u8], regions: &[u8], buffer: &mut [u8]
    ) -> [0, 3, 12] in Element {
        element::write_signed_image(hash_type, must_validate, hash, regions, buffer)?;
    }
    RootCasRead = cerberus_root_cas_read(
        hash_type: u8, element: &[u8], count: &mut u8, hash_len: &mut usize
    ) -> [0, 12] in Element {
        (*count, *hash_len) = element::read_root_cas(hash_type, element)?;
    }
    RootCasHash = cerberus_root_cas_hash(
        hash_type: u8, element: &[u8], index: usize, offset: &mut usize, hash_len: &mut usize
    ) -> [0, 12] in Element {
        (*offset, *hash_len) = element::root_cas_hash(hash_type, element, index as u64)?;
    }
    RootCasWrite = cerberus_root_cas_write(hash_type: u8, hashes: &[u8], buffer: &mut [u8]) -> [0, 3, 12] in Element {
        element::write_root_cas(hash_type, hashes, buffer)?;
    }
}

/// By the header, 1 is the board's yes and every other number its no.
fn is_yes(signature_good: u8) -> bool {
    signature_good == 1
}

fn role_of(number: u8) -> Answer<Role> {
    match number {
        0 => Ok(Role::Active),
        1 => Ok(Role::Pending),
        _ => Err(Refusal::OutOfRange),
    }
}

impl Call {
    pub fn signature(self) -> &'static Signature {
        &SIGNATURES[self as usize]
    }

    pub fn name(self) -> &'static str {
        self.signature().name
    }

    /// Which of the call's lent memories has this name.
    pub fn place(self, name: &str) -> usize {
        let place = self.signature().lent.iter().position(|(lent, _)| *lent == name);
        place.unwrap_or_else(|| panic!("{} is lent no {name}", self.name()))
    }

    /// Which of the call's numbers has this name.
    #[cfg(feature = "self-test")]
    pub fn number_place(self, name: &str) -> usize {
        let place = self.signature().numbers.iter().position(|number| *number == name);
        place.unwrap_or_else(|| panic!("{} has no number {name}", self.name()))
    }
}

const fn is_among(group: Group, groups: &[Group]) -> bool {
    let mut i = 0;
    while i < groups.len() && groups[i] as u8 != group as u8 {
        i += 1;
    }
    i < groups.len()
}

const fn count_in(groups: &[Group]) -> usize {
    let (mut count, mut i) = (0, 0);
    while i < CALLS.len() {
        count += is_among(GROUPS[i], groups) as usize;
        i += 1;
    }
    count
}

const fn calls_in<const COUNT: usize>(groups: &[Group]) -> [Call; COUNT] {
    let mut calls = [CALLS[0]; COUNT];
    let (mut count, mut i) = (0, 0);
    while i < CALLS.len() {
        if is_among(GROUPS[i], groups) {
            calls[count] = CALLS[i];
            count += 1;
        }
        i += 1;
    }
    calls
}

/// The calls of one or more groups, in the table's order.
macro_rules! lists {
    ($($name:ident = $($group:ident)|+;)*) => {
        $(pub const $name: &[Call] =
            &calls_in::<{ count_in(&[$(Group::$group),+]) }>(&[$(Group::$group),+]);)*
    };
}

lists! {
    OF_ONE_HASH = OneHash;
    BY_STATE = LogByState;
    JUDGING = LogJudging;
    OVER_STATE = LogByState | LogJudging;
    OVER_TEXT = LogText;
    OVER_LOG = LogReset | LogByState | LogJudging | LogText;
    FROM_LOGS = LogByState | LogJudging | LogText | LogPair;
    OVER_SLOT = Slot;
    OVER_ELEMENT = Element;
}

/// Calls the library. `at` has where each lent buffer lies.
#[cfg(not(feature = "self-test"))]
pub fn call_library(case: &Case, at: &[*mut u8]) -> u8 {
    (case.call.signature().library)(Passed::new(case, at))
}

/// What the papers and the header say that the call does.
pub fn call_model(case: &Case) -> Outcome {
    let mut lent = case.lent.clone();
    let answer = match case.claim {
        Some(claim) => {
            if case.call == Call::HashMatches {
                lent[2].fill(0);
            }
            claim.answer
        }
        None => match (case.call.signature().model)(Handed::new(&case.numbers, &mut lent)) {
            Ok(()) => 0,
            Err(refusal) => refusal as u8,
        },
    };
    Outcome { answer, lent }
}
