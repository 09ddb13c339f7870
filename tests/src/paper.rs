//! Document 01's examples at the edges, published vectors, and what document 02 says of a log's state (Item 2), of its
//! legacy form (Item 4), of hash types (Item 8) and of slots and pairing (Item 14), with the papers' own bytes: neither
//! the library nor the model decides here what is right.

use crate::calls::{Call, OF_ONE_HASH, call_model};
use crate::case::{Case, Outcome};
use crate::ffi::slot_bytes;
use crate::harness::Harness;
use crate::model::sha512::constants_are_roots;
use crate::model::slot::Numbers;

/// SHA-256 of 64 zero bytes, which the paper's first record ends with.
const OF_64_ZEROS: &str = "f5a5fd42d16a20302798ef6ed309979b43003d2320d9f0e8ea9831a92759fb4b";

/// FIPS 180-4's examples for SHA-256, SHA-384 and SHA-512, as published: "abc" for each, the third message for SHA-256
/// and the fourth for the others. What else the three hashes make of these, and of the empty message, is as Python's
/// hashlib has it.
const VECTORS: [(&[u8], [&str; 3]); 4] = [
    (
        b"",
        [
            "e3b0c44298fc1c149afbf4c8996fb92427ae41e4649b934ca495991b7852b855",
            "38b060a751ac96384cd9327eb1b1e36a21fdb71114be0743 4c0cc7bf63f6e1da274edebfe76f65fbd51ad2f14898b95b",
            "cf83e1357eefb8bdf1542850d66d8007d620e4050b5715dc83f4a921d36ce9ce \
             47d0d13c5d85f2b0ff8318d2877eec2f63b931bd47417a81a538327af927da3e",
        ],
    ),
    (
        b"abc",
        [
            "ba7816bf8f01cfea414140de5dae2223b00361a396177a9cb410ff61f20015ad",
            "cb00753f45a35e8bb5a03d699ac65007272c32ab0eded163 1a8b605a43ff5bed8086072ba1e7cc2358baeca134c825a7",
            "ddaf35a193617abacc417349ae20413112e6fa4e89a97ea20a9eeee64b55d39a \
             2192992a274fc1a836ba3c23a3feebbd454d4423643ce80e2a9ac94fa54ca49f",
        ],
    ),
    (
        b"abcdbcdecdefdefgefghfghighijhijkijkljklmklmnlmnomnopnopq",
        [
            "248d6a61d20638b8e5c026930c3e6039a33ce45964ff2167f6ecedd419db06c1",
            "3391fdddfc8dc7393707a65b1b4709397cf8b1d162af05ab fe8f450de5f36bc6b0455a8520bc4e6f5fe95b1fe3c8452b",
            "204a8fc6dda82f0a0ced7beb8e08a41657c16ef468b228a8279be331a703c335 \
             96fd15c13b1b07f9aa1d3bea57789ca031ad85c7a71dd70354ec631238ca3445",
        ],
    ),
    (
        b"abcdefghbcdefghicdefghijdefghijkefghijklfghijklmghijklmnhijklmnoijklmnopjklmnopqklmnopqrlmnopqrsmnopqrstnopqrstu",
        [
            "cf5b16a778af8380036ce59e7b0492370b249b11e8f07a51afac45037afee9d1",
            "09330c33f71147e83d192fc782cd1b4753111b173b3b05d2 2fa08086e3b0f712fcc7c71a557e2db966c3e9fa91746039",
            "8e959b75dae313da8cf4f72814fc143f8f7779c6eb9f7fa17299aeadb6889018 \
             501d289e4900f7e4331b99dec4b5433ac7d329eeb6dd26545e96e55b874be909",
        ],
    ),
];

/// The letter a, a million times, by the same three, as FIPS 180-2 published them. It is too long to be lent here:
/// `installed` holds the machine's tools to them, and the library and the model to the tools.
pub const OF_A_MILLION_AS: [&str; 3] = [
    "cdc76e5c9914fb9281a1c7e284d73e67f1809a48a497200e046d39ccc7112cd0",
    "9d0e1809716474cb086e834e310a4a1ced149e9c00f248527972cec5704c2a5b07b8b3dc38ecc4ebae97ddd87f3d8985",
    "e718483d0ce769644e2e42c7bc15b4638e1f98b13b2044285632a803afa973eb\
     de0ff244877ea60a4cb0432ce577c31beb009c5c2c49aa2e4eadb217ad8cc09b",
];

/// Key, text and MAC of RFC 4231's test cases 1 to 4, 6 and 7 for HMAC-SHA-256, as CPython 3.11's Lib/test/test_hmac.py
/// quotes them. It has no case 5, of which the RFC shows the first 16 bytes alone.
fn rfc_4231() -> [(Vec<u8>, Vec<u8>, &'static str); 6] {
    [
        (vec![0x0b; 20], b"Hi There".to_vec(), "b0344c61d8db38535ca8afceaf0bf12b 881dc200c9833da726e9376c2e32cff7"),
        (
            b"Jefe".to_vec(),
            b"what do ya want for nothing?".to_vec(),
            "5bdcc146bf60754e6a042426089575c7 5a003f089d2739839dec58b964ec3843",
        ),
        (vec![0xaa; 20], vec![0xdd; 50], "773ea91e36800e46854db8ebd09181a7 2959098b3ef8c122d9635514ced565fe"),
        ((1..=25).collect(), vec![0xcd; 50], "82558a389a443c0ea4cc819899f2083a 85f0faa3e578f8077a2e3ff46729665b"),
        (
            vec![0xaa; 131],
            b"Test Using Larger Than Block-Size Key - Hash Key First".to_vec(),
            "60e431591ee0b67f0d8a26aacbf5b77f 8e0bc6213728c5140546040f0ee37f54",
        ),
        (
            vec![0xaa; 131],
            b"This is a test using a larger than block-size key and a larger than block-size data. \
              The key needs to be hashed before being used by the HMAC algorithm."
                .to_vec(),
            "9b09ffa71b942fcb27635fbcd5b0e944 bfdc63644f0713938a7f51535c3a35e2",
        ),
    ]
}

/// What HMAC is given for a pairing key, by NIST SP 800-108 and Item 14: the counter 1, the label, a zero byte, no
/// context and the length, 256 bits.
const PAIRING_TEXT: &str = "00 00 00 01 70 61 69 72 69 6e 67 00 00 00 01 00";

pub fn run(harness: &mut Harness) {
    hashes(harness);
    macs(harness);
    pairing_keys(harness);
    certificate_slots(harness);
    headers(harness);
    elements(harness);
    first_record(harness);
    first_record_compared(harness);
    kept_registers(harness);
    record_over_any_buffer(harness);
    numbers_of_a_state(harness);
    legacy_texts(harness);
    legacy_buffer(harness);
    limits(harness);
    version_id(harness);
}

fn bytes(hex: &str) -> Vec<u8> {
    let digits: Vec<u8> = hex.bytes().filter(u8::is_ascii_hexdigit).collect();
    let pair = |pair: &[u8]| u8::from_str_radix(std::str::from_utf8(pair).unwrap(), 16).unwrap();
    digits.chunks(2).map(pair).collect()
}

/// Holds the library, and the model too, to what the paper shows.
fn expect(harness: &mut Harness, case: Case, answer: u8, lent: Vec<Vec<u8>>) {
    let expected = Outcome { answer, lent };
    assert_eq!(call_model(&case), expected, "the model differs from the paper");
    harness.expect_outcome(case, expected);
}

/// A case that is refused, or accepted without a change.
fn expect_unchanged(harness: &mut Harness, case: Case, answer: u8) {
    let lent = case.lent.clone();
    expect(harness, case, answer, lent);
}

/// Each by its own call, by its type and compared: with itself, cut and with a byte more.
fn hashes(harness: &mut Harness) {
    assert!(constants_are_roots(), "the model's constants aren't those of FIPS 180-4");
    for (message, digests) in VECTORS {
        for ((hash_type, &call), digest) in (0..).zip(OF_ONE_HASH).zip(digests.map(bytes)) {
            let lent = vec![message.to_vec(), vec![0; digest.len()]];
            let hashed = vec![message.to_vec(), digest.clone()];
            expect(harness, Case::new(call, &[], lent.clone()), 0, hashed.clone());
            expect(harness, Case::new(Call::Hash, &[hash_type], lent), 0, hashed);
            compared_hash(harness, hash_type, message, &digest, 1);
            compared_hash(harness, hash_type, message, &digest[1..], 0);
            compared_hash(harness, hash_type, message, &[&digest[..], &[0]].concat(), 0);
        }
    }
    types_without_a_hash(harness);
}

fn compared_hash(harness: &mut Harness, hash_type: u64, message: &[u8], hash: &[u8], matches: u8) {
    let case = Case::new(Call::HashMatches, &[hash_type], vec![message.to_vec(), hash.to_vec(), vec![9]]);
    expect(harness, case, 0, vec![message.to_vec(), hash.to_vec(), vec![matches]]);
}

/// Item 8: a type above 2 is 12, whatever the buffer, and it matches nothing.
fn types_without_a_hash(harness: &mut Harness) {
    for hash_type in [3, 4, 127, 128, 255] {
        for len in [0, 31, 32, 48, 64, 65] {
            expect_unchanged(harness, Case::new(Call::Hash, &[hash_type], vec![b"abc".to_vec(), vec![9; len]]), 12);
        }
        for (message, digests) in VECTORS {
            digests.map(bytes).iter().for_each(|digest| compared_hash(harness, hash_type, message, digest, 0));
        }
    }
}

fn mac_case(key: &[u8], text: &[u8]) -> Case {
    Case::new(Call::HmacSha256, &[], vec![key.to_vec(), text.to_vec(), vec![0; 32]])
}

fn macs(harness: &mut Harness) {
    for (key, text, mac) in rfc_4231() {
        expect(harness, mac_case(&key, &text), 0, vec![key.clone(), text.clone(), bytes(mac)]);
    }
}

/// A pairing key is its text's MAC, by the HMAC that the vectors hold; a buffer one byte off is 3.
fn pairing_keys(harness: &mut Harness) {
    for (session_key, _, _) in rfc_4231() {
        let mut paired = call_model(&mac_case(&session_key, &bytes(PAIRING_TEXT)));
        let case = |len: usize| Case::new(Call::PairingKey, &[], vec![session_key.clone(), vec![9; len]]);
        expect(harness, case(32), 0, vec![session_key.clone(), paired.lent.swap_remove(2)]);
        expect_unchanged(harness, case(31), 3);
        expect_unchanged(harness, case(33), 3);
    }
}

/// Slot 0 is the bit worth 1; 255 stands for none.
fn certificate_slots(harness: &mut Harness) {
    let examples = [(0x00, 0, 255), (0x01, 1, 0), (0x80, 1, 7), (0x06, 2, 1), (0x90, 2, 4), (0xff, 8, 0)];
    for (mask, count, lowest) in examples {
        let case = Case::new(Call::CertificateSlots, &[mask], vec![vec![9], vec![9]]);
        expect(harness, case, 0, vec![vec![count], vec![lowest]]);
    }
}

fn headers(harness: &mut Harness) {
    let examples = [
        ("7e141400 62", 0),
        ("7e141400 63", 0),
        ("7e141400 64", 0),
        ("7e141400 65", 0),
        ("fe141400 62", 1),
        ("7e141420 62", 11),
        ("7e141480 62", 11),
        ("7e141460 62", 1),
        ("7e141400", 1),
    ];
    for (message, answer) in examples {
        expect_unchanged(harness, Case::new(Call::Header, &[], vec![bytes(message)]), answer);
    }
}

fn elements(harness: &mut Harness) {
    for (first, answer) in [(2, 0), (3, 0), (4, 12)] {
        let mut element = bytes("02 00 00 00 00 10 00 00 ff 1f 00 00");
        element[0] = first;
        rw_region(harness, element, answer, (0x1000, 0x1fff));
    }
    rw_region(harness, bytes("00 00 00 00 00 10 00 00 00 10 00 00"), 0, (0x1000, 0x1000));
    for (len, answer) in [(43, 12), (44, 0), (45, 12)] {
        signed_image(harness, 0, 1, len, answer);
    }
    signed_image(harness, 2, 2, 84, 0);
}

fn rw_region(harness: &mut Harness, element: Vec<u8>, answer: u8, (start, end): (u32, u32)) {
    let case = Case::new(Call::RwRegionRead, &[], vec![element.clone(), vec![9], vec![9; 4], vec![9; 4]]);
    if answer != 0 {
        return expect_unchanged(harness, case, answer);
    }
    let operation = vec![element[0]];
    expect(harness, case, 0, vec![element, operation, start.to_ne_bytes().to_vec(), end.to_ne_bytes().to_vec()]);
}

fn signed_image(harness: &mut Harness, hash_type: u8, count: u8, len: usize, answer: u8) {
    let mut element = vec![0; len];
    (element[0], element[1], element[2]) = (hash_type, count, 1);
    let lent = vec![element.clone(), vec![9], vec![9], vec![9], vec![9; 8]];
    let case = Case::new(Call::SignedImageRead, &[], lent);
    if answer != 0 {
        return expect_unchanged(harness, case, answer);
    }
    let hash_len = [32u64, 48, 64][usize::from(hash_type)].to_ne_bytes().to_vec();
    expect(harness, case, 0, vec![element, vec![hash_type], vec![count], vec![1], hash_len]);
}

/// First record, PMR0, event type 10, digest all zero, with this before the digest.
fn first_entry_from(head: &str) -> Vec<u8> {
    let mut entry = bytes(head);
    entry.extend([0; 32]);
    entry.extend(bytes("20 00 00 00"));
    entry.extend(bytes(OF_64_ZEROS));
    entry
}

/// By 000's tables: document 02, Item 4, has the example follow them.
fn first_entry() -> Vec<u8> {
    first_entry_from("cb 59 00 00 00 00 00 0a 00 00 00 00 00 00 00 01 00 00 00 0b 00")
}

/// As document 01 has it, by 003.
fn legacy_first_entry() -> Vec<u8> {
    first_entry_from("0b 57 00 00 00 00 00 0a 00 00 00 00 00 00 00 01 00 00 0b")
}

/// A log's state in the header's 208 bytes: the count, registers and numbers of PMR0 and PMR1; the others' are zero.
fn log_state(count: u64, pmrs: [(&[u8], u64); 2]) -> Vec<u8> {
    let mut state = count.to_le_bytes().to_vec();
    for (register, entries) in pmrs {
        state.extend(register);
        state.extend(entries.to_le_bytes());
    }
    state.resize(208, 0);
    state
}

/// A register before any record.
const ZEROS: &[u8] = &[0; 32];

/// The state after the first record.
fn first_state() -> Vec<u8> {
    log_state(1, [(&bytes(OF_64_ZEROS), 1), (ZEROS, 0)])
}

/// A log's buffer that holds these bytes at its front.
fn log_buffer(mut front: Vec<u8>) -> Vec<u8> {
    front.resize(5696, 0);
    front
}

fn first_record(harness: &mut Harness) {
    let case = Case::new(Call::LogRecord, &[0, 10], vec![vec![0; 208], vec![0; 32], vec![0; 5696]]);
    expect(harness, case, 0, vec![first_state(), vec![0; 32], log_buffer(first_entry())]);
    let case = Case::new(Call::LogReplay, &[], vec![vec![9; 208], first_entry(), vec![7; 5696]]);
    expect(harness, case, 0, vec![first_state(), first_entry(), log_buffer(first_entry())]);
    let case = Case::new(Call::LogReset, &[], vec![first_state(), log_buffer(first_entry())]);
    expect(harness, case, 0, vec![vec![0; 208], vec![0; 5696]]);
    // A fresh register reads as zeros.
    for pmr in 0..5 {
        let case = Case::new(Call::LogRegister, &[pmr], vec![vec![0; 208], vec![0; 5696], vec![9; 32]]);
        expect(harness, case, 0, vec![vec![0; 208], vec![0; 5696], vec![0; 32]]);
    }
}

/// The three calls that hold the buffer to the state.
fn judged(harness: &mut Harness, state: &[u8], buffer: &[u8], answer: u8) {
    let lent = vec![state.to_vec(), buffer.to_vec()];
    expect_unchanged(harness, Case::new(Call::LogReadOutVerdict, &[], lent.clone()), answer);
    expect_unchanged(harness, Case::new(Call::LogCheck, &[], lent.clone()), answer);
    if answer != 0 {
        expect_unchanged(harness, Case::new(Call::LogReadOut, &[], [lent, vec![vec![9; 8]]].concat()), answer);
    }
}

/// Item 2: a damaged buffer, or one unlike the state's registers or numbers, is 4 for read-out, its companion and check
/// alone; a register read gives the state's register whatever the buffer holds.
fn kept_registers(harness: &mut Harness) {
    let (state, own) = (first_state(), log_buffer(first_entry()));
    judged(harness, &state, &own, 0);
    let case = Case::new(Call::LogReadOut, &[], vec![state.clone(), own.clone(), vec![9; 8]]);
    expect(harness, case, 0, vec![state.clone(), own.clone(), 89u64.to_ne_bytes().to_vec()]);
    judged(harness, &log_state(1, [(ZEROS, 1), (ZEROS, 0)]), &own, 4);
    judged(harness, &log_state(1, [(&bytes(OF_64_ZEROS), 0), (ZEROS, 1)]), &own, 4);
    judged(harness, &vec![0; 208], &own, 4);
    for buffer in [vec![0; 5696], vec![0xff; 5696], log_buffer([first_entry(), vec![1]].concat())] {
        judged(harness, &state, &buffer, 4);
        for (pmr, register) in [(0, bytes(OF_64_ZEROS)), (1, ZEROS.to_vec())] {
            let case = Case::new(Call::LogRegister, &[pmr], vec![state.clone(), buffer.clone(), vec![9; 32]]);
            expect(harness, case, 0, vec![state.clone(), buffer.clone(), register]);
        }
    }
}

/// Item 2: the second record, PMR1, with the first one's event type and digest, over a buffer that holds anything.
fn record_over_any_buffer(harness: &mut Harness) {
    let entry = first_entry_from("cb 59 00 01 00 00 00 0a 00 00 00 00 01 00 00 01 00 00 00 0b 00");
    let case = Case::new(Call::LogRecord, &[1, 10], vec![first_state(), vec![0; 32], vec![0xff; 5696]]);
    let register = bytes(OF_64_ZEROS);
    let mut buffer = vec![0xff; 5696];
    buffer[89..178].copy_from_slice(&entry);
    expect(harness, case, 0, vec![log_state(2, [(&register, 1), (&register, 1)]), vec![0; 32], buffer]);
}

/// Item 2: numbers that don't add up, or exceed 64, are 4 for every call that reads them; 64 of them don't.
fn numbers_of_a_state(harness: &mut Harness) {
    let half = 1 << 63;
    for (count, pmr0, pmr1) in [(0, 1, 0), (1, 0, 0), (2, 1, 0), (65, 65, 0), (0, half, half), (1, u64::MAX, 2)] {
        let state = log_state(count, [(ZEROS, pmr0), (ZEROS, pmr1)]);
        judged(harness, &state, &vec![0; 5696], 4);
        for pmr in [0, 5] {
            let record = vec![state.clone(), vec![0; 32], vec![0; 5696]];
            expect_unchanged(harness, Case::new(Call::LogRecord, &[pmr, 10], record), 4);
            let register = vec![state.clone(), vec![0; 5696], vec![9; 32]];
            expect_unchanged(harness, Case::new(Call::LogRegister, &[pmr], register), 4);
        }
    }
    let full = log_state(64, [(ZEROS, 63), (ZEROS, 1)]);
    for (pmr, answer) in [(0, 7), (4, 7), (5, 5)] {
        let record = vec![full.clone(), vec![0; 32], vec![0; 5696]];
        expect_unchanged(harness, Case::new(Call::LogRecord, &[pmr, 10], record), answer);
    }
}

/// The text of the first record, beside itself and beside the empty text, whose PMR0 ends at place 0.
fn first_record_compared(harness: &mut Harness) {
    for (left, right, pmr0) in [
        (first_entry(), first_entry(), "01 01 01 01 00"),
        (first_entry(), Vec::new(), "01 00 00 00 00"),
        (Vec::new(), first_entry(), "00 01 00 00 00"),
        (Vec::new(), Vec::new(), "00 00 01 01 00"),
    ] {
        let mut comparison = bytes(pmr0);
        comparison.extend(bytes("00 00 01 01 00").repeat(4));
        let case = Case::new(Call::LogCompare, &[], vec![left.clone(), right.clone(), vec![9; 25]]);
        expect(harness, case, 0, vec![left.clone(), right, comparison]);
        expect_unchanged(harness, Case::new(Call::LogTextVerdict, &[], vec![left]), 0);
    }
}

/// Item 4: a text of one to 64 entries in the 87-byte form is 2.
fn legacy_texts(harness: &mut Harness) {
    for entries in 1..=64 {
        let text = legacy_first_entry().repeat(entries);
        let lent = vec![vec![9; 208], text.clone(), vec![7; 5696]];
        expect_unchanged(harness, Case::new(Call::LogReplay, &[], lent), 2);
        expect_unchanged(harness, Case::new(Call::LogTextVerdict, &[], vec![text.clone()]), 2);
        for (left, right) in [(text.clone(), first_entry()), (first_entry(), text)] {
            expect_unchanged(harness, Case::new(Call::LogCompare, &[], vec![left, right, vec![9; 25]]), 2);
        }
    }
}

/// Item 4: a buffer of the old length is 3, whatever else is right or wrong.
fn legacy_buffer(harness: &mut Harness) {
    let buffer = vec![0; 5568];
    for text in [Vec::new(), first_entry(), legacy_first_entry()] {
        expect_unchanged(harness, Case::new(Call::LogReplay, &[], vec![vec![9; 208], text, buffer.clone()]), 3);
    }
    for (state, pmr) in [(vec![0; 208], 0), (vec![0xff; 208], 5)] {
        judged(harness, &state, &buffer, 3);
        expect_unchanged(harness, Case::new(Call::LogReset, &[], vec![state.clone(), buffer.clone()]), 3);
        let record = vec![state.clone(), vec![0; 32], buffer.clone()];
        expect_unchanged(harness, Case::new(Call::LogRecord, &[pmr, 10], record), 3);
        let register = vec![state, buffer.clone(), vec![9; 32]];
        expect_unchanged(harness, Case::new(Call::LogRegister, &[pmr], register), 3);
    }
}

const IDLE: Numbers = Numbers { magic: 0x1029, active_length: 0, active_id: 0, receiving: 0, total: 0, received: 0 };

fn limits(harness: &mut Harness) {
    for (total, answer) in [(12, 5), (13, 0), (4096, 0), (4097, 5)] {
        let lent = vec![slot_bytes(&IDLE), vec![7; 4096], vec![8; 4096]];
        let case = Case::new(Call::SlotPrepare, &[total], lent.clone());
        if answer != 0 {
            expect_unchanged(harness, case, answer);
            continue;
        }
        let next = Numbers { receiving: 1, total, ..IDLE };
        expect(harness, case, 0, vec![slot_bytes(&next), lent[1].clone(), lent[2].clone()]);
    }
    sixty_fourth_record(harness);
}

/// The 64th record passes, the 65th is 7.
fn sixty_fourth_record(harness: &mut Harness) {
    let (mut state, mut buffer) = (vec![0; 208], vec![0; 5696]);
    for number in 1..=65 {
        let lent = vec![state.clone(), vec![number; 32], buffer.clone()];
        let case = Case::new(Call::LogRecord, &[u64::from(number % 5), 10], lent);
        let expected = call_model(&case);
        assert_eq!(expected.answer, if number == 65 { 7 } else { 0 }, "the model differs from document 01");
        let Some(mut found) = harness.expect_outcome(case, expected) else {
            return;
        };
        buffer = found.lent.pop().unwrap();
        state = found.lent.swap_remove(0);
    }
}

/// Get PCD Id with id 0x01020304 active ends 01 04 03 02 01.
fn version_id(harness: &mut Harness) {
    let slot = slot_bytes(&Numbers { active_length: 13, active_id: 0x0102_0304, ..IDLE });
    let (message, pending, active) = (bytes("7e 14 14 00 62"), vec![7; 4096], vec![8; 4096]);
    let lent = vec![slot.clone(), message.clone(), pending.clone(), active.clone(), vec![9; 12], vec![9; 8]];
    let case = Case::new(Call::Command, &[0], lent);
    let response = bytes("7e 14 14 00 62 01 04 03 02 01 09 09");
    expect(harness, case, 0, vec![slot, message, pending, active, response, 10u64.to_ne_bytes().to_vec()]);
}
