//! HMAC.

use crate::generate::hmac::of;
use crate::harness::Harness;
use crate::rng::Rng;

/// Every length of key with every length of text, past three blocks.
pub fn lengths(harness: &mut Harness, rng: &mut Rng) {
    for (key_len, text_len) in (0..=200).flat_map(|key_len| (0..=200).map(move |text_len| (key_len, text_len))) {
        let (key, text) = (rng.bytes(key_len), rng.bytes(text_len));
        harness.run(of(key, text, rng));
    }
}

/// Every length of key with several fillings, among them the pads' own bytes, which make a block zero, and keys that
/// end in zeros, which are like shorter ones.
pub fn keys(harness: &mut Harness, rng: &mut Rng) {
    for key_len in 0..=200 {
        let counting = (0..key_len).map(|i| i as u8).collect();
        let mut ending = rng.bytes(key_len);
        ending[key_len / 2..].fill(0);
        let filled = [0, 0xff, 0x36, 0x5c, 0x6a].map(|byte| vec![byte; key_len]);
        for key in filled.into_iter().chain([counting, ending]) {
            for text_len in [0, 1, 55, 64, 500] {
                let text = rng.filling(text_len);
                harness.run(of(key.clone(), text, rng));
            }
        }
    }
}

/// Long keys and long texts.
pub fn long(harness: &mut Harness, rng: &mut Rng) {
    let lens = [0, 64, 65, 1000, 4095, 4096, 4097, 60_000];
    for (key_len, text_len) in lens.into_iter().flat_map(|key_len| lens.map(|text_len| (key_len, text_len))) {
        let (key, text) = (rng.filling(key_len), rng.filling(text_len));
        harness.run(of(key, text, rng));
    }
}

/// Lengths that no memory has. A key of 2^61 - 1 bytes and a text of 2^61 - 65 are permitted and would be read, so that
/// each limit is tried from above alone.
pub fn undefined_lengths(harness: &mut Harness, rng: &mut Rng) {
    let of_both = [1 << 61, (1 << 61) + 1, (1 << 61) + 64, 1 << 62, 1 << 63, (1 << 63) + 32, usize::MAX];
    let of_text = [(1 << 61) - 64, (1 << 61) - 63, (1 << 61) - 1, usize::MAX - 64, usize::MAX - 63];
    for (key_len, text_len) in [(0, 0), (0, 200), (32, 1), (63, 55), (64, 64), (65, 65), (200, 0), (200, 200)] {
        let case = of(rng.bytes(key_len), rng.bytes(text_len), rng);
        for len in of_both {
            harness.run(case.clone().claiming(0, len, 2));
        }
        for len in of_text.into_iter().chain(of_both) {
            harness.run(case.clone().claiming(1, len, 2));
        }
    }
}
