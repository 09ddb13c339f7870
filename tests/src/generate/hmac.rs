//! Keys and texts for HMAC.

use super::hash::{LIMIT, undefined_len};
use crate::calls::Call;
use crate::case::Case;
use crate::rng::Rng;

/// Lengths at the edges of a block and of the padding.
const EDGES: [usize; 16] = [0, 1, 31, 32, 33, 55, 56, 62, 63, 64, 65, 66, 119, 127, 128, 129];

/// A key or a text.
pub fn bytes(rng: &mut Rng) -> Vec<u8> {
    let len = match rng.below(20) {
        0..8 => rng.pick(&EDGES),
        8..19 => rng.below(200),
        _ => rng.below(3_000),
    };
    rng.filling(len)
}

pub fn case(rng: &mut Rng) -> Case {
    let case = of(bytes(rng), bytes(rng), rng);
    match rng.below(50) {
        0 => case.claiming(0, undefined_len(rng), 2),
        1 => case.claiming(1, too_long_text(rng), 2),
        _ => case,
    }
}

pub fn of(key: Vec<u8>, text: Vec<u8>, rng: &mut Rng) -> Case {
    Case::new(Call::HmacSha256, &[], vec![key, text, rng.bytes(32)])
}

/// No memory is so long. The block before the text is hashed too, so that the limit is lower by 64; from
/// `usize::MAX - 63` on the sum of both has no 64 bits.
fn too_long_text(rng: &mut Rng) -> usize {
    let near = [LIMIT - 64, LIMIT - 63, LIMIT - 1, usize::MAX - 64, usize::MAX - 63];
    if rng.chance(50) { rng.pick(&near) } else { undefined_len(rng) }
}
