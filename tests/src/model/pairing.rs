//! The pairing key of document 000's device binding: the counter mode of NIST SP 800-108, with what document 02,
//! Item 14, puts into it.

use super::hmac::hmac;
use super::{Answer, Refusal, demand};

pub const KEY_LEN: usize = 32;
const LABEL: &[u8] = b"pairing";
const CONTEXT: &[u8] = b"";
/// L, the bits that are asked for.
const KEY_BITS: u32 = 256;
/// h, the bits of one HMAC.
const MAC_BITS: u32 = 256;

/// Fills a buffer of exactly the key's length, which is judged first (document 01: 3 comes before 2).
pub fn pairing_key(session_key: &[u8], buffer: &mut [u8]) -> Answer<()> {
    demand(buffer.len() == KEY_LEN, Refusal::WrongBuffer)?;
    buffer.copy_from_slice(&counter_mode(session_key, LABEL, CONTEXT, KEY_BITS)?);
    Ok(())
}

/// K(1), K(2) and so on, one behind the other, as far as bits are asked for.
fn counter_mode(key: &[u8], label: &[u8], context: &[u8], bits: u32) -> Answer<Vec<u8>> {
    let mut derived = Vec::new();
    for i in 1..=bits.div_ceil(MAC_BITS) {
        let text = [&i.to_be_bytes(), label, &[0], context, &bits.to_be_bytes()].concat();
        derived.extend(hmac(key, &text)?);
    }
    derived.truncate(bits as usize / 8);
    Ok(derived)
}
