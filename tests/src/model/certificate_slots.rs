//! The certificate slot mask of document 000's challenge response, as document 02, Item 14, reads it.

/// The header's number for no slot.
const NO_CHAIN: u8 = 255;

/// How many slots hold a chain, and the lowest that does. Slot 0 is the bit worth 1, slot 1 the one worth 2, and so on.
pub fn count_and_lowest(mask: u8) -> (u8, u8) {
    let holding: Vec<u8> = (0..8).filter(|&slot| mask / 2u8.pow(slot.into()) % 2 == 1).collect();
    (holding.len() as u8, holding.first().copied().unwrap_or(NO_CHAIN))
}
