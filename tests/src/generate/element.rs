//! Manifest elements and the fields that writers are given.

use super::{damage, size, word};
use crate::calls::Call;
use crate::case::Case;
use crate::rng::Rng;

/// A region's two addresses: equal, one apart in either direction, or free.
fn addresses(rng: &mut Rng) -> (u32, u32) {
    let start = word(rng);
    match rng.below(10) {
        0..2 => (start, start),
        2 => (start, start.wrapping_add(1)),
        3 => (start, start.wrapping_sub(1)),
        4 => (start, 0xffff_ffff),
        5 => (0, word(rng)),
        _ => (start, word(rng)),
    }
}

/// Two addresses that make a region.
fn sound_addresses(rng: &mut Rng) -> (u32, u32) {
    let (a, b) = addresses(rng);
    (a.min(b), a.max(b))
}

fn region_bytes((start, end): (u32, u32)) -> Vec<u8> {
    [start.to_le_bytes(), end.to_le_bytes()].concat()
}

/// Cuts or lengthens an element now and then.
fn sometimes_other_length(mut element: Vec<u8>, rng: &mut Rng) -> Vec<u8> {
    let len = element.len();
    if rng.chance(10) {
        let near = [0, 3, 4, len.saturating_sub(8), len.saturating_sub(1), len + 1, len + 8, len + 32];
        element.resize(rng.pick(&near), 0);
    }
    element
}

/// A buffer for an element of this length, too long or too short now and then.
fn buffer(len: usize, rng: &mut Rng) -> Vec<u8> {
    let near = [0, len.saturating_sub(1), len + 1, len + 8, len / 2, 12, 8];
    let len = if rng.chance(20) { rng.pick(&near) } else { len };
    rng.filling(len)
}

pub fn case(call: Call, rng: &mut Rng) -> Case {
    match call {
        Call::RegionRead => {
            let element = region_bytes(addresses(rng));
            read_region(sometimes_other_length(element, rng), rng)
        }
        Call::RegionWrite => {
            let (start, end) = addresses(rng);
            Case::new(call, &[u64::from(start), u64::from(end)], vec![buffer(8, rng)])
        }
        Call::RwRegionRead => {
            let element = rw_region(rng);
            read_rw_region(sometimes_other_length(element, rng), rng)
        }
        Call::RwRegionWrite => {
            let (start, end) = addresses(rng);
            let operation = if rng.chance(80) { rng.next() & 3 } else { rng.pick(&[4, 5, 8, 0x80, 0xfc, 0xff]) };
            Case::new(call, &[operation, u64::from(start), u64::from(end)], vec![buffer(12, rng)])
        }
        Call::SignedImageRead | Call::SignedImageRegion => {
            let element = sometimes_unsound_image(rng);
            signed_image(call, element, rng)
        }
        Call::SignedImageWrite => write_signed_image(rng),
        Call::RootCasRead | Call::RootCasHash => {
            let (hash_type, element) = sometimes_unsound_root_cas(rng);
            root_cas(call, hash_type, element, rng)
        }
        Call::RootCasWrite => write_root_cas(rng),
        _ => unreachable!("not a call over an element"),
    }
}

pub fn read_region(element: Vec<u8>, rng: &mut Rng) -> Case {
    Case::new(Call::RegionRead, &[], vec![element, rng.bytes(4), rng.bytes(4)])
}

/// An R/W region with at most a few rules broken.
fn rw_region(rng: &mut Rng) -> Vec<u8> {
    let mut element = vec![rng.byte() & 3, 0, 0, 0];
    element.extend(region_bytes(addresses(rng)));
    if rng.chance(15) {
        element[0] = rng.byte();
    }
    if rng.chance(10) {
        let at = 1 + rng.below(3);
        damage(&mut element, at, rng);
    }
    element
}

pub fn read_rw_region(element: Vec<u8>, rng: &mut Rng) -> Case {
    Case::new(Call::RwRegionRead, &[], vec![element, rng.bytes(1), rng.bytes(4), rng.bytes(4)])
}

/// The length of a type's hash; types that there are not have one too, so that they can be tried.
pub fn hash_len(hash_type: u8) -> usize {
    [32, 48, 64, 64][usize::from(hash_type.min(3))]
}

fn hash_type(rng: &mut Rng) -> u8 {
    if rng.chance(88) { rng.below(3) as u8 } else { rng.pick(&[3, 4, 7, 8, 0x80, 0xff]) }
}

fn count(rng: &mut Rng) -> usize {
    match rng.below(20) {
        0 => rng.pick(&[0, 254, 255]),
        1 => rng.below(256),
        _ => 1 + rng.below(6),
    }
}

/// So many regions, all sound.
fn regions(count: usize, rng: &mut Rng) -> Vec<u8> {
    (0..count).flat_map(|_| region_bytes(sound_addresses(rng))).collect()
}

/// Puts a region that may be unsound in the place of one of several.
fn corrupt_region(regions: &mut [u8], rng: &mut Rng) {
    let count = regions.len() / 8;
    if count > 0 {
        let random = rng.below(count);
        let at = 8 * rng.pick(&[0, count - 1, random]);
        let start = 1 + word(rng).min(0xffff_fffe);
        let end = rng.pick(&[start - 1, 0, start]);
        regions[at..at + 8].copy_from_slice(&region_bytes((start, end)));
    }
}

/// A signed image's bytes, by the rules but for its hash type and count, if these aren't.
pub fn image(hash_type: u8, count: usize, rng: &mut Rng) -> Vec<u8> {
    let mut element = vec![hash_type, count as u8, rng.byte() & 1, 0];
    element.extend(rng.filling(hash_len(hash_type)));
    element.extend(regions(count, rng));
    element
}

fn sometimes_unsound_image(rng: &mut Rng) -> Vec<u8> {
    let mut element = image(hash_type(rng), count(rng), rng);
    if rng.chance(15) {
        let first = 4 + hash_len(element[0]);
        corrupt_region(&mut element[first..], rng);
    }
    if rng.chance(15) {
        let at = rng.below(4);
        damage(&mut element, at, rng);
    }
    sometimes_other_length(element, rng)
}

/// An index: of a part, one past the last, or where its product with a length overflows.
fn index(count: u8, rng: &mut Rng) -> u64 {
    let count = u64::from(count);
    let past =
        [count, count + 1, 255, 256, 256 + count / 2, 1 << 32, 1 << 58, 1 << 59, 1 << 61, (1 << 61) + 1, u64::MAX];
    if rng.chance(75) { rng.below(count.max(1) as usize) as u64 } else { rng.pick(&past) }
}

/// A case that reads a signed image or one of its regions.
pub fn signed_image(call: Call, element: Vec<u8>, rng: &mut Rng) -> Case {
    if call == Call::SignedImageRead {
        let lent = vec![element, rng.bytes(1), rng.bytes(1), rng.bytes(1), size(rng)];
        return Case::new(call, &[], lent);
    }
    let index = index(element.get(1).copied().unwrap_or(0), rng);
    Case::new(call, &[index], vec![element, rng.bytes(4), rng.bytes(4)])
}

/// Fields for the writer of a signed image: each may break its rule.
fn write_signed_image(rng: &mut Rng) -> Case {
    let hash_type = hash_type(rng);
    let hash_len = if rng.chance(90) { hash_len(hash_type) } else { rng.pick(&[0, 31, 32, 33, 48, 64, 65]) };
    let must_validate = if rng.chance(90) { rng.next() & 1 } else { rng.pick(&[2, 3, 0x80, 0x81, 0xff]) };
    let count = if rng.chance(4) { rng.pick(&[256, 257, 300, 512]) } else { count(rng) };
    let mut regions = regions(count, rng);
    if rng.chance(10) {
        corrupt_region(&mut regions, rng);
    }
    if rng.chance(8) {
        regions.resize(regions.len() + 1 + rng.below(7), 0);
    }
    let buffer = buffer(4 + hash_len + regions.len(), rng);
    let lent = vec![rng.filling(hash_len), regions, buffer];
    Case::new(Call::SignedImageWrite, &[u64::from(hash_type), must_validate], lent)
}

/// Root CAs with so many hashes.
pub fn root_cas_bytes(hash_type: u8, count: usize, rng: &mut Rng) -> Vec<u8> {
    let mut element = vec![count as u8, 0, 0, 0];
    element.extend(rng.filling(count * hash_len(hash_type)));
    element
}

fn sometimes_unsound_root_cas(rng: &mut Rng) -> (u8, Vec<u8>) {
    let own = hash_type(rng);
    let mut element = root_cas_bytes(own, count(rng), rng);
    if rng.chance(15) {
        let at = rng.below(4);
        damage(&mut element, at, rng);
    }
    let asked = if rng.chance(85) { own } else { hash_type(rng) };
    (asked, sometimes_other_length(element, rng))
}

/// A case that reads Root CAs or finds one of its hashes.
pub fn root_cas(call: Call, hash_type: u8, element: Vec<u8>, rng: &mut Rng) -> Case {
    let hash_type = u64::from(hash_type);
    if call == Call::RootCasRead {
        return Case::new(call, &[hash_type], vec![element, rng.bytes(1), size(rng)]);
    }
    let index = index(element.first().copied().unwrap_or(0), rng);
    Case::new(call, &[hash_type, index], vec![element, size(rng), size(rng)])
}

fn write_root_cas(rng: &mut Rng) -> Case {
    let hash_type = hash_type(rng);
    let count = if rng.chance(6) { rng.pick(&[256, 257, 300]) } else { count(rng) };
    let mut len = count * hash_len(hash_type);
    if rng.chance(10) {
        len += rng.pick(&[1, 16, 31, 32, 47]);
    }
    let buffer = buffer(4 + len, rng);
    Case::new(Call::RootCasWrite, &[u64::from(hash_type)], vec![rng.filling(len), buffer])
}
