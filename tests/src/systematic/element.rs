//! Manifest elements.

use crate::calls::Call;
use crate::case::Case;
use crate::generate::element::{hash_len, image, read_region, read_rw_region, root_cas, root_cas_bytes, signed_image};
use crate::harness::Harness;
use crate::rng::Rng;

const READ_IMAGE: [Call; 2] = [Call::SignedImageRead, Call::SignedImageRegion];
const READ_CAS: [Call; 2] = [Call::RootCasRead, Call::RootCasHash];
const ADDRESSES: [u32; 12] =
    [0, 1, 2, 0xff, 0x100, 0x1000, 0x1fff, 0x7fff_ffff, 0x8000_0000, 0xff00_0000, 0xffff_fffe, 0xffff_ffff];

/// Every pair of addresses at their limits, read and written.
pub fn regions(harness: &mut Harness, rng: &mut Rng) {
    for (start, end) in ADDRESSES.iter().flat_map(|&start| ADDRESSES.map(|end| (start, end))) {
        let region = [start.to_le_bytes(), end.to_le_bytes()].concat();
        harness.run(read_region(region.clone(), rng));
        for len in 0..=20 {
            let pair = [u64::from(start), u64::from(end)];
            harness.run(Case::new(Call::RegionWrite, &pair, vec![rng.bytes(len)]));
            for operation in [0, 1, 2, 3, 4, 0x80, 0xff] {
                let numbers = [operation, pair[0], pair[1]];
                harness.run(Case::new(Call::RwRegionWrite, &numbers, vec![rng.bytes(len)]));
            }
        }
        for operation in 0..=255 {
            harness.run(read_rw_region([&[operation, 0, 0, 0], &region[..]].concat(), rng));
        }
    }
}

/// Every value of every byte of sound elements.
pub fn damaged(harness: &mut Harness, rng: &mut Rng) {
    let region = [0x1000u32.to_le_bytes(), 0x1000u32.to_le_bytes()].concat();
    each_byte(&region, |element| drop(harness.run(read_region(element, rng))));
    let rw_region = [&[2, 0, 0, 0], &region[..]].concat();
    each_byte(&rw_region, |element| drop(harness.run(read_rw_region(element, rng))));
    for (hash_type, count) in [(0, 1), (1, 2), (2, 3)] {
        let element = image(hash_type, count, rng);
        for call in READ_IMAGE {
            each_byte(&element, |element| drop(harness.run(signed_image(call, element, rng))));
        }
        let element = root_cas_bytes(hash_type, count, rng);
        for call in READ_CAS {
            each_byte(&element, |element| drop(harness.run(root_cas(call, hash_type, element, rng))));
        }
    }
}

fn each_byte(element: &[u8], mut run: impl FnMut(Vec<u8>)) {
    for (at, value) in (0..element.len()).flat_map(|at| (0..=255).map(move |value| (at, value))) {
        let mut element = element.to_vec();
        element[at] = value;
        run(element);
    }
}

/// Every length up to some past the right one.
pub fn lengths(harness: &mut Harness, rng: &mut Rng) {
    for len in 0..400 {
        harness.run(read_region(vec![0; len], rng));
        harness.run(read_rw_region(vec![0; len], rng));
        for (hash_type, count) in [(0, 1), (0, 3), (1, 1), (2, 2)] {
            let mut element = image(hash_type, count, rng);
            element.resize(len, 0);
            for call in READ_IMAGE {
                harness.run(signed_image(call, element.clone(), rng));
            }
            let mut element = root_cas_bytes(hash_type, count, rng);
            element.resize(len, 0);
            for call in READ_CAS {
                harness.run(root_cas(call, hash_type, element.clone(), rng));
            }
        }
    }
}

/// Every hash type and every count, read with every type and at lengths about the right one.
pub fn types_and_counts(harness: &mut Harness, rng: &mut Rng) {
    for hash_type in 0..=255 {
        for count in [0, 1, 2, 255] {
            for call in READ_IMAGE {
                let element = image(hash_type, count, rng);
                harness.run(signed_image(call, element, rng));
            }
            for call in READ_CAS {
                let element = root_cas_bytes(hash_type, count, rng);
                harness.run(root_cas(call, hash_type, element, rng));
            }
            writers(harness, hash_type, count, rng);
        }
    }
    for count in 0..=300 {
        for hash_type in 0..=3 {
            writers(harness, hash_type, count, rng);
        }
    }
}

/// Both writers, with a buffer that is right or one byte off.
fn writers(harness: &mut Harness, hash_type: u8, count: usize, rng: &mut Rng) {
    let (hash, regions) = (rng.bytes(hash_len(hash_type)), vec![0x11; 8 * count]);
    let element = 4 + hash.len() + regions.len();
    let hashes = rng.bytes(count * hash.len());
    for off in [-1, 0, 1] {
        let number = u64::from(hash_type);
        let buffer = rng.bytes(element.saturating_add_signed(off));
        let lent = vec![hash.clone(), regions.clone(), buffer];
        harness.run(Case::new(Call::SignedImageWrite, &[number, number & 1], lent));
        let buffer = rng.bytes((4 + hashes.len()).saturating_add_signed(off));
        harness.run(Case::new(Call::RootCasWrite, &[number], vec![hashes.clone(), buffer]));
    }
}

/// Every index up to some past the last, and ones whose product with a length overflows.
pub fn indices(harness: &mut Harness, rng: &mut Rng) {
    let far = [1 << 16, 1 << 32, 1 << 58, 1 << 59, 1 << 60, 1 << 61, 1 << 62, 1 << 63, u64::MAX / 48 + 1, u64::MAX];
    for (hash_type, count) in [(0, 1), (1, 7), (2, 255)] {
        let image = image(hash_type, count, rng);
        let cas = root_cas_bytes(hash_type, count, rng);
        for index in (0..=600).chain(far.iter().flat_map(|&far| [far, far.wrapping_add(1)])) {
            let lent = vec![image.clone(), rng.bytes(4), rng.bytes(4)];
            harness.run(Case::new(Call::SignedImageRegion, &[index], lent));
            let lent = vec![cas.clone(), rng.bytes(8), rng.bytes(8)];
            harness.run(Case::new(Call::RootCasHash, &[u64::from(hash_type), index], lent));
        }
    }
}

/// Lengths that no memory has: no element is so long, whatever its bytes.
pub fn absurd_lengths(harness: &mut Harness, rng: &mut Rng) {
    for (hash_type, count) in [(0, 1), (1, 2), (2, 255)] {
        let image = image(hash_type, count, rng);
        let cas = root_cas_bytes(hash_type, count, rng);
        let region = rng.bytes(8);
        let rw_region = vec![0; 12];
        for add in [1 << 32, 1 << 63, usize::MAX - image.len()] {
            for call in READ_IMAGE {
                let len = image.len() + add;
                harness.run(signed_image(call, image.clone(), rng).claiming(0, len, 12));
            }
            for call in READ_CAS {
                let len = cas.len().wrapping_add(add);
                harness.run(root_cas(call, hash_type, cas.clone(), rng).claiming(0, len, 12));
            }
            absurd_writers(harness, hash_type, count, add, rng);
            harness.run(read_region(region.clone(), rng).claiming(0, 8 + add, 12));
            harness.run(read_rw_region(rw_region.clone(), rng).claiming(0, 12 + add, 12));
        }
    }
}

/// Both writers, with a hash, regions or hashes that are longer than any memory.
fn absurd_writers(harness: &mut Harness, hash_type: u8, count: usize, add: usize, rng: &mut Rng) {
    let (hash, regions) = (rng.bytes(hash_len(hash_type)), vec![0x11; 8 * count]);
    let hashes = rng.bytes(count * hash.len());
    let number = u64::from(hash_type);
    for (lent, len) in [hash.len() + add, regions.len() + add].into_iter().enumerate() {
        let buffer = rng.bytes(4 + hash.len() + regions.len());
        let case = Case::new(Call::SignedImageWrite, &[number, 1], vec![hash.clone(), regions.clone(), buffer]);
        harness.run(case.claiming(lent, len, 12));
    }
    let buffer = rng.bytes(4 + hashes.len());
    let len = hashes.len().wrapping_add(add);
    harness.run(Case::new(Call::RootCasWrite, &[number], vec![hashes, buffer]).claiming(0, len, 12));
}
