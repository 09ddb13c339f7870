//! The manifest elements and the flash region that two of them hold. Readers refuse 12 alone,
//! writers 12 and then 3.

use super::hash::hash_len;
use super::{Answer, Refusal, demand, little_endian};

const REGION_LEN: usize = 8;
const RW_REGION_LEN: usize = 12;
const PREFIX_LEN: usize = 4;

#[derive(Clone, Copy, Debug, PartialEq, Eq)]
pub struct Region {
    pub start: u32,
    pub end: u32,
}

fn sound(holds: bool) -> Answer<()> {
    demand(holds, Refusal::MalformedElement)
}

/// Puts an element into a buffer of exactly its length.
fn put(element: &[u8], buffer: &mut [u8]) -> Answer<()> {
    demand(buffer.len() == element.len(), Refusal::WrongBuffer)?;
    buffer.copy_from_slice(element);
    Ok(())
}

pub fn read_region(element: &[u8]) -> Answer<Region> {
    sound(element.len() == REGION_LEN)?;
    let start = little_endian(&element[0..4]) as u32;
    let end = little_endian(&element[4..8]) as u32;
    sound(start <= end)?;
    Ok(Region { start, end })
}

/// A sound region's bytes.
fn region_bytes(region: Region) -> Answer<[u8; REGION_LEN]> {
    sound(region.start <= region.end)?;
    let halves = [region.start.to_le_bytes(), region.end.to_le_bytes()];
    Ok(halves.concat().try_into().unwrap())
}

pub fn write_region(region: Region, buffer: &mut [u8]) -> Answer<()> {
    put(&region_bytes(region)?, buffer)
}

/// The operation and the region.
pub fn read_rw_region(element: &[u8]) -> Answer<(u8, Region)> {
    sound(element.len() == RW_REGION_LEN)?;
    sound(element[0] & 0b1111_1100 == 0)?;
    sound(element[1..4] == [0, 0, 0])?;
    let region = read_region(&element[4..])?;
    Ok((element[0] & 0b11, region))
}

pub fn write_rw_region(operation: u8, region: Region, buffer: &mut [u8]) -> Answer<()> {
    sound(operation <= 3)?;
    let mut element = vec![operation, 0, 0, 0];
    element.extend(region_bytes(region)?);
    put(&element, buffer)
}

#[derive(Clone, Debug, PartialEq, Eq)]
pub struct SignedImage {
    pub hash_type: u8,
    pub must_validate: u8,
    pub hash_len: usize,
    pub regions: Vec<Region>,
}

pub fn read_signed_image(element: &[u8]) -> Answer<SignedImage> {
    sound(element.len() >= PREFIX_LEN)?;
    let (hash_type, region_count, validate, reserved) = (element[0], element[1], element[2], element[3]);
    // Five zero bits stand above the hash type, so a byte above 2 breaks one rule or the other.
    let hash_len = hash_len(hash_type)?;
    sound(region_count >= 1)?;
    sound(validate & 0b1111_1110 == 0)?;
    sound(reserved == 0)?;
    sound(element.len() == PREFIX_LEN + hash_len + usize::from(region_count) * REGION_LEN)?;
    let regions = read_regions(&element[PREFIX_LEN + hash_len..])?;
    Ok(SignedImage { hash_type, must_validate: validate, hash_len, regions })
}

fn read_regions(bytes: &[u8]) -> Answer<Vec<Region>> {
    sound(bytes.len().is_multiple_of(REGION_LEN))?;
    bytes.chunks_exact(REGION_LEN).map(read_region).collect()
}

/// Region `index`, from 0.
pub fn signed_image_region(element: &[u8], index: u64) -> Answer<Region> {
    let image = read_signed_image(element)?;
    sound(index < image.regions.len() as u64)?;
    Ok(image.regions[index as usize])
}

pub fn write_signed_image(
    hash_type: u8,
    must_validate: u8,
    hash: &[u8],
    regions: &[u8],
    buffer: &mut [u8],
) -> Answer<()> {
    sound(hash.len() == hash_len(hash_type)?)?;
    sound(must_validate <= 1)?;
    let count = read_regions(regions)?.len();
    sound((1..=255).contains(&count))?;
    let prefix = [hash_type, count as u8, must_validate, 0];
    put(&[&prefix, hash, regions].concat(), buffer)
}

/// The number of hashes and the length of each.
pub fn read_root_cas(hash_type: u8, element: &[u8]) -> Answer<(u8, usize)> {
    let hash_len = hash_len(hash_type)?;
    sound(element.len() >= PREFIX_LEN)?;
    let count = element[0];
    sound(count >= 1)?;
    sound(element[1..4] == [0, 0, 0])?;
    sound(element.len() == PREFIX_LEN + usize::from(count) * hash_len)?;
    Ok((count, hash_len))
}

/// Where hash `index`, from 0, begins in the element, and its length.
pub fn root_cas_hash(hash_type: u8, element: &[u8], index: u64) -> Answer<(usize, usize)> {
    let (count, hash_len) = read_root_cas(hash_type, element)?;
    sound(index < u64::from(count))?;
    Ok((PREFIX_LEN + index as usize * hash_len, hash_len))
}

pub fn write_root_cas(hash_type: u8, hashes: &[u8], buffer: &mut [u8]) -> Answer<()> {
    let hash_len = hash_len(hash_type)?;
    sound(hashes.len().is_multiple_of(hash_len))?;
    let count = hashes.len() / hash_len;
    sound((1..=255).contains(&count))?;
    let prefix = [count as u8, 0, 0, 0];
    put(&[&prefix, hashes].concat(), buffer)
}
