//! SHA-256, SHA-384 and SHA-512 against the machine's own `sha256sum`, `sha384sum` and `sha512sum`: every length from 0 to
//! 1,100 with several fillings, and some long messages. The library hashes each by the hash's own call and by its type.

use crate::calls::Call;
use crate::case::{Case, Library, Outcome};
use crate::model::hash;
use crate::paper::OF_A_MILLION_AS;
use crate::rng::Rng;
use std::io::{Error, Result};
use std::path::Path;
use std::process::Command;

const LENGTHS: usize = 1100;
const LONG: [usize; 4] = [4096, 65_537, 1_000_000, 1 << 20];

/// One hash and who works it out.
struct Hash {
    name: &'static str,
    tool: &'static str,
    hash_type: u8,
    len: usize,
    own_call: Call,
}

const HASHES: [Hash; 3] = [
    Hash { name: "SHA-256", tool: "sha256sum", hash_type: 0, len: 32, own_call: Call::Sha256 },
    Hash { name: "SHA-384", tool: "sha384sum", hash_type: 1, len: 48, own_call: Call::Sha384 },
    Hash { name: "SHA-512", tool: "sha512sum", hash_type: 2, len: 64, own_call: Call::Sha512 },
];

/// What was compared, in words.
pub const WHAT: &str =
    "SHA-256, SHA-384 and SHA-512 against sha256sum, sha384sum and sha512sum, every length 0 to 1,100";

/// The number of digests that were compared, and those that differ, shown. The files go below `folder`.
pub fn compare(library: &Library, folder: &Path, seed: u64) -> Result<(usize, Vec<String>)> {
    let messages = messages(&mut Rng::new(seed, "installed", 0));
    let names = write_files(folder, &messages)?;
    let compared: Result<Vec<_>> =
        HASHES.iter().map(|hash| compare_hash(library, hash, folder, &names, &messages)).collect();
    std::fs::remove_dir_all(folder)?;
    Ok((HASHES.len() * messages.len(), compared?.concat()))
}

fn messages(rng: &mut Rng) -> Vec<Vec<u8>> {
    let mut messages = Vec::new();
    for len in (0..=LENGTHS).chain(LONG) {
        messages.extend([vec![0; len], vec![0xff; len], (0..len).map(|i| i as u8).collect(), rng.bytes(len)]);
    }
    messages.push(vec![b'a'; 1_000_000]);
    messages
}

/// The names of the messages' files.
fn write_files(folder: &Path, messages: &[Vec<u8>]) -> Result<Vec<String>> {
    std::fs::create_dir_all(folder)?;
    let names: Vec<String> = (0..messages.len()).map(|number| format!("{number:05}")).collect();
    for (name, message) in names.iter().zip(messages) {
        std::fs::write(folder.join(name), message)?;
    }
    Ok(names)
}

/// The digests of one hash that differ.
fn compare_hash(
    library: &Library,
    hash: &Hash,
    folder: &Path,
    names: &[String],
    messages: &[Vec<u8>],
) -> Result<Vec<String>> {
    let digests = installed_digests(hash, folder, names)?;
    let mut differences = Vec::new();
    for (message, theirs) in messages.iter().zip(&digests) {
        let model = hash::digest(hash.hash_type, message).ok();
        let found = [model, own_digest(library, hash, message), digest_by_type(library, hash, message)];
        if found.iter().any(|found| found.as_ref() != Some(theirs)) || !is_match(library, hash, message, theirs) {
            let what = format!("{} of {} bytes", hash.name, message.len());
            differences.push(format!("{what}: {} {theirs:02x?}, model and library {found:02x?}", hash.tool));
        }
    }
    let published = digest_of_line(OF_A_MILLION_AS[usize::from(hash.hash_type)], hash.len);
    if digests.last() != published.as_ref() {
        differences.push(format!("{} of a million letters a isn't the published one", hash.name));
    }
    Ok(differences)
}

/// The library's digest, if it answers one.
fn own_digest(library: &Library, hash: &Hash, message: &[u8]) -> Option<Vec<u8>> {
    let case = Case::new(hash.own_call, &[], vec![message.to_vec(), vec![0; hash.len]]);
    Outcome::unguarded(library, &case).accepted("digest", &case)
}

fn digest_by_type(library: &Library, hash: &Hash, message: &[u8]) -> Option<Vec<u8>> {
    let case = Case::new(Call::Hash, &[hash.hash_type.into()], vec![message.to_vec(), vec![0; hash.len]]);
    Outcome::unguarded(library, &case).accepted("hash", &case)
}

fn is_match(library: &Library, hash: &Hash, message: &[u8], digest: &[u8]) -> bool {
    let lent = vec![message.to_vec(), digest.to_vec(), vec![9]];
    let case = Case::new(Call::HashMatches, &[hash.hash_type.into()], lent);
    Outcome::unguarded(library, &case).accepted("matches", &case) == Some(vec![1])
}

/// Has the hash's tool hash all files at once.
fn installed_digests(hash: &Hash, folder: &Path, names: &[String]) -> Result<Vec<Vec<u8>>> {
    let output = Command::new(hash.tool).current_dir(folder).args(names).output()?;
    let text = String::from_utf8_lossy(&output.stdout);
    let digests: Vec<Vec<u8>> = text.lines().filter_map(|line| digest_of_line(line, hash.len)).collect();
    if !output.status.success() || digests.len() != names.len() {
        return Err(Error::other(format!("{} didn't answer for every file", hash.tool)));
    }
    Ok(digests)
}

/// The so many bytes that a line begins with, in hex.
pub fn digest_of_line(line: &str, len: usize) -> Option<Vec<u8>> {
    let hex = line.get(..2 * len)?;
    (0..len).map(|i| u8::from_str_radix(&hex[2 * i..2 * i + 2], 16).ok()).collect()
}
