//! HMAC-SHA-256 and pairing keys against the machine's own `openssl`, 3.0 or later: `openssl mac` for HMAC, and for the
//! counter mode of NIST SP 800-108 `openssl kdf` with KBKDF, which has 32 bits of counter and of length unless told
//! otherwise. KBKDF takes no empty key, so session keys begin at one byte.

use crate::calls::Call;
use crate::case::{Case, Library, Outcome};
use crate::installed::digest_of_line;
use crate::model::hmac::hmac;
use crate::model::pairing::{KEY_LEN, pairing_key};
use crate::rng::Rng;
use std::io::{Error, Result};
use std::path::Path;
use std::process::Command;

/// Every length up to this one, past two blocks.
const LENGTHS: usize = 130;
const KEY_EDGES: [usize; 9] = [0, 1, 32, 63, 64, 65, 128, 200, 1000];
const TEXT_EDGES: [usize; 10] = [0, 1, 55, 56, 63, 64, 65, 119, 128, 1000];

/// What was compared, in words.
pub const WHAT: &str = "HMAC and pairing keys against openssl, every length to 130";

/// The number of values that were compared, and those that differ, shown. The files go below `folder`.
pub fn compare(library: &Library, folder: &Path, seed: u64) -> Result<(usize, Vec<String>)> {
    let mut rng = Rng::new(seed, "openssl", 0);
    std::fs::create_dir_all(folder)?;
    let shown = macs(library, folder, &mut rng).and_then(|macs| Ok([macs, pairing_keys(library, &mut rng)?].concat()));
    std::fs::remove_dir_all(folder)?;
    let shown = shown?;
    Ok((shown.len(), shown.into_iter().flatten().collect()))
}

/// For each MAC, in what it differs.
fn macs(library: &Library, folder: &Path, rng: &mut Rng) -> Result<Vec<Option<String>>> {
    let compare = |(key_len, text_len): (usize, usize)| {
        let (key, text) = (rng.bytes(key_len), rng.bytes(text_len));
        let theirs = installed_mac(folder, &key, &text)?;
        let what = format!("HMAC of {text_len} bytes under a key of {key_len}");
        Ok(difference(&what, theirs, mac(library, &key, &text), hmac(&key, &text).ok()))
    };
    mac_lengths().into_iter().map(compare).collect()
}

/// Every length of key and every length of text, and the edges of both together.
fn mac_lengths() -> Vec<(usize, usize)> {
    let keys = (0..=LENGTHS).map(|key| (key, 40));
    let texts = (0..=LENGTHS).map(|text| (32, text));
    let edges = KEY_EDGES.into_iter().flat_map(|key| TEXT_EDGES.map(|text| (key, text)));
    keys.chain(texts).chain(edges).collect()
}

/// For each pairing key, in what it differs.
fn pairing_keys(library: &Library, rng: &mut Rng) -> Result<Vec<Option<String>>> {
    let compare = |key_len: usize| {
        let key = rng.bytes(key_len);
        let mut buffer = [0; KEY_LEN];
        let model = pairing_key(&key, &mut buffer).ok().map(|()| buffer);
        let what = format!("pairing key of a session key of {key_len} bytes");
        Ok(difference(&what, installed_pairing_key(&key)?, paired(library, &key), model))
    };
    (1..=LENGTHS).chain([200, 1000]).map(compare).collect()
}

fn difference(what: &str, theirs: [u8; 32], library: Option<[u8; 32]>, model: Option<[u8; 32]>) -> Option<String> {
    let differs = library != Some(theirs) || model != Some(theirs);
    differs.then(|| format!("{what}: library {library:02x?}, model {model:02x?}, openssl {theirs:02x?}"))
}

/// The library's MAC, if it answers one.
fn mac(library: &Library, key: &[u8], text: &[u8]) -> Option<[u8; 32]> {
    let case = Case::new(Call::HmacSha256, &[], vec![key.to_vec(), text.to_vec(), vec![0; 32]]);
    Outcome::unguarded(library, &case).accepted("mac", &case)?.try_into().ok()
}

fn paired(library: &Library, session_key: &[u8]) -> Option<[u8; KEY_LEN]> {
    let case = Case::new(Call::PairingKey, &[], vec![session_key.to_vec(), vec![0; KEY_LEN]]);
    Outcome::unguarded(library, &case).accepted("pairing_key", &case)?.try_into().ok()
}

fn installed_mac(folder: &Path, key: &[u8], text: &[u8]) -> Result<[u8; 32]> {
    let file = folder.join("text");
    std::fs::write(&file, text)?;
    let options = ["-digest", "SHA256", "-macopt", &hex_key(key), "-in"];
    answer(Command::new("openssl").arg("mac").args(options).arg(file).arg("HMAC"))
}

fn installed_pairing_key(session_key: &[u8]) -> Result<[u8; 32]> {
    let options = ["mac:HMAC", "digest:SHA256", &hex_key(session_key), "salt:pairing"];
    let options = options.iter().flat_map(|option| ["-kdfopt", option]);
    answer(Command::new("openssl").args(["kdf", "-keylen", "32"]).args(options).arg("KBKDF"))
}

fn hex_key(key: &[u8]) -> String {
    let digits: String = key.iter().map(|byte| format!("{byte:02x}")).collect();
    format!("hexkey:{digits}")
}

/// The 32 bytes that a command writes in hex, with or without colons.
fn answer(command: &mut Command) -> Result<[u8; 32]> {
    let output = command.output()?;
    let digits: String = output.stdout.iter().map(|&byte| byte as char).filter(char::is_ascii_hexdigit).collect();
    let bytes = digest_of_line(&digits, 32).filter(|_| output.status.success() && digits.len() == 64);
    let said = String::from_utf8_lossy(&output.stderr);
    bytes
        .and_then(|bytes| bytes.try_into().ok())
        .ok_or_else(|| Error::other(format!("no answer from {command:?}: {said}")))
}
