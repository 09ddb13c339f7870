//! SHA-256 by FIPS 180-4, sections 4.1.2, 4.2.2, 5.1.1, 5.3.3 and 6.2.2.

/// Section 4.2.2: the first 32 bits of the fractional parts of the cube roots of the first 64 primes.
const K: [u32; 64] = [
    0x428a2f98, 0x71374491, 0xb5c0fbcf, 0xe9b5dba5, 0x3956c25b, 0x59f111f1, 0x923f82a4, 0xab1c5ed5, 0xd807aa98,
    0x12835b01, 0x243185be, 0x550c7dc3, 0x72be5d74, 0x80deb1fe, 0x9bdc06a7, 0xc19bf174, 0xe49b69c1, 0xefbe4786,
    0x0fc19dc6, 0x240ca1cc, 0x2de92c6f, 0x4a7484aa, 0x5cb0a9dc, 0x76f988da, 0x983e5152, 0xa831c66d, 0xb00327c8,
    0xbf597fc7, 0xc6e00bf3, 0xd5a79147, 0x06ca6351, 0x14292967, 0x27b70a85, 0x2e1b2138, 0x4d2c6dfc, 0x53380d13,
    0x650a7354, 0x766a0abb, 0x81c2c92e, 0x92722c85, 0xa2bfe8a1, 0xa81a664b, 0xc24b8b70, 0xc76c51a3, 0xd192e819,
    0xd6990624, 0xf40e3585, 0x106aa070, 0x19a4c116, 0x1e376c08, 0x2748774c, 0x34b0bcb5, 0x391c0cb3, 0x4ed8aa4a,
    0x5b9cca4f, 0x682e6ff3, 0x748f82ee, 0x78a5636f, 0x84c87814, 0x8cc70208, 0x90befffa, 0xa4506ceb, 0xbef9a3f7,
    0xc67178f2,
];

/// Section 5.3.3: the initial hash value.
pub const H0: [u32; 8] =
    [0x6a09e667, 0xbb67ae85, 0x3c6ef372, 0xa54ff53a, 0x510e527f, 0x9b05688c, 0x1f83d9ab, 0x5be0cd19];

/// From here on a message has 2^64 bits or more, and section 5.1.1 has no room for its length.
pub const LIMIT: u64 = 1 << 61;

/// The digest of a message.
pub fn sha256(message: &[u8]) -> [u8; 32] {
    let whole = message.len() / 64 * 64;
    let mut hash = H0;
    for block in message[..whole].chunks_exact(64) {
        hash = compress(hash, block);
    }
    for block in padded_end(message, whole).chunks_exact(64) {
        hash = compress(hash, block);
    }
    let mut digest = [0; 32];
    for (bytes, word) in digest.chunks_exact_mut(4).zip(hash) {
        bytes.copy_from_slice(&word.to_be_bytes());
    }
    digest
}

/// Section 5.1.1: the bytes behind the whole blocks, a one bit, zeros and the length in bits.
fn padded_end(message: &[u8], whole: usize) -> Vec<u8> {
    let mut end = message[whole..].to_vec();
    end.push(0x80);
    while end.len() % 64 != 56 {
        end.push(0);
    }
    let bits = message.len() as u64 * 8;
    end.extend(bits.to_be_bytes());
    end
}

/// Section 6.2.2: the hash value after one more block.
pub fn compress(hash: [u32; 8], block: &[u8]) -> [u32; 8] {
    let w = schedule(block);
    let [mut a, mut b, mut c, mut d, mut e, mut f, mut g, mut h] = hash;
    for t in 0..64 {
        let ch = (e & f) ^ (!e & g);
        let maj = (a & b) ^ (a & c) ^ (b & c);
        let big_sigma_0 = a.rotate_right(2) ^ a.rotate_right(13) ^ a.rotate_right(22);
        let big_sigma_1 = e.rotate_right(6) ^ e.rotate_right(11) ^ e.rotate_right(25);
        let t1 = sum(&[h, big_sigma_1, ch, K[t], w[t]]);
        let t2 = sum(&[big_sigma_0, maj]);
        (h, g, f, e) = (g, f, e, sum(&[d, t1]));
        (d, c, b, a) = (c, b, a, sum(&[t1, t2]));
    }
    let worked = [a, b, c, d, e, f, g, h];
    std::array::from_fn(|i| sum(&[hash[i], worked[i]]))
}

/// The message schedule of a block.
fn schedule(block: &[u8]) -> [u32; 64] {
    let mut w = [0; 64];
    for (word, bytes) in w.iter_mut().zip(block.chunks_exact(4)) {
        *word = u32::from_be_bytes([bytes[0], bytes[1], bytes[2], bytes[3]]);
    }
    for t in 16..64 {
        let small_sigma_0 = w[t - 15].rotate_right(7) ^ w[t - 15].rotate_right(18) ^ (w[t - 15] >> 3);
        let small_sigma_1 = w[t - 2].rotate_right(17) ^ w[t - 2].rotate_right(19) ^ (w[t - 2] >> 10);
        w[t] = sum(&[small_sigma_1, w[t - 7], small_sigma_0, w[t - 16]]);
    }
    w
}

/// Addition modulo 2^32.
fn sum(words: &[u32]) -> u32 {
    words.iter().fold(0, |total: u32, &word| total.wrapping_add(word))
}
