//! Roots of primes, by which FIPS 180-4 says in words what its constants are.

/// Whether these words are the first 64 bits of the fractional parts of the roots of this degree of as many primes, from
/// that with so many before it on.
pub fn are_roots(words: &[u64], before: usize, degree: u32) -> bool {
    let primes = (2..).filter(|n| (2..*n).all(|divisor| n % divisor != 0)).skip(before);
    words.iter().zip(primes).all(|(&word, prime)| is_root(word, prime, degree))
}

/// Whether `word` is the first 64 bits of the fractional part of the number's root of this degree: the root's whole part
/// followed by them is at most 2^64 times the root, and one more is above it.
fn is_root(word: u64, number: u64, degree: u32) -> bool {
    let whole = (0..).take_while(|n: &u64| n.pow(degree) <= number).last().unwrap();
    let power = |low: u64, high: u64| (1..degree).fold(vec![low, high], |product, _| times(&product, &[low, high]));
    let mut scaled = vec![0; 2 * degree as usize];
    scaled[degree as usize] = number;
    let (next, carry) = word.overflowing_add(1);
    !is_less(&scaled, &power(word, whole)) && is_less(&scaled, &power(next, whole + u64::from(carry)))
}

/// The product of two numbers, each in words of which the low one stands first.
fn times(left: &[u64], right: &[u64]) -> Vec<u64> {
    let mut product = vec![0; left.len() + right.len()];
    for (i, &a) in left.iter().enumerate() {
        let mut carry = 0;
        for (j, &b) in right.iter().enumerate() {
            let total = u128::from(a) * u128::from(b) + u128::from(product[i + j]) + carry;
            product[i + j] = total as u64;
            carry = total >> 64;
        }
        product[i + right.len()] = carry as u64;
    }
    product
}

/// Of two such numbers with as many words.
fn is_less(left: &[u64], right: &[u64]) -> bool {
    left.iter().rev().lt(right.iter().rev())
}
