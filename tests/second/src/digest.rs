//! The bench's digest and noise.

/// "start with h = 1; for each number x: h := (h × 65,599 + x) mod
/// 4,294,967,291"
pub fn digest(numbers: impl Iterator<Item = u16>) -> u64 {
    numbers.fold(1, |h, x| (h * 65_599 + u64::from(x)) % 4_294_967_291)
}

pub fn digest_bytes(bytes: &[u8]) -> u64 {
    digest(bytes.iter().map(|&byte| u16::from(byte)))
}

pub fn digest_numbers(numbers: &[u16]) -> u64 {
    digest(numbers.iter().copied())
}

/// "A 64-bit word counts as its four 16-bit parts, low part first".
pub fn digest_words(words: &[u64]) -> u64 {
    let parts = |word: &u64| [0, 16, 32, 48].map(|shift| (word >> shift) as u16);
    digest(words.iter().flat_map(parts))
}

/// "x := S, if 0 then 88172645463325252; for each word: ..."
pub fn noise(words: &mut [u64], seed: u64) {
    let mut x = if seed == 0 { 88_172_645_463_325_252 } else { seed };
    for word in words {
        x ^= x << 13;
        x ^= x >> 7;
        x ^= x << 17;
        *word = x;
    }
}
