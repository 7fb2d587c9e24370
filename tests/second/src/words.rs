//! The bench's lines, words and numbers.

/// The lines of an input: they end with a line feed, the last may lack it.
pub fn lines(input: &[u8]) -> impl Iterator<Item = &[u8]> {
    input.split(|&byte| byte == b'\n')
}

/// "words separated by one or more blanks"; a blank is the space alone.
pub fn words(line: &[u8]) -> Vec<&[u8]> {
    line.split(|&byte| byte == b' ').filter(|word| !word.is_empty()).collect()
}

/// "A number is 1 to 20 decimal digits with a value below 2^64."
pub fn number(word: &[u8]) -> Option<u64> {
    if word.is_empty() || word.len() > 20 {
        return None;
    }
    let mut value: u64 = 0;
    for &digit in word {
        if !digit.is_ascii_digit() {
            return None;
        }
        value = value.checked_mul(10)?.checked_add(u64::from(digit - b'0'))?;
    }
    Some(value)
}

/// A number of at most `most`.
pub fn at_most(word: &[u8], most: u64) -> Option<usize> {
    number(word).filter(|&value| value <= most).map(|value| value as usize)
}
