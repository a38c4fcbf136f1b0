//! The digest of `crates/digest`.

/// A digest with one more number in it.
fn rolled(digest: u64, x: u64) -> u64 {
    let sum = digest.wrapping_add(x).wrapping_add(0x9E37_79B9_7F4A_7C15);
    let spread = sum.wrapping_add(sum << 10);
    spread ^ spread >> 6
}

pub fn rolled_words(digest: u64, words: &[u64]) -> u64 {
    words.iter().fold(digest, |digest, &word| rolled(digest, word))
}
