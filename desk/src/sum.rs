//! A checksum against bytes that were flipped or cut: FNV-1a with 64 bits. It is no seal against a person who changes the file.

/// The sum of some bytes after an earlier sum; each part counts with its length.
pub(crate) fn sum(before: u64, parts: &[&[u8]]) -> u64 {
    let mut sum = before ^ 0xCBF2_9CE4_8422_2325;
    let mut put = |byte: u8| sum = (sum ^ u64::from(byte)).wrapping_mul(0x0100_0000_01B3);
    for part in parts {
        u64::try_from(part.len()).unwrap_or(u64::MAX).to_le_bytes().into_iter().for_each(&mut put);
        part.iter().copied().for_each(&mut put);
    }
    sum
}

#[cfg(test)]
mod tests {
    use super::sum;

    #[test]
    fn a_flip_a_cut_and_another_start_change_it() {
        let whole = sum(0, &[b"abc", b"d"]);
        assert_ne!(whole, sum(0, &[b"abd", b"d"]));
        assert_ne!(whole, sum(0, &[b"ab", b"cd"]));
        assert_ne!(whole, sum(1, &[b"abc", b"d"]));
        assert_eq!(whole, sum(0, &[b"abc", b"d"]));
    }
}
