//! FNV-1a, 64 bits.

const BASIS: u64 = 0xCBF2_9CE4_8422_2325;
const PRIME: u64 = 0x0000_0100_0000_01B3;

pub fn of_bytes(bytes: &[u8]) -> u64 {
    go_on(BASIS, bytes)
}

/// The hash of numbers as four bytes each, high first.
pub fn of_numbers(numbers: &[u32]) -> u64 {
    let step = |hash, number: &u32| go_on(hash, &number.to_be_bytes());
    numbers.iter().fold(BASIS, step)
}

fn go_on(hash: u64, bytes: &[u8]) -> u64 {
    let step = |hash: u64, byte: &u8| (hash ^ u64::from(*byte)).wrapping_mul(PRIME);
    bytes.iter().fold(hash, step)
}

#[cfg(test)]
mod tests {
    use super::*;

    /// From the description of FNV.
    #[test]
    fn known_hashes() {
        assert_eq!(of_bytes(b""), 0xCBF2_9CE4_8422_2325);
        assert_eq!(of_bytes(b"a"), 0xAF63_DC4C_8601_EC8C);
        assert_eq!(of_bytes(b"foobar"), 0x8594_4171_F739_67E8);
        assert_eq!(of_numbers(&[0x666F_6F62]), of_bytes(b"foob"));
    }
}
