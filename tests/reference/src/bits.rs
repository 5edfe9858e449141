//! Fields of 1 to 32 bits, packed with the most significant bit first.

/// A field that begins `at` bits into its bytes and is `width` bits wide.
/// Bit 0 is the most significant bit of byte 0.
#[derive(Clone, Copy, Debug, PartialEq, Eq)]
pub struct Field {
    pub at: usize,
    pub width: usize,
}

impl Field {
    pub const fn new(at: usize, width: usize) -> Field {
        Field { at, width }
    }

    /// The bit behind the field's last one.
    pub const fn end(self) -> usize {
        self.at + self.width
    }

    /// The largest number that the field can hold.
    pub const fn highest(self) -> u32 {
        u32::MAX >> (32 - self.width)
    }

    pub fn get(self, bytes: &[u8]) -> u32 {
        // A field of 32 bits touches at most 5 bytes, so 64 bits hold them.
        let touched = &bytes[self.at / 8..self.end().div_ceil(8)];
        let window = touched
            .iter()
            .fold(0u64, |window, byte| window << 8 | u64::from(*byte));
        let behind = self.end().div_ceil(8) * 8 - self.end();
        (window >> behind) as u32 & self.highest()
    }

    pub fn set(self, bytes: &mut [u8], number: u32) {
        debug_assert!(number <= self.highest());
        for step in 0..self.width {
            let bit = self.at + step;
            let mask = 0x80 >> (bit % 8);
            if number >> (self.width - 1 - step) & 1 == 1 {
                bytes[bit / 8] |= mask;
            } else {
                bytes[bit / 8] &= !mask;
            }
        }
    }
}

/// Whether every bit from bit `from` to the end of `bytes` is zero.
pub fn zero_from(bytes: &[u8], from: usize) -> bool {
    let whole = from.div_ceil(8);
    let first = match from % 8 {
        0 => 0,
        used => bytes[from / 8] << used,
    };
    first == 0 && bytes[whole..].iter().all(|byte| *byte == 0)
}

#[cfg(test)]
mod tests {
    use super::*;

    #[test]
    fn most_significant_bit_first() {
        let bytes = [0b1010_0000, 0b0000_0011, 0b1000_0000];
        assert_eq!(Field::new(0, 3).get(&bytes), 0b101);
        assert_eq!(Field::new(14, 3).get(&bytes), 0b111);
        assert_eq!(Field::new(13, 5).get(&bytes), 0b01110);
    }

    #[test]
    fn set_then_get_and_the_neighbours_stay() {
        for at in 0..16 {
            for width in 1..=32 {
                let field = Field::new(at, width);
                for number in [0, 1, 0x5555_5555 & field.highest(), field.highest()] {
                    let mut bytes = [0xFF; 8];
                    field.set(&mut bytes, number);
                    assert_eq!(field.get(&bytes), number);
                    field.set(&mut bytes, field.highest());
                    assert_eq!(bytes, [0xFF; 8]);
                }
            }
        }
    }

    #[test]
    fn zero_from_any_bit() {
        for set in 0..24 {
            let mut bytes = [0u8; 3];
            Field::new(set, 1).set(&mut bytes, 1);
            for from in 0..=24 {
                assert_eq!(zero_from(&bytes, from), set < from, "{set} {from}");
            }
        }
    }
}
