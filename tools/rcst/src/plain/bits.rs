//! Fields, most significant bit first.

/// The `width` bits from bit `at` on, as a number.
pub fn field(bytes: &[u8], at: usize, width: usize) -> u32 {
    let bit = |place: usize| u32::from(bytes[place / 8] >> (7 - place % 8) & 1);
    (at..at + width).fold(0, |number, place| number << 1 | bit(place))
}

/// The first bit from `at` up to `end` that is set.
pub fn first_set(bytes: &[u8], at: usize, end: usize) -> Option<usize> {
    (at..end).find(|place| field(bytes, *place, 1) == 1)
}
