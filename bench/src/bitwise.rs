//! The byte layer in Rust bit by bit, as a field is defined: what request
//! 2026-02 set out from.

use std::hint::black_box;

/// What `bits::field` gives.
fn field(bytes: &[u8], at: usize, width: usize) -> u32 {
    let mut number: u32 = 0;
    let mut step = 0;
    while step < width {
        let bit = at + step;
        let byte = bytes[bit / 8];
        number = number * 2 + u32::from((byte >> (7 - bit % 8)) % 2);
        step += 1;
    }
    number
}

/// The byte with one bit made `bit`.
fn with_bit(byte: u8, place: usize, bit: u64) -> u8 {
    let power = 1u64 << (7 - place);
    let byte = u64::from(byte);
    ((byte / power / 2 * 2 + bit) * power + byte % power) as u8
}

/// What `bits::put_field` does.
fn put_field(bytes: &mut [u8], at: usize, width: usize, number: u64) {
    let mut step = 0;
    while step < width {
        let bit = at + step;
        let value = number / (1u64 << (width - 1 - step)) % 2;
        bytes[bit / 8] = with_bit(bytes[bit / 8], bit % 8, value);
        step += 1;
    }
}

#[inline(never)]
pub fn fields(bytes: &[u8], at: usize, width: usize, count: usize) -> u64 {
    (0..count)
        .map(|index| u64::from(field(bytes, at + 96 * index, width)))
        .sum()
}

#[inline(never)]
pub fn entries(page: &[u8], count: usize) -> u64 {
    let widths = [24, 20, 20, 32];
    let mut sum = 0;
    for index in 0..count {
        let mut at = 128 + 96 * index;
        for width in widths {
            sum += u64::from(field(page, at, width));
            at += width;
        }
    }
    sum
}

/// What `edit::fill` does, from a list of pairs.
#[inline(never)]
pub fn fill(page: &mut [u8], version: u32, key: u32, value: u32, count: usize) -> bool {
    let list = black_box([(key, value); 56]);
    for byte in page.iter_mut() {
        *byte = 0;
    }
    for (index, (key, value)) in list[..count].iter().enumerate() {
        let at = 128 + 96 * index;
        put_field(page, at, 24, u64::from(*key));
        put_field(page, at + 24, 20, u64::from(version));
        put_field(page, at + 44, 20, 1_048_575);
        put_field(page, at + 64, 32, u64::from(*value));
    }
    put_field(page, 0, 4, 1);
    put_field(page, 4, 5, count as u64);
    put_field(page, 9, 20, u64::from(version));
    put_field(page, 29, 20, 1_048_575);
    true
}
