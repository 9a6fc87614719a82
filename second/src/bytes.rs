//! Little-endian numbers in byte slices.

fn array_at<const N: usize>(bytes: &[u8], at: usize) -> [u8; N] {
    let mut array = [0; N];
    array.copy_from_slice(&bytes[at..at + N]);
    array
}

pub fn u16_at(bytes: &[u8], at: usize) -> u16 {
    u16::from_le_bytes(array_at(bytes, at))
}

pub fn u32_at(bytes: &[u8], at: usize) -> u32 {
    u32::from_le_bytes(array_at(bytes, at))
}

pub fn u64_at(bytes: &[u8], at: usize) -> u64 {
    u64::from_le_bytes(array_at(bytes, at))
}

pub fn i64_at(bytes: &[u8], at: usize) -> i64 {
    i64::from_le_bytes(array_at(bytes, at))
}

fn put<const N: usize>(bytes: &mut [u8], at: usize, array: [u8; N]) {
    bytes[at..at + N].copy_from_slice(&array);
}

/// Stores a number that its caller knows to fit two bytes.
pub fn put_u16(bytes: &mut [u8], at: usize, value: usize) {
    let value = u16::try_from(value).expect("a number that fits two bytes");
    put(bytes, at, value.to_le_bytes());
}

/// Stores a number that its caller knows to fit four bytes, unsigned.
pub fn put_u32(bytes: &mut [u8], at: usize, value: i64) {
    let value = u32::try_from(value).expect("a number that fits four bytes");
    put(bytes, at, value.to_le_bytes());
}

/// Stores a number that its caller knows to fit eight bytes, signed.
pub fn put_i64(bytes: &mut [u8], at: usize, value: i128) {
    let value = i64::try_from(value).expect("a number that fits eight bytes");
    put(bytes, at, value.to_le_bytes());
}

/// Stores a number that its caller knows to fit eight bytes, unsigned.
pub fn put_u64(bytes: &mut [u8], at: usize, value: i128) {
    let value = u64::try_from(value).expect("a number that fits eight bytes");
    put(bytes, at, value.to_le_bytes());
}
