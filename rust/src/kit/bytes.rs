//! Numbers in both byte orders, with the names of the crate `byteorder`.

/// A byte order. A slice from which a number is read, or to which it is written, must be at least
/// as long as the number.
pub trait ByteOrder {
    /// Reads a number of 16 bits from the front of a slice.
    fn read_u16(bytes: &[u8]) -> u16;

    /// Reads a number of 32 bits from the front of a slice.
    fn read_u32(bytes: &[u8]) -> u32;

    /// Reads a number of 64 bits from the front of a slice.
    fn read_u64(bytes: &[u8]) -> u64;

    /// Reads a number of `length` bytes from the front of a slice. `length` must be at most 16.
    fn read_uint128(bytes: &[u8], length: usize) -> u128;

    /// Writes a number of 16 bits to the front of a slice.
    fn write_u16(bytes: &mut [u8], number: u16);

    /// Writes a number of `length` bytes to the front of a slice. `length` must be at most 16.
    fn write_uint128(bytes: &mut [u8], number: u128, length: usize);
}

/// Network order: the highest byte first.
pub enum BigEndian {}

/// The lowest byte first.
pub enum LittleEndian {}

/// Returns the first `N` bytes of a slice.
fn first<const N: usize>(bytes: &[u8]) -> [u8; N] {
    *bytes
        .first_chunk()
        .expect("a slice that is as long as the number")
}

macro_rules! order {
    ($order:ident, $from:ident, $to:ident, $from_many:expr, $to_many:expr) => {
        impl ByteOrder for $order {
            #[inline]
            fn read_u16(bytes: &[u8]) -> u16 {
                u16::$from(first(bytes))
            }

            #[inline]
            fn read_u32(bytes: &[u8]) -> u32 {
                u32::$from(first(bytes))
            }

            #[inline]
            fn read_u64(bytes: &[u8]) -> u64 {
                u64::$from(first(bytes))
            }

            #[inline]
            fn read_uint128(bytes: &[u8], length: usize) -> u128 {
                let mut number = [0; 16];
                number[$from_many(length)].copy_from_slice(&bytes[..length]);
                u128::$from(number)
            }

            #[inline]
            fn write_u16(bytes: &mut [u8], number: u16) {
                bytes[..2].copy_from_slice(&number.$to());
            }

            #[inline]
            fn write_uint128(bytes: &mut [u8], number: u128, length: usize) {
                bytes[..length].copy_from_slice(&number.$to()[$to_many(length)]);
            }
        }
    };
}

order!(
    BigEndian,
    from_be_bytes,
    to_be_bytes,
    |length| 16 - length..,
    |length| 16 - length..
);
order!(
    LittleEndian,
    from_le_bytes,
    to_le_bytes,
    |length| ..length,
    |length| ..length
);
