//! The numbers by which a map compares keys before it looks at the keys themselves.

use crate::exported::stun_base::transaction_id::TransactionId;
use crate::kit::alloc::Allocator;
use crate::kit::string::String;
use core::net::SocketAddr;

/// A key of a map. Each key has a number, its head. The head of the lesser of two keys is less than
/// or equal to the head of the other key. A key and its borrowed form have the same head.
pub trait Key: Ord {
    /// Returns the head.
    fn head(&self) -> u64;
}

impl Key for u32 {
    fn head(&self) -> u64 {
        u64::from(*self)
    }
}

impl Key for u64 {
    fn head(&self) -> u64 {
        *self
    }
}

impl Key for str {
    fn head(&self) -> u64 {
        let bytes = self.as_bytes();
        if let Some(first) = bytes.first_chunk() {
            return u64::from_be_bytes(*first);
        }
        let mut first = [0; 8];
        first[..bytes.len()].copy_from_slice(bytes);
        u64::from_be_bytes(first)
    }
}

impl<A: Allocator> Key for String<A> {
    fn head(&self) -> u64 {
        self.as_str().head()
    }
}

impl<K: Ord> Key for ([u8; 32], K) {
    fn head(&self) -> u64 {
        let first = self.0.first_chunk().copied().unwrap_or_default();
        u64::from_be_bytes(first)
    }
}

impl Key for SocketAddr {
    #[allow(clippy::cast_possible_truncation, reason = "the number has 63 bits")]
    fn head(&self) -> u64 {
        match self {
            SocketAddr::V4(v4) => u64::from(v4.ip().to_bits()) << 16 | u64::from(v4.port()),
            SocketAddr::V6(v6) => 1 << 63 | (v6.ip().to_bits() >> 65) as u64,
        }
    }
}

impl Key for TransactionId {
    #[allow(clippy::cast_possible_truncation, reason = "the number has 64 bits")]
    fn head(&self) -> u64 {
        (self.as_u128() >> 32) as u64
    }
}
