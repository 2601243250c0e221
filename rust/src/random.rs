//! Random numbers from the operating system, and from a generator of the caller.

use crate::kit::random::Rng;

/// Random numbers from a function that fills a slice with random bytes.
///
/// Calling this function can be costly, for example if it asks the operating system. So when the
/// core asks for its first random number, the function fills `LENGTH` bytes, which is as many as
/// one call of the core can need. A call of the core that needs no random number does not call the
/// function.
pub(crate) struct Once<F: FnMut(&mut [u8]), const LENGTH: usize> {
    fill: F,
    bytes: [u8; LENGTH],
    /// The number of bytes that have been used.
    used: usize,
}

/// Returns a source of random numbers for one nonce, which takes 16 numbers of 32 bits.
pub(crate) fn for_a_nonce<F: FnMut(&mut [u8])>(fill: F) -> Once<F, 64> {
    Once::new(fill)
}

/// Returns a source of random numbers for one transaction ID, which takes 3 numbers of 32 bits.
pub(crate) fn for_an_id<F: FnMut(&mut [u8])>(fill: F) -> Once<F, 12> {
    Once::new(fill)
}

impl<F: FnMut(&mut [u8]), const LENGTH: usize> Once<F, LENGTH> {
    /// Creates a source that has read nothing yet.
    fn new(fill: F) -> Once<F, LENGTH> {
        Once {
            fill,
            bytes: [0; LENGTH],
            used: LENGTH,
        }
    }
}

impl<F: FnMut(&mut [u8]), const LENGTH: usize> Rng for Once<F, LENGTH> {
    fn next_u32(&mut self) -> u32 {
        let mut four = [0; 4];
        self.fill_bytes(&mut four);
        u32::from_le_bytes(four)
    }

    fn next_u64(&mut self) -> u64 {
        let mut eight = [0; 8];
        self.fill_bytes(&mut eight);
        u64::from_le_bytes(eight)
    }

    fn fill_bytes(&mut self, dst: &mut [u8]) {
        for byte in dst {
            if self.used == LENGTH {
                (self.fill)(&mut self.bytes);
                self.used = 0;
            }
            *byte = self.bytes[self.used];
            self.used += 1;
        }
    }
}

/// Fills a slice with random bytes from the operating system, and panics if the system provides
/// none.
#[cfg(feature = "rand")]
pub(crate) fn system(bytes: &mut [u8]) {
    getrandom::getrandom(bytes).expect("the operating system provides no random numbers");
}

#[cfg(test)]
mod tests {
    use super::*;
    use crate::Instant;
    use crate::exported::stun_auth::auth::LongTermServerAuth;
    use crate::exported::stun_base::transaction_id::TransactionId;
    use crate::exported::stun_types::message::Message;
    use crate::kit::alloc::Global;
    use crate::kit::prelude::String;
    use alloc::vec::Vec;

    /// Records how many bytes each read asks for, and fills them with 1, 2, 3 and so on.
    #[derive(Default)]
    struct Reads {
        lengths: Vec<usize>,
        last: u8,
    }

    impl Reads {
        fn fill(&mut self, bytes: &mut [u8]) {
            self.lengths.push(bytes.len());
            for byte in bytes {
                self.last = self.last.wrapping_add(1);
                *byte = self.last;
            }
        }
    }

    #[test]
    fn an_id_is_made_with_one_read() {
        let mut reads = Reads::default();
        let mut source = for_an_id(|bytes| reads.fill(bytes));
        let id = TransactionId::generate(&mut source);
        let other = TransactionId::generate(&mut source);
        assert_ne!(id, other);
        assert_eq!(reads.lengths, [12, 12]);
    }

    #[test]
    fn a_nonce_is_made_with_one_read_and_only_if_it_is_needed() {
        let request = *b"\x00\x01\0\0\x21\x12\xa4\x42 any 12 byte";
        let request = Message::from_bytes(&request).unwrap();
        let realm = String::from_str(Global, "example.org").unwrap();
        let mut auth = LongTermServerAuth::new(Global, realm);
        let mut reads = Reads::default();
        let mut validate = |from: &str, reads: &mut Reads| {
            let mut source = for_a_nonce(|bytes| reads.fill(bytes));
            auth.validate_incoming_message(
                &request,
                from.parse().unwrap(),
                Instant::ZERO,
                &mut source,
            )
            .unwrap_err();
        };
        validate("192.0.2.1:4242", &mut reads);
        assert_eq!(reads.lengths, [64]);
        // The address has a nonce now.
        validate("192.0.2.1:4242", &mut reads);
        assert_eq!(reads.lengths, [64]);
        validate("192.0.2.2:4242", &mut reads);
        assert_eq!(reads.lengths, [64, 64]);
    }

    #[test]
    fn numbers_are_those_of_the_source_in_order() {
        let mut reads = Reads::default();
        let mut source = for_an_id(|bytes| reads.fill(bytes));
        assert_eq!(source.next_u32(), u32::from_le_bytes([1, 2, 3, 4]));
        assert_eq!(
            source.next_u64(),
            u64::from_le_bytes([5, 6, 7, 8, 9, 10, 11, 12])
        );
        assert_eq!(source.next_u32(), u32::from_le_bytes([13, 14, 15, 16]));
        assert_eq!(reads.lengths, [12, 12]);
    }
}
