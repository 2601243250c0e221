//! Transaction IDs.

use crate::exported::stun_base::transaction_id as proved;
use core::fmt;

/// A transaction ID (RFC 8489, section 5): a number of 96 bits that matches a response to its
/// request.
///
/// An attacker who can guess the ID of an outstanding request can forge a response to it. So IDs
/// must be unpredictable, and every new request needs a new one. [`Message::builder_request`] makes
/// a random ID, and [`Message::transaction_id`] returns the ID of a message.
///
/// It is displayed in hexadecimal, for example as `0x0102030405060708090a0b0c`, and `{:?}` writes
/// `TransactionId(0x0102030405060708090a0b0c)`.
///
/// [`Message::builder_request`]: crate::types::message::Message#method.builder_request
/// [`Message::transaction_id`]: crate::types::message::Message::transaction_id
///
/// # Examples
///
/// ```
/// use seatcrane_stun::types::message::TransactionId;
///
/// let id = TransactionId::from([1, 2, 3, 4, 5, 6, 7, 8, 9, 10, 11, 12]);
/// assert_eq!(id.as_u128(), 0x0102_0304_0506_0708_090a_0b0c);
/// assert_eq!(id.to_string(), "0x0102030405060708090a0b0c");
/// assert_eq!(format!("{id:?}"), "TransactionId(0x0102030405060708090a0b0c)");
/// ```
#[derive(Clone, Copy, PartialEq, Eq, PartialOrd, Ord, Hash)]
pub struct TransactionId(pub(crate) proved::TransactionId);

impl TransactionId {
    /// Creates a random transaction ID with random numbers from the operating system.
    ///
    /// # Panics
    ///
    /// Panics if the operating system provides no random numbers.
    #[cfg(feature = "rand")]
    #[cfg_attr(docsrs, doc(cfg(feature = "rand")))]
    pub fn generate() -> TransactionId {
        TransactionId::generate_with(crate::random::system)
    }

    /// Creates a random transaction ID from twelve random bytes. `fill` fills a slice with random
    /// bytes, and is called once.
    ///
    /// Use a cryptographically secure generator, because an attacker who can predict its numbers
    /// can predict transaction IDs.
    ///
    /// # Examples
    ///
    /// ```
    /// use seatcrane_stun::types::message::TransactionId;
    ///
    /// // `fill` is `|bytes| rng.fill_bytes(bytes)` for a generator `rng` of the crate
    /// // `rand`.
    /// fn new_id(fill: impl FnMut(&mut [u8])) -> TransactionId {
    ///     TransactionId::generate_with(fill)
    /// }
    /// # assert_ne!(new_id(|bytes| bytes.fill(1)), new_id(|bytes| bytes.fill(2)));
    /// ```
    pub fn generate_with(fill: impl FnMut(&mut [u8])) -> TransactionId {
        TransactionId(proved::TransactionId::generate(
            &mut crate::random::for_an_id(fill),
        ))
    }

    /// Creates a transaction ID from a number. Returns `None` if the number does not fit in 96
    /// bits.
    pub fn from_u128(number: u128) -> Option<TransactionId> {
        proved::TransactionId::from_u128(number).map(TransactionId)
    }

    /// Returns the transaction ID as a number, which is less than 2^96.
    #[must_use]
    pub fn as_u128(self) -> u128 {
        self.0.as_u128()
    }
}

/// Creates a transaction ID from its bytes in network order.
impl From<[u8; 12]> for TransactionId {
    fn from(bytes: [u8; 12]) -> TransactionId {
        TransactionId(proved::TransactionId::from_bytes(&bytes))
    }
}

/// Writes the ID in hexadecimal, for example `0x0102030405060708090a0b0c`.
impl fmt::Display for TransactionId {
    fn fmt(&self, f: &mut fmt::Formatter<'_>) -> fmt::Result {
        write!(f, "{:#026x}", self.as_u128())
    }
}

/// Writes the ID in hexadecimal, as [`Display`](fmt::Display) does.
impl fmt::Debug for TransactionId {
    fn fmt(&self, f: &mut fmt::Formatter<'_>) -> fmt::Result {
        write!(f, "TransactionId({self})")
    }
}
