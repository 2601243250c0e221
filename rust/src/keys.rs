//! Keys, and the user from whom a message was accepted.

use crate::copies::{copy, granted};
use crate::exported::stun_base::compare::is_same_text;
use crate::exported::stun_judging::accepted as judging;
use crate::exported::stun_types::message::{self as proved, IntegrityAlgorithm};
use crate::kit::alloc::Global;
use core::fmt;

/// A key with which messages are signed and verified: the bytes of a password, or a hash that
/// [`long_term_key`](crate::types::message::long_term_key) makes.
///
/// Up to 32 bytes are stored in the value itself; a longer key is allocated. `Debug` does not show
/// the key.
///
/// # Examples
///
/// ```
/// use seatcrane_stun::types::message::IntegrityKey;
///
/// let key = IntegrityKey::new(b"VOkJxbRl1RmTxUk/WvJxBt");
/// assert_eq!(key.as_bytes().len(), 22);
/// assert_eq!(format!("{key:?}"), "IntegrityKey { .. }");
/// ```
pub struct IntegrityKey(pub(crate) proved::IntegrityKey<Global>);

impl IntegrityKey {
    /// Creates a key from its bytes.
    #[must_use]
    pub fn new(bytes: &[u8]) -> IntegrityKey {
        IntegrityKey(granted(proved::IntegrityKey::from_bytes(Global, bytes)))
    }

    /// Returns the bytes.
    #[must_use]
    pub fn as_bytes(&self) -> &[u8] {
        self.0.as_bytes()
    }
}

impl AsRef<[u8]> for IntegrityKey {
    fn as_ref(&self) -> &[u8] {
        self.as_bytes()
    }
}

impl Clone for IntegrityKey {
    fn clone(&self) -> IntegrityKey {
        IntegrityKey(copy(&self.0))
    }
}

/// Returns whether two keys have the same bytes. Keys of the same length are compared without an
/// early exit.
impl PartialEq for IntegrityKey {
    fn eq(&self, other: &IntegrityKey) -> bool {
        is_same_text(self.as_bytes(), other.as_bytes())
    }
}

impl Eq for IntegrityKey {}

impl fmt::Debug for IntegrityKey {
    fn fmt(&self, f: &mut fmt::Formatter<'_>) -> fmt::Result {
        f.write_str("IntegrityKey { .. }")
    }
}

/// A key, and the part of its HMAC that does not depend on the text, which is computed in advance
/// for one algorithm (RFC 2104, section 4).
///
/// An HMAC with that algorithm then hashes two blocks fewer than with the key alone. The key also
/// works with the other algorithm, at the usual cost. Everything in a `PreparedKey` is as secret as
/// the key, so `Debug` does not show it.
///
/// # Examples
///
/// ```
/// use seatcrane_stun::types::message::{IntegrityAlgorithm, IntegrityKey};
/// use seatcrane_stun::types::message::{PreparedKey, hmac_sha1};
///
/// let key = IntegrityKey::new(b"VOkJxbRl1RmTxUk/WvJxBt");
/// let prepared = PreparedKey::new(key, IntegrityAlgorithm::Sha1);
/// let digest = hmac_sha1(prepared.key().as_bytes(), &[b"text"]);
/// assert_eq!(prepared.hmac_sha1(&[b"text"]), digest);
/// ```
#[derive(Clone)]
pub struct PreparedKey {
    key: IntegrityKey,
    pub(crate) core: proved::PreparedKey<Global>,
}

impl PreparedKey {
    /// Prepares a key for digests with an algorithm.
    #[must_use]
    pub fn new(key: IntegrityKey, algorithm: IntegrityAlgorithm) -> PreparedKey {
        let core = proved::PreparedKey::new(copy(&key.0), algorithm);
        PreparedKey { key, core }
    }

    /// Returns a copy of a key of the core.
    fn of_core(core: &proved::PreparedKey<Global>) -> PreparedKey {
        let key = IntegrityKey(copy(core.key()));
        let core = copy(core);
        PreparedKey { key, core }
    }

    /// Returns the key that was prepared.
    #[must_use]
    pub fn key(&self) -> &IntegrityKey {
        &self.key
    }

    /// Computes the HMAC-SHA1 of the text that consists of these pieces in order. Does not
    /// allocate.
    #[must_use]
    pub fn hmac_sha1(&self, pieces: &[&[u8]]) -> [u8; 20] {
        self.core.hmac_sha1(pieces)
    }

    /// Computes the HMAC-SHA256 of the text that consists of these pieces in order. Does not
    /// allocate.
    #[must_use]
    pub fn hmac_sha256(&self, pieces: &[&[u8]]) -> [u8; 32] {
        self.core.hmac_sha256(pieces)
    }
}

impl fmt::Debug for PreparedKey {
    fn fmt(&self, f: &mut fmt::Formatter<'_>) -> fmt::Result {
        f.write_str("PreparedKey { .. }")
    }
}

/// The user from whom a request or an indication was accepted, with the algorithm that both sides
/// agreed on, and the user's key for this algorithm.
///
/// It borrows from the server, from the user that was passed, or from the message. Sign the
/// response with `key` and `algorithm`
/// ([`add_message_integrity_with_prepared_key`](crate::types::prelude::MessageWriteExt::add_message_integrity_with_prepared_key)).
/// `Debug` does not show the contents, because they include a key.
///
/// # Examples
///
/// ```
/// use seatcrane_stun::auth::Accepted;
///
/// fn log(accepted: &Accepted<'_>) {
///     println!("{} by {}", accepted.name(), accepted.algorithm());
/// }
/// ```
pub struct Accepted<'a>(pub(crate) judging::Accepted<'a, Global>);

impl<'a> Accepted<'a> {
    /// Returns the user's name, even if the message named the user by a hash.
    #[must_use]
    pub fn name(&self) -> &'a str {
        self.0.name()
    }

    /// Returns the algorithm that both sides agreed on, which is also the algorithm of
    /// [`key`](Self::key). The message itself may be signed with the other algorithm (RFC 8489,
    /// section 9.2.4).
    #[must_use]
    pub fn algorithm(&self) -> IntegrityAlgorithm {
        self.0.algorithm()
    }

    /// Returns a copy of the user's key, prepared to sign the response now, or later on another
    /// thread. It does not allocate, because the key has at most 32 bytes.
    #[must_use]
    pub fn key(&self) -> PreparedKey {
        PreparedKey::of_core(self.0.key())
    }
}

impl fmt::Debug for Accepted<'_> {
    fn fmt(&self, f: &mut fmt::Formatter<'_>) -> fmt::Result {
        f.write_str("Accepted { .. }")
    }
}
