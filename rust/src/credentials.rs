//! Passwords, and the keys that are derived from them (RFC 8489, section 9). `Debug` reveals
//! neither.

use crate::copies::{copy, granted, text};
use crate::exported::stun_judging::stored_keys::StoredKeys;
use crate::exported::stun_types::message::MessageIntegrityCredentials as Proved;
use crate::exported::stun_types::message::{self as proved, IntegrityAlgorithm};
use crate::keys::IntegrityKey;
use crate::kit::alloc::Global;
use alloc::string::String;
use core::fmt;

/// Derives the long-term key of a user in a realm (RFC 8489, section 9.2.2): 16 bytes for `Sha1`,
/// 32 bytes for `Sha256`.
///
/// The texts are used without preparation: apply OpaqueString (RFC 8265, section 4.2) yourself. The
/// call does not allocate.
///
/// A database can store these keys instead of passwords: see
/// [`StoredKeys`](crate::auth::StoredKeys).
///
/// # Examples
///
/// ```
/// use seatcrane_stun::types::message::{IntegrityAlgorithm, long_term_key};
///
/// let key = long_term_key(IntegrityAlgorithm::Sha1, "user", "realm", "pass");
/// // The MD5 hash of "user:realm:pass" (RFC 8489, section 9.2.2).
/// assert_eq!(key.as_bytes()[..4], [0x84, 0x93, 0xfb, 0xc5]);
/// ```
#[must_use]
pub fn long_term_key(
    algorithm: IntegrityAlgorithm,
    username: &str,
    realm: &str,
    password: &str,
) -> IntegrityKey {
    IntegrityKey(proved::long_term_key(Global, algorithm, username, realm, password))
}

impl StoredKeys {
    /// Returns a value without keys. Set the fields, or call [`with_sha1`](Self::with_sha1) and
    /// [`with_sha256`](Self::with_sha256).
    ///
    /// # Examples
    ///
    /// ```
    /// use seatcrane_stun::auth::StoredKeys;
    ///
    /// # let (sha1, sha256): (Option<[u8; 16]>, Option<[u8; 32]>) = (None, Some([7; 32]));
    /// // Columns of a database, which may be null. An array alone will do, too.
    /// let keys = StoredKeys::new().with_sha1(sha1).with_sha256(sha256);
    /// ```
    #[must_use]
    pub const fn new() -> StoredKeys {
        StoredKeys {
            sha1: None,
            sha256: None,
        }
    }

    /// Sets the key for HMAC-SHA1, or removes it if `key` is `None`.
    #[must_use]
    pub fn with_sha1(mut self, key: impl Into<Option<[u8; 16]>>) -> StoredKeys {
        self.sha1 = key.into();
        self
    }

    /// Sets the key for HMAC-SHA256, or removes it if `key` is `None`.
    #[must_use]
    pub fn with_sha256(mut self, key: impl Into<Option<[u8; 32]>>) -> StoredKeys {
        self.sha256 = key.into();
        self
    }
}

/// Returns a value without keys, like [`StoredKeys::new`].
impl Default for StoredKeys {
    fn default() -> StoredKeys {
        StoredKeys::new()
    }
}

macro_rules! credentials {
    ($name:ident) => {
        impl fmt::Debug for $name {
            fn fmt(&self, f: &mut fmt::Formatter<'_>) -> fmt::Result {
                f.write_str(concat!(stringify!($name), " { .. }"))
            }
        }

        impl Eq for $name {}
    };
}

/// The password of a short-term credential (RFC 8489, section 9.1).
///
/// The user name is not part of this type: see [`ShortTermAuth`](crate::auth::ShortTermAuth). The
/// text is used without preparation: apply OpaqueString (RFC 8265, section 4.2) yourself.
///
/// # Examples
///
/// ```
/// use seatcrane_stun::types::message::{
///     MessageIntegrityCredentials, ShortTermCredentials,
/// };
///
/// let credentials =
///     ShortTermCredentials::new("VOkJxbRl1RmTxUk/WvJxBt".to_string());
/// assert_eq!(format!("{credentials:?}"), "ShortTermCredentials { .. }");
///
/// // For the calls that sign or verify one message.
/// let credentials: MessageIntegrityCredentials = credentials.into();
/// ```
pub struct ShortTermCredentials(Proved);

credentials!(ShortTermCredentials);

impl ShortTermCredentials {
    /// Creates the credentials from a password.
    #[must_use]
    pub fn new(password: String) -> ShortTermCredentials {
        ShortTermCredentials(proved::ShortTermCredentials::new(text(password)).into())
    }

    /// Returns the core's credentials, which `new` made.
    fn kept(&self) -> &proved::ShortTermCredentials {
        match &self.0 {
            Proved::ShortTerm(kept) => kept,
            Proved::LongTerm(_) => unreachable!("a password is kept"),
        }
    }

    /// Returns a copy for the core.
    pub(crate) fn to_proved(&self) -> proved::ShortTermCredentials {
        copy(self.kept())
    }

    /// Returns the password. Its bytes are the key for both algorithms.
    #[must_use]
    pub fn password(&self) -> &str {
        self.kept().password()
    }

    /// Returns the key, which consists of the bytes of the password.
    #[must_use]
    pub fn make_key(&self) -> IntegrityKey {
        IntegrityKey(granted(self.kept().make_key()))
    }
}

impl Clone for ShortTermCredentials {
    fn clone(&self) -> Self {
        ShortTermCredentials(self.to_proved().into())
    }
}

impl PartialEq for ShortTermCredentials {
    fn eq(&self, other: &Self) -> bool {
        self.kept() == other.kept()
    }
}

/// The name and the password of a user (RFC 8489, section 9.2).
///
/// The texts are used without preparation: apply OpaqueString (RFC 8265, section 4.2) yourself.
///
/// # Examples
///
/// ```
/// use seatcrane_stun::types::message::{IntegrityAlgorithm, LongTermCredentials};
///
/// let alice =
///     LongTermCredentials::new("alice".to_string(), "wonderland".to_string());
/// let key = alice
///     .to_key("example.org".to_string())
///     .make_key(IntegrityAlgorithm::Sha256);
/// assert_eq!(key.as_bytes().len(), 32);
/// ```
pub struct LongTermCredentials(pub(crate) proved::LongTermCredentials);

credentials!(LongTermCredentials);

impl LongTermCredentials {
    /// Creates the credentials from a user name and a password.
    #[must_use]
    pub fn new(username: String, password: String) -> LongTermCredentials {
        LongTermCredentials(proved::LongTermCredentials::new(
            text(username),
            text(password),
        ))
    }

    /// Returns the user name.
    #[must_use]
    pub fn username(&self) -> &str {
        self.0.username()
    }

    /// Returns the password.
    #[must_use]
    pub fn password(&self) -> &str {
        self.0.password()
    }

    /// Combines the credentials with a realm. Keys can be derived from the result.
    #[must_use]
    pub fn to_key(&self, realm: String) -> LongTermKeyCredentials {
        LongTermKeyCredentials(granted(self.0.to_key(text(realm))).into())
    }
}

impl Clone for LongTermCredentials {
    fn clone(&self) -> Self {
        LongTermCredentials(copy(&self.0))
    }
}

impl PartialEq for LongTermCredentials {
    fn eq(&self, other: &Self) -> bool {
        self.0 == other.0
    }
}

/// The name and the password of a user in a realm, from which long-term keys are derived.
/// [`LongTermCredentials::to_key`] returns it.
///
/// # Examples
///
/// ```
/// use seatcrane_stun::types::message::*;
/// use seatcrane_stun::types::prelude::*;
///
/// let alice =
///     LongTermCredentials::new("alice".to_string(), "wonderland".to_string());
/// let alice: LongTermKeyCredentials = alice.to_key("example.org".to_string());
/// let key = alice.make_key(IntegrityAlgorithm::Sha1); // 16 bytes, by MD5
///
/// # let id = TransactionId::from(*b"any 12 bytes");
/// let mut request =
///     Message::builder_request_with_id(BINDING, id, MessageWriteVec::new());
/// request.add_message_integrity(&alice.into(), IntegrityAlgorithm::Sha1)?;
/// let request = request.finish();
/// let request = Message::from_bytes(&request).unwrap();
/// assert_eq!(
///     request.validate_integrity_with_key(&key),
///     Ok(IntegrityAlgorithm::Sha1)
/// );
/// # Ok::<(), StunWriteError>(())
/// ```
pub struct LongTermKeyCredentials(Proved);

credentials!(LongTermKeyCredentials);

impl LongTermKeyCredentials {
    /// Returns the core's credentials, which `LongTermCredentials::to_key` made.
    fn kept(&self) -> &proved::LongTermKeyCredentials {
        match &self.0 {
            Proved::LongTerm(kept) => kept,
            Proved::ShortTerm(_) => unreachable!("a user at a realm is kept"),
        }
    }

    /// Returns the user name.
    #[must_use]
    pub fn username(&self) -> &str {
        self.kept().username()
    }

    /// Returns the realm.
    #[must_use]
    pub fn realm(&self) -> &str {
        self.kept().realm()
    }

    /// Returns the password.
    #[must_use]
    pub fn password(&self) -> &str {
        self.kept().password()
    }

    /// Derives the key for this algorithm, like [`long_term_key`].
    #[must_use]
    pub fn make_key(&self, algorithm: IntegrityAlgorithm) -> IntegrityKey {
        IntegrityKey(self.kept().make_key(algorithm))
    }
}

impl Clone for LongTermKeyCredentials {
    fn clone(&self) -> Self {
        LongTermKeyCredentials(copy(self.kept()).into())
    }
}

impl PartialEq for LongTermKeyCredentials {
    fn eq(&self, other: &Self) -> bool {
        (self.username(), self.realm(), self.password())
            == (other.username(), other.realm(), other.password())
    }
}

/// The credentials with which a message is signed or verified. `Debug` shows only their kind.
///
/// # Examples
///
/// ```
/// use seatcrane_stun::types::message::*;
///
/// let password = ShortTermCredentials::new("VOkJxbRl1RmTxUk/WvJxBt".to_string());
/// let alice =
///     LongTermCredentials::new("alice".to_string(), "wonderland".to_string());
///
/// let session: MessageIntegrityCredentials = password.into();
/// let user: MessageIntegrityCredentials =
///     alice.to_key("example.org".to_string()).into();
/// assert_ne!(session, user);
/// ```
#[derive(Clone, PartialEq, Eq)]
pub enum MessageIntegrityCredentials {
    /// A password without a user (RFC 8489, section 9.1).
    ShortTerm(ShortTermCredentials),
    /// A user in a realm (RFC 8489, section 9.2).
    LongTerm(LongTermKeyCredentials),
}

impl MessageIntegrityCredentials {
    /// Returns the core's form of the credentials.
    pub(crate) fn proved(&self) -> &Proved {
        match self {
            MessageIntegrityCredentials::ShortTerm(credentials) => &credentials.0,
            MessageIntegrityCredentials::LongTerm(credentials) => &credentials.0,
        }
    }
}

impl fmt::Debug for MessageIntegrityCredentials {
    fn fmt(&self, f: &mut fmt::Formatter<'_>) -> fmt::Result {
        fmt::Debug::fmt(self.proved(), f)
    }
}

impl From<ShortTermCredentials> for MessageIntegrityCredentials {
    fn from(credentials: ShortTermCredentials) -> Self {
        MessageIntegrityCredentials::ShortTerm(credentials)
    }
}

impl From<LongTermKeyCredentials> for MessageIntegrityCredentials {
    fn from(credentials: LongTermKeyCredentials) -> Self {
        MessageIntegrityCredentials::LongTerm(credentials)
    }
}
