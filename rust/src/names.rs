//! Names that the exported core lacks: types of attributes, error codes, and texts.

use crate::exported::stun_types::attribute::{
    AttributeFromRaw, AttributeType, ErrorCode, PasswordAlgorithmValue, PasswordAlgorithms,
    RawAttribute,
};
use crate::exported::stun_types::message::{
    IntegrityAlgorithm, MessageClass, MessageType, Method, StunParseError, StunWriteError,
};
use crate::attributes::name_in_table;
use alloc::vec::Vec;
use core::fmt;

impl AttributeType {
    /// Returns `true` if a receiver that does not know this type must reject the message (RFC 8489,
    /// section 14). [`has_unknown`](crate::extra::has_unknown) tests a whole message.
    ///
    /// # Examples
    ///
    /// ```
    /// use seatcrane_stun::types::attribute::AttributeType;
    ///
    /// assert!(AttributeType::USERNAME.comprehension_required());
    /// assert!(!AttributeType::SOFTWARE.comprehension_required()); // 0x8022 may be ignored
    /// ```
    #[must_use]
    pub fn comprehension_required(self) -> bool {
        self.0 < 0x8000
    }

    /// Returns the registered name, or `None` if this crate does not know the type.
    ///
    /// # Examples
    ///
    /// ```
    /// use seatcrane_stun::types::attribute::AttributeType;
    ///
    /// assert_eq!(AttributeType::XOR_MAPPED_ADDRESS.name(), Some("XOR-MAPPED-ADDRESS"));
    /// assert_eq!(AttributeType::new(0xffff).name(), None);
    /// ```
    #[must_use]
    pub fn name(self) -> Option<&'static str> {
        Some(match self {
            AttributeType::USERNAME => "USERNAME",
            AttributeType::MESSAGE_INTEGRITY => "MESSAGE-INTEGRITY",
            AttributeType::ERROR_CODE => "ERROR-CODE",
            AttributeType::REALM => "REALM",
            AttributeType::NONCE => "NONCE",
            AttributeType::MESSAGE_INTEGRITY_SHA256 => "MESSAGE-INTEGRITY-SHA256",
            AttributeType::PASSWORD_ALGORITHM => "PASSWORD-ALGORITHM",
            AttributeType::USERHASH => "USERHASH",
            AttributeType::XOR_MAPPED_ADDRESS => "XOR-MAPPED-ADDRESS",
            AttributeType::PASSWORD_ALGORITHMS => "PASSWORD-ALGORITHMS",
            AttributeType::FINGERPRINT => "FINGERPRINT",
            further => return name_in_table(further),
        })
    }
}

/// Further registered codes. The builder leaves their reason phrases empty unless you set one;
/// [`reason_phrase`](crate::extra::reason_phrase) returns the registered phrase.
impl<'a> ErrorCode<'a> {
    /// 300: the client should try a different server.
    pub const TRY_ALTERNATE: u16 = 300;
    /// 403: the request is forbidden (RFC 8656).
    pub const FORBIDDEN: u16 = 403;
    /// 405: the server does not let this client move its allocation (RFC 8016).
    pub const MOBILITY_FORBIDDEN: u16 = 405;
    /// 420: the request has an attribute that the server must understand but does not know.
    pub const UNKNOWN_ATTRIBUTE: u16 = 420;
    /// 437: the request needs an allocation and there is none, or there is one already (RFC 8656).
    pub const ALLOCATION_MISMATCH: u16 = 437;
    /// 440: the server does not support addresses of this family (RFC 8656).
    pub const ADDRESS_FAMILY_NOT_SUPPORTED: u16 = 440;
    /// 441: the credentials are not those with which the allocation was made (RFC 8656).
    pub const WRONG_CREDENTIALS: u16 = 441;
    /// 442: the server does not relay over this transport protocol (RFC 8656).
    pub const UNSUPPORTED_TRANSPORT_PROTOCOL: u16 = 442;
    /// 443: the peer's address and the relayed address are of different families (RFC 8656).
    pub const PEER_ADDRESS_FAMILY_MISMATCH: u16 = 443;
    /// 446: the client has a connection to this peer already (RFC 6062).
    pub const CONNECTION_ALREADY_EXISTS: u16 = 446;
    /// 447: the server could not connect to the peer (RFC 6062).
    pub const CONNECTION_TIMEOUT_OR_FAILURE: u16 = 447;
    /// 486: the user has too many allocations (RFC 8656).
    pub const ALLOCATION_QUOTA_REACHED: u16 = 486;
    /// 487: both ICE agents have the same role (RFC 8445).
    pub const ROLE_CONFLICT: u16 = 487;
    /// 500: the server has failed temporarily. The client may try again.
    pub const SERVER_ERROR: u16 = 500;
    /// 508: the server has no relayed address or port left for this request (RFC 8656).
    pub const INSUFFICIENT_CAPACITY: u16 = 508;

    /// Creates the attribute from a code and a reason phrase.
    ///
    /// # Errors
    ///
    /// Returns the first of these errors that applies:
    ///
    /// - [`StunWriteError::NotAllowed`]: the code is not from 300 to 699.
    /// - [`StunWriteError::TooLarge`]: the reason has more than 763 bytes.
    ///
    /// # Examples
    ///
    /// ```
    /// use seatcrane_stun::types::attribute::ErrorCode;
    /// use seatcrane_stun::types::message::StunWriteError;
    ///
    /// let error = ErrorCode::new(ErrorCode::FORBIDDEN, "Forbidden")?;
    /// assert_eq!((error.code(), error.reason()), (403, "Forbidden"));
    /// assert_eq!(ErrorCode::new(200, "OK"), Err(StunWriteError::NotAllowed));
    /// # Ok::<(), StunWriteError>(())
    /// ```
    pub fn new(code: u16, reason: &'a str) -> Result<ErrorCode<'a>, StunWriteError> {
        ErrorCode::builder(code).reason(reason).build()
    }
}

impl PasswordAlgorithms<'_> {
    /// Returns the algorithms in their order, as a new `Vec`. To avoid the allocation, use
    /// [`get`](PasswordAlgorithms::get) and [`len`](PasswordAlgorithms::len).
    ///
    /// # Examples
    ///
    /// The algorithms that a server offers, the strongest first:
    ///
    /// ```
    /// use seatcrane_stun::types::attribute::{
    ///     PasswordAlgorithmValue, PasswordAlgorithms,
    /// };
    /// use seatcrane_stun::types::message::{Message, StunParseError};
    ///
    /// fn offered(
    ///     challenge: &Message<'_>,
    /// ) -> Result<Vec<PasswordAlgorithmValue>, StunParseError> {
    ///     Ok(challenge.attribute::<PasswordAlgorithms>()?.algorithms())
    /// }
    /// # let challenge = b"\x01\x11\0\x0c\x21\x12\xa4\x42 any 12 byte\
    /// #                   \x80\x02\0\x08\0\x02\0\0\0\x01\0\0";
    /// # let challenge = Message::from_bytes(challenge).unwrap();
    /// # let both = vec![PasswordAlgorithmValue::SHA256, PasswordAlgorithmValue::MD5];
    /// # assert_eq!(offered(&challenge), Ok(both));
    /// ```
    #[must_use]
    pub fn algorithms(&self) -> Vec<PasswordAlgorithmValue> {
        (0..self.len()).filter_map(|i| self.get(i)).collect()
    }
}

/// Returns whether two lists have the same algorithms in the same order.
impl PartialEq for PasswordAlgorithms<'_> {
    fn eq(&self, other: &Self) -> bool {
        self.len() == other.len() && (0..self.len()).all(|i| self.get(i) == other.get(i))
    }
}

impl Eq for PasswordAlgorithms<'_> {}

/// Further calls for attributes that can be parsed.
pub trait AttributeExt<'a>: AttributeFromRaw<'a> {
    /// Parses the attribute, like [`AttributeFromRaw::from_raw`], from a reference.
    ///
    /// # Errors
    ///
    /// Returns the errors of `from_raw`.
    ///
    /// # Examples
    ///
    /// The names in a message that has USERNAME twice:
    ///
    /// ```
    /// use seatcrane_stun::types::attribute::Username;
    /// use seatcrane_stun::types::message::Message;
    /// use seatcrane_stun::types::prelude::*;
    ///
    /// fn names<'a>(message: &Message<'a>) -> Vec<&'a str> {
    ///     let attributes = message.iter_attributes();
    ///     let names = attributes.filter_map(|(_, raw)| Username::from_raw_ref(&raw).ok());
    ///     names.map(|name| name.username()).collect()
    /// }
    /// # let message = b"\0\x01\0\x10\x21\x12\xa4\x42 any 12 byte\0\x06\0\x04mary\0\x06\0\x04anne";
    /// # assert_eq!(names(&Message::from_bytes(message).unwrap()), ["mary", "anne"]);
    /// ```
    fn from_raw_ref(raw: &RawAttribute<'a>) -> Result<Self, StunParseError> {
        Self::from_raw(raw.clone())
    }
}

impl<'a, A: AttributeFromRaw<'a>> AttributeExt<'a> for A {}

/// Writes, for example, `Request`.
///
/// # Examples
///
/// ```
/// use seatcrane_stun::types::message::MessageClass;
///
/// assert_eq!(MessageClass::Success.to_string(), "Success");
/// ```
impl fmt::Display for MessageClass {
    fn fmt(&self, f: &mut fmt::Formatter<'_>) -> fmt::Result {
        fmt::Debug::fmt(self, f)
    }
}

/// Writes, for example, `0x001`.
///
/// # Examples
///
/// ```
/// use seatcrane_stun::types::message::{BINDING, Method};
///
/// assert_eq!(BINDING.to_string(), "0x001");
/// assert_eq!(Method::new(0xabc).unwrap().to_string(), "0xabc");
/// ```
impl fmt::Display for Method {
    fn fmt(&self, f: &mut fmt::Formatter<'_>) -> fmt::Result {
        write!(f, "{:#05x}", self.value())
    }
}

/// Writes, for example, `Request of 0x001`.
///
/// # Examples
///
/// ```
/// use seatcrane_stun::types::message::{BINDING, MessageClass, MessageType};
///
/// let kind = MessageType::from_class_method(MessageClass::Request, BINDING);
/// assert_eq!(kind.to_string(), "Request of 0x001");
/// ```
impl fmt::Display for MessageType {
    fn fmt(&self, f: &mut fmt::Formatter<'_>) -> fmt::Result {
        write!(f, "{} of {}", self.class(), self.method())
    }
}

/// Writes `HMAC-SHA1` or `HMAC-SHA256`.
///
/// # Examples
///
/// ```
/// use seatcrane_stun::types::message::IntegrityAlgorithm;
///
/// assert_eq!(IntegrityAlgorithm::Sha256.to_string(), "HMAC-SHA256");
/// ```
impl fmt::Display for IntegrityAlgorithm {
    fn fmt(&self, f: &mut fmt::Formatter<'_>) -> fmt::Result {
        f.write_str(match self {
            IntegrityAlgorithm::Sha1 => "HMAC-SHA1",
            IntegrityAlgorithm::Sha256 => "HMAC-SHA256",
        })
    }
}
