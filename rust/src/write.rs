//! Writers, and the calls that every writer has.

use crate::copies::granted;
use crate::credentials::MessageIntegrityCredentials;
use crate::exported::stun_base::header::HEADER_LENGTH;
use crate::exported::stun_extra::fingerprint::finish_with_fingerprint;
use crate::exported::stun_types::attribute::{
    Attribute, AttributeType, ErrorCode, attribute_length,
};
use crate::exported::stun_types::message::{
    self as proved, IntegrityAlgorithm, MessageClass, MessageType, MessageWriteMutSlice, Method,
    StunWriteError,
};
use crate::exported::stun_types::prelude::MessageWrite;
use crate::exported::stun_types::prelude::MessageWriteExt as Proved;
use crate::keys::PreparedKey;
use crate::kit::alloc::{AllocError, Global};
use crate::message::MessageHeader;
use crate::ported::not_after_fingerprint;
use crate::transaction::TransactionId;
use crate::types::attribute::XorMappedAddress;
use alloc::vec::Vec;
use core::fmt;
use core::net::SocketAddr;
use core::ops::Deref;

/// The calls that every writer has: they inspect the message in the writer, add attributes to it,
/// and sign it. A call that fails leaves the message unchanged.
///
/// The writer must hold a message: start one with the builders of
/// [`Message`](crate::types::message::Message). Add FINGERPRINT last, with
/// [`add_fingerprint`](MessageWriteExt::add_fingerprint): after it, every call that adds something
/// fails with [`StunWriteError::AttributeExists`].
///
/// On an empty writer these calls panic, with two exceptions:
/// [`has_attribute`](MessageWriteExt::has_attribute) returns `false`, and a call that finds an
/// error before it reads the length of the message returns this error. In a build without overflow
/// checks, such as a release build, [`add_attribute`](MessageWriteExt::add_attribute),
/// [`add_another_attribute`](MessageWriteExt::add_another_attribute),
/// [`add_error_code`](MessageWriteExt::add_error_code) and the calls that sign fail with
/// [`StunWriteError::TooLarge`] instead of panicking.
///
/// # Examples
///
/// ```
/// use seatcrane_stun::extra::attribute::{IceControlling, Priority};
/// use seatcrane_stun::types::attribute::Username;
/// use seatcrane_stun::types::message::*;
/// use seatcrane_stun::types::prelude::*;
///
/// # let id = TransactionId::from(*b"any 12 bytes");
/// let mut check =
///     Message::builder_request_with_id(BINDING, id, MessageWriteVec::new());
/// check.add_attribute(&Username::new("their-name:my-name")?)?;
/// check.add_attribute(&Priority::new(1_845_501_695))?;
/// check.add_attribute(&IceControlling::new(0x0123_4567_89ab_cdef))?;
/// check.add_message_integrity_with_key(
///     b"their password",
///     IntegrityAlgorithm::Sha1,
/// )?;
/// let datagram: Vec<u8> = check.finish();
/// # Ok::<(), StunWriteError>(())
/// ```
pub trait MessageWriteExt: MessageWrite + Sized {
    /// Returns the type of the message, which combines its class and its method.
    fn get_type(&self) -> MessageType {
        MessageHeader::from_bytes(self.data())
            .expect("a message that a builder began")
            .get_type()
    }

    /// Returns the class of the message.
    fn class(&self) -> MessageClass {
        self.get_type().class()
    }

    /// Returns the method of the message.
    fn method(&self) -> Method {
        self.get_type().method()
    }

    /// Returns `true` if the message has this class.
    fn has_class(&self, class: MessageClass) -> bool {
        Proved::has_class(self, class)
    }

    /// Returns `true` if the message is a response.
    fn is_response(&self) -> bool {
        Proved::is_response(self)
    }

    /// Returns the transaction ID of the message.
    fn transaction_id(&self) -> TransactionId {
        TransactionId(Proved::transaction_id(self))
    }

    /// Returns `true` if the message has an attribute of this type, whether it is visible or not.
    fn has_attribute(&self, kind: AttributeType) -> bool {
        Proved::has_attribute(self, kind)
    }

    /// Adds an attribute at the end of the message.
    ///
    /// # Errors
    ///
    /// Returns the first of these errors that applies:
    ///
    /// - [`StunWriteError::AttributeExists`]: the message has a FINGERPRINT, which comes last.
    /// - [`StunWriteError::NotAllowed`]: the attribute is an integrity attribute or FINGERPRINT.
    ///   Add these with [`add_message_integrity`](MessageWriteExt::add_message_integrity) and
    ///   [`add_fingerprint`](MessageWriteExt::add_fingerprint).
    /// - [`StunWriteError::MessageIntegrityExists`]: the message has an integrity attribute.
    /// - [`StunWriteError::AttributeExists`]: the message has an attribute of this type.
    /// - [`StunWriteError::TooLarge`]: the message would have more than 65532 bytes after its
    ///   header.
    /// - [`StunWriteError::TooSmall`]: the writer has no room for the attribute.
    /// - [`StunWriteError::OutOfMemory`]: an allocation failed.
    ///
    /// # Panics
    ///
    /// Panics if [`Attribute::write_into`] of an attribute type of your own appends anything other
    /// than the attribute that `get_type` and `length` describe. The message in the writer is
    /// damaged then.
    ///
    /// # Examples
    ///
    /// ```
    /// use seatcrane_stun::types::attribute::{AttributeType, Software};
    /// use seatcrane_stun::types::message::*;
    /// use seatcrane_stun::types::prelude::*;
    ///
    /// # let id = TransactionId::from(*b"any 12 bytes");
    /// let mut request =
    ///     Message::builder_request_with_id(BINDING, id, MessageWriteVec::new());
    /// request.add_attribute(&Software::new("example 1.0")?)?;
    ///
    /// let again = request.add_attribute(&Software::new("example 2.0")?);
    /// assert_eq!(
    ///     again,
    ///     Err(StunWriteError::AttributeExists(AttributeType::SOFTWARE))
    /// );
    /// # Ok::<(), StunWriteError>(())
    /// ```
    fn add_attribute<A: Attribute>(&mut self, attribute: &A) -> Result<(), StunWriteError> {
        not_after_fingerprint(self)?;
        let before = self.data().len();
        Proved::add_attribute(self, attribute)?;
        check_appended(self.data(), before, attribute);
        Ok(())
    }

    /// Adds an attribute at the end of the message, even if the message has an attribute of this
    /// type already.
    ///
    /// A request with several attributes of one type needs this, such as CreatePermission for
    /// several peers (RFC 8656, section 9.1). If the type may occur only once, use
    /// [`add_attribute`](MessageWriteExt::add_attribute), which fails if the message has an
    /// attribute of this type already.
    ///
    /// # Errors
    ///
    /// Returns the first of these errors that applies:
    ///
    /// - [`StunWriteError::AttributeExists`]: the message has a FINGERPRINT, which comes last.
    /// - [`StunWriteError::NotAllowed`]: the attribute is an integrity attribute or FINGERPRINT.
    ///   Add these with [`add_message_integrity`](MessageWriteExt::add_message_integrity) and
    ///   [`add_fingerprint`](MessageWriteExt::add_fingerprint).
    /// - [`StunWriteError::MessageIntegrityExists`]: the message has an integrity attribute.
    /// - [`StunWriteError::TooLarge`]: the message would have more than 65532 bytes after its
    ///   header.
    /// - [`StunWriteError::TooSmall`]: the writer has no room for the attribute.
    /// - [`StunWriteError::OutOfMemory`]: an allocation failed.
    ///
    /// # Panics
    ///
    /// Panics in the same case as [`add_attribute`](MessageWriteExt::add_attribute).
    ///
    /// # Examples
    ///
    /// ```
    /// use seatcrane_stun::extra::attribute::XorPeerAddress;
    /// use seatcrane_stun::types::message::*;
    /// use seatcrane_stun::types::prelude::*;
    ///
    /// # fn main() -> Result<(), Box<dyn std::error::Error>> {
    /// let create_permission = Method::new(8).expect("a method has 12 bits");
    /// let kind = MessageType::from_class_method(MessageClass::Request, create_permission);
    /// # let id = TransactionId::from(*b"any 12 bytes");
    /// let mut request = Message::builder(kind, id, MessageWriteVec::new());
    /// for peer in ["192.0.2.7:0", "192.0.2.8:0"] {
    ///     request.add_another_attribute(&XorPeerAddress::new(peer.parse()?, id))?;
    /// }
    ///
    /// let request = request.finish();
    /// let peers = Message::from_bytes(&request)?.iter_attributes().count();
    /// assert_eq!(peers, 2);
    /// # Ok(())
    /// # }
    /// ```
    fn add_another_attribute<A: Attribute>(&mut self, attribute: &A) -> Result<(), StunWriteError> {
        not_after_fingerprint(self)?;
        let before = self.data().len();
        Proved::add_another_attribute(self, attribute)?;
        check_appended(self.data(), before, attribute);
        Ok(())
    }

    /// Signs the message: adds MESSAGE-INTEGRITY or MESSAGE-INTEGRITY-SHA256, depending on the
    /// algorithm.
    ///
    /// The key comes from the credentials: it is the bytes of the password, or the long-term key
    /// for this algorithm.
    ///
    /// # Errors
    ///
    /// Returns the first of these errors that applies:
    ///
    /// - [`StunWriteError::AttributeExists`]: the message has a FINGERPRINT, which comes last.
    /// - [`StunWriteError::MessageIntegrityExists`]: the message has an integrity attribute.
    /// - [`StunWriteError::TooLarge`]: the message would have more than 65532 bytes after its
    ///   header.
    /// - [`StunWriteError::TooSmall`]: the writer has no room for the attribute.
    /// - [`StunWriteError::OutOfMemory`]: an allocation failed.
    ///
    /// # Examples
    ///
    /// ```
    /// use seatcrane_stun::types::message::*;
    /// use seatcrane_stun::types::prelude::*;
    ///
    /// let credentials =
    ///     ShortTermCredentials::new("VOkJxbRl1RmTxUk/WvJxBt".to_string()).into();
    /// # let id = TransactionId::from(*b"any 12 bytes");
    /// let mut request =
    ///     Message::builder_request_with_id(BINDING, id, MessageWriteVec::new());
    /// request.add_message_integrity(&credentials, IntegrityAlgorithm::Sha256)?;
    /// let request = request.finish();
    ///
    /// let request = Message::from_bytes(&request).unwrap();
    /// assert_eq!(
    ///     request.validate_integrity(&credentials),
    ///     Ok(IntegrityAlgorithm::Sha256)
    /// );
    /// # Ok::<(), StunWriteError>(())
    /// ```
    fn add_message_integrity(
        &mut self,
        credentials: &MessageIntegrityCredentials,
        algorithm: IntegrityAlgorithm,
    ) -> Result<(), StunWriteError> {
        not_after_fingerprint(self)?;
        Proved::add_message_integrity(self, credentials.proved(), algorithm)
    }

    /// Like [`add_message_integrity`](MessageWriteExt::add_message_integrity), but takes a key: an
    /// [`IntegrityKey`](crate::types::message::IntegrityKey), or bytes of any length.
    ///
    /// # Errors
    ///
    /// Returns the first of these errors that applies:
    ///
    /// - [`StunWriteError::AttributeExists`]: the message has a FINGERPRINT, which comes last.
    /// - [`StunWriteError::MessageIntegrityExists`]: the message has an integrity attribute.
    /// - [`StunWriteError::TooLarge`]: the message would have more than 65532 bytes after its
    ///   header.
    /// - [`StunWriteError::TooSmall`]: the writer has no room for the attribute.
    /// - [`StunWriteError::OutOfMemory`]: an allocation failed.
    fn add_message_integrity_with_key<K: AsRef<[u8]> + ?Sized>(
        &mut self,
        key: &K,
        algorithm: IntegrityAlgorithm,
    ) -> Result<(), StunWriteError> {
        not_after_fingerprint(self)?;
        Proved::add_message_integrity_with_key_bytes(self, key.as_ref(), algorithm)
    }

    /// Signs the message with a prepared key, like
    /// [`add_message_integrity_with_key`](Self::add_message_integrity_with_key), but without the
    /// cost of preparing the key again.
    ///
    /// # Errors
    ///
    /// Returns the errors of
    /// [`add_message_integrity_with_key`](Self::add_message_integrity_with_key), in the same order.
    fn add_message_integrity_with_prepared_key(
        &mut self,
        key: &PreparedKey,
        algorithm: IntegrityAlgorithm,
    ) -> Result<(), StunWriteError> {
        not_after_fingerprint(self)?;
        Proved::add_message_integrity_with_prepared_key(self, &key.core, algorithm)
    }

    /// Adds XOR-MAPPED-ADDRESS with this address, XORed with the magic cookie and the transaction
    /// ID of the message.
    ///
    /// # Errors
    ///
    /// Returns the errors of [`add_attribute`](MessageWriteExt::add_attribute).
    fn add_xor_mapped_address(&mut self, address: SocketAddr) -> Result<(), StunWriteError> {
        not_after_fingerprint(self)?;
        let id = MessageWriteExt::transaction_id(self);
        Proved::add_attribute(self, &XorMappedAddress::new(address, id))
    }

    /// Adds ERROR-CODE with this code and this reason phrase.
    ///
    /// # Errors
    ///
    /// Returns the first of these errors that applies:
    ///
    /// - [`StunWriteError::NotAllowed`]: the code is not from 300 to 699.
    /// - [`StunWriteError::TooLarge`]: the reason has more than 763 bytes.
    /// - The errors of [`add_attribute`](MessageWriteExt::add_attribute).
    fn add_error_code(&mut self, code: u16, reason: &str) -> Result<(), StunWriteError> {
        let error = ErrorCode::new(code, reason)?;
        not_after_fingerprint(self)?;
        Proved::add_attribute(self, &error)
    }

    /// Adds FINGERPRINT (RFC 8489, section 14.7), after which nothing can be added. If you want to
    /// sign the message, sign it first. FINGERPRINT does not invalidate the signature.
    ///
    /// # Errors
    ///
    /// Returns the first of these errors that applies:
    ///
    /// - [`StunWriteError::NotAllowed`]: the writer holds no message.
    /// - [`StunWriteError::AttributeExists`]: the message has a FINGERPRINT already.
    /// - [`StunWriteError::TooLarge`]: the message would have more than 65532 bytes after its
    ///   header.
    /// - [`StunWriteError::TooSmall`]: the writer has room for fewer than 8 bytes.
    /// - [`StunWriteError::OutOfMemory`]: an allocation failed.
    ///
    /// # Examples
    ///
    /// ```
    /// use seatcrane_stun::types::attribute::{AttributeType, Software};
    /// use seatcrane_stun::types::message::*;
    /// use seatcrane_stun::types::prelude::*;
    ///
    /// # let id = TransactionId::from(*b"any 12 bytes");
    /// let mut check =
    ///     Message::builder_request_with_id(BINDING, id, MessageWriteVec::new());
    /// check.add_message_integrity_with_key(
    ///     b"their password",
    ///     IntegrityAlgorithm::Sha1,
    /// )?;
    /// check.add_fingerprint()?;
    ///
    /// let more = check.add_attribute(&Software::new("example 1.0")?);
    /// assert_eq!(
    ///     more,
    ///     Err(StunWriteError::AttributeExists(AttributeType::FINGERPRINT))
    /// );
    /// # Ok::<(), StunWriteError>(())
    /// ```
    fn add_fingerprint(&mut self) -> Result<(), StunWriteError> {
        finish_with_fingerprint(with_header(Lent(self))?).map(|_| ())
    }
}

impl<W: MessageWrite> MessageWriteExt for W {}

/// A wrapper that passes a borrowed writer to a call of the core that may finish its writer. The
/// borrowed writer can be used again afterwards.
struct Lent<'w, W>(&'w mut W);

impl<'w, W: MessageWrite> MessageWrite for Lent<'w, W> {
    type Output = &'w [u8];

    fn data(&self) -> &[u8] {
        self.0.data()
    }

    fn room(&self) -> usize {
        self.0.room()
    }

    fn reserve(&mut self, additional: usize) -> Result<(), StunWriteError> {
        self.0.reserve(additional)
    }

    fn append(&mut self, tail: &[u8]) {
        self.0.append(tail);
    }

    fn set_length(&mut self, message_length: u16) {
        self.0.set_length(message_length);
    }

    fn finish(self) -> &'w [u8] {
        self.0.data()
    }
}

/// Panics unless the message ends with this attribute, which must begin at the offset `at` and be
/// complete.
///
/// The attributes of this crate are proved to append exactly their own bytes. An attribute whose
/// type the user has defined could append other bytes, so that a receiver would misread the rest of
/// the message.
pub(crate) fn check_appended<A: Attribute>(message: &[u8], at: usize, attribute: &A) {
    let length = attribute.length();
    let [k0, k1] = attribute.get_type().value().to_be_bytes();
    let [n0, n1] = u16::try_from(length).unwrap_or_default().to_be_bytes();
    assert!(
        message.len() == at.saturating_add(attribute_length(length))
            && message[at..].starts_with(&[k0, k1, n0, n1])
            && usize::from(u16::from_be_bytes([message[2], message[3]])) + HEADER_LENGTH
                == message.len(),
        "`write_into` appended something else than its attribute"
    );
}

/// Returns the writer if its bytes start with a header, and `NotAllowed` otherwise.
pub(crate) fn with_header<W: MessageWrite>(writer: W) -> Result<W, StunWriteError> {
    match MessageHeader::from_bytes(writer.data()) {
        Ok(_) => Ok(writer),
        Err(_) => Err(StunWriteError::NotAllowed),
    }
}

/// A writer that puts a message into a `Vec`, which grows as needed.
///
/// The bytes written so far can be read through [`Deref`]. [`finish`](MessageWrite::finish) returns
/// the `Vec`.
///
/// To write into a buffer of your own, use [`MessageWriteMutSlice`].
///
/// # Examples
///
/// ```
/// use seatcrane_stun::types::message::*;
/// use seatcrane_stun::types::prelude::*;
///
/// # let id = TransactionId::from(*b"any 12 bytes");
/// let request = Message::builder_request_with_id(BINDING, id, MessageWriteVec::new());
/// assert_eq!(request.len(), 20);
/// let bytes: Vec<u8> = request.finish();
/// ```
pub struct MessageWriteVec(proved::MessageWriteVec<Global>);

/// The number of bytes that a new writer reserves.
const CAPACITY: usize = 256;

impl MessageWriteVec {
    /// Creates an empty writer, with the capacity for a message of 256 bytes. Most messages are
    /// shorter, so that no call has to allocate when it adds an attribute.
    ///
    /// If the allocation fails, the writer has no capacity yet, and the first call that adds to it
    /// allocates.
    #[must_use]
    pub fn new() -> MessageWriteVec {
        let mut writer = proved::MessageWriteVec::new(Global);
        let _ = writer.reserve(CAPACITY);
        MessageWriteVec(writer)
    }

    /// Creates a writer that continues the message in a writer of the core.
    pub(crate) fn of_core(writer: proved::MessageWriteVec<Global>) -> MessageWriteVec {
        MessageWriteVec(writer)
    }

    /// Returns the writer of the core.
    pub(crate) fn into_core(self) -> proved::MessageWriteVec<Global> {
        self.0
    }
}

impl Default for MessageWriteVec {
    fn default() -> Self {
        MessageWriteVec::new()
    }
}

/// Copies the bytes written so far into a new writer.
impl Clone for MessageWriteVec {
    fn clone(&self) -> Self {
        let mut copy = MessageWriteVec::new();
        granted(copy.0.reserve(self.len()).map_err(|_| AllocError));
        copy.0.append(self);
        copy
    }
}

impl fmt::Debug for MessageWriteVec {
    fn fmt(&self, f: &mut fmt::Formatter<'_>) -> fmt::Result {
        f.debug_tuple("MessageWriteVec")
            .field(&self.data())
            .finish()
    }
}

impl PartialEq for MessageWriteVec {
    fn eq(&self, other: &Self) -> bool {
        self.data() == other.data()
    }
}

impl Eq for MessageWriteVec {}

impl MessageWrite for MessageWriteVec {
    type Output = Vec<u8>;

    fn data(&self) -> &[u8] {
        self.0.data()
    }

    fn room(&self) -> usize {
        self.0.room()
    }

    fn reserve(&mut self, additional: usize) -> Result<(), StunWriteError> {
        self.0.reserve(additional)
    }

    /// Appends bytes, whether they were reserved or not.
    ///
    /// # Panics
    ///
    /// Panics if bytes that were not reserved do not fit, or if they cannot be allocated.
    fn append(&mut self, tail: &[u8]) {
        self.0
            .reserve(tail.len())
            .expect("room for what is appended");
        self.0.append(tail);
    }

    fn set_length(&mut self, message_length: u16) {
        self.0.set_length(message_length);
    }

    fn finish(self) -> Vec<u8> {
        self.0.finish().into_std()
    }
}

macro_rules! bytes {
    ($name:ty) => {
        impl Deref for $name {
            type Target = [u8];

            fn deref(&self) -> &[u8] {
                self.data()
            }
        }

        impl AsRef<[u8]> for $name {
            fn as_ref(&self) -> &[u8] {
                self.data()
            }
        }
    };
}

bytes!(MessageWriteVec);
bytes!(MessageWriteMutSlice<'_>);
