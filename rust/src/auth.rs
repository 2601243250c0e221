//! Message authentication (RFC 8489, section 9): finding out who signed a message.
//!
//! STUN has two mechanisms for this. The protocol that uses STUN decides which of them applies.
//!
//! - **Short-term credentials**: both sides share a password that is valid for one session. ICE
//!   uses them. [`ShortTermAuth`] signs and verifies.
//! - **Long-term credentials**: a user has a name and a password at a server. STUN and TURN servers
//!   use them. The server challenges the client with a realm and a nonce. [`LongTermClientAuth`]
//!   answers challenges, and [`LongTermServerAuth`] issues them and verifies the requests that
//!   answer them.
//!
//! Like the rest of the crate, an authenticator performs no I/O. You pass it each message that
//! arrives, act on the verdict, and let it sign each message that you send. Call the authenticator
//! before the [agent](crate::agent), which does not verify signatures.
//!
//! No type in this module reveals a password or key in its `Debug` output.
//!
//! # Examples
//!
//! A client and a server authenticate each other, here without a network in between:
//!
//! ```
//! use seatcrane_stun::Instant;
//! use seatcrane_stun::auth::{
//!     LongTermClientAuth, LongTermClientValidation, LongTermServerAuth,
//! };
//! use seatcrane_stun::types::message::*;
//! use seatcrane_stun::types::prelude::*;
//!
//! # fn main() -> Result<(), Box<dyn std::error::Error>> {
//! let alice = LongTermCredentials::new("alice".to_string(), "wonderland".to_string());
//! let mut server = LongTermServerAuth::new("example.org".to_string());
//! server.add_user(alice.clone());
//! let mut client = LongTermClientAuth::new();
//! client.set_credentials(alice);
//! let (from, now) = ("192.0.2.1:4242".parse()?, Instant::ZERO);
//!
//! // The first request is unsigned, because the client knows neither realm nor nonce.
//! let id = TransactionId::from(*b"any 12 bytes"); // yours must be unpredictable
//! let request = Message::builder_request_with_id(BINDING, id, MessageWriteVec::new());
//! let request = client.sign_outgoing_message(request)?.finish();
//! let request = Message::from_bytes(&request)?;
//! let random = [7; 16]; // yours must be unpredictable
//! let verdict =
//!     server.validate_incoming_message_with_words(&request, from, now, random);
//! assert!(verdict.is_err());
//!
//! // The server challenges the client, which must then send a new, signed request.
//! let mut challenge = Message::builder_error(&request, MessageWriteVec::new());
//! challenge.add_error_code(401, "Unauthenticated")?;
//! let challenge = server.sign_outgoing_message(challenge, from)?.finish();
//! let verdict = client.validate_incoming_message(&Message::from_bytes(&challenge)?)?;
//! assert_eq!(verdict, LongTermClientValidation::ResendRequest(None));
//!
//! let id = TransactionId::from(*b"other 12 ids"); // a new one for each request
//! let request = Message::builder_request_with_id(BINDING, id, MessageWriteVec::new());
//! let request = client.sign_outgoing_message(request)?.finish();
//! let request = Message::from_bytes(&request)?;
//! let verdict =
//!     server.validate_incoming_message_with_words(&request, from, now, random);
//! assert!(verdict.is_ok());
//! assert_eq!(server.client(from), Some(("alice", IntegrityAlgorithm::Sha1)));
//! # Ok(())
//! # }
//! ```
//!
#![cfg_attr(all(feature = "std", feature = "rand"), doc = include_str!("loops.md"))]

use crate::Instant;
use crate::copies::{granted, text};
use crate::credentials::{LongTermCredentials, ShortTermCredentials};
use crate::exported::stun_auth::auth as proved;
use crate::exported::stun_judging::read_message::ReadMessage;
use crate::exported::stun_judging::user::LongTermServerUser as ProvedUser;
use crate::exported::stun_types::message::{IntegrityAlgorithm, StunWriteError, ValidateError};
use crate::exported::stun_types::prelude::MessageWrite;
use crate::keys::IntegrityKey;
use crate::kit::alloc::Global;
use crate::message::Message;
use crate::replay::WordSource;
use crate::trace::judged;
use crate::write::with_header;
use alloc::string::String;
use core::fmt;
use core::net::SocketAddr;
use core::time::Duration;

pub use crate::exported::stun_auth::auth::{
    LongTermAuthError, LongTermClientAuthError, LongTermClientAuthErrorReason,
    LongTermClientValidation, LongTermServerAuthError, LongTermServerAuthErrorReason,
    LongTermServerValidation,
};
pub use crate::exported::stun_judging::feature::Feature;
pub use crate::exported::stun_judging::named_user::NamedUser;
pub use crate::exported::stun_judging::nonce::LONG_TERM_RFC8489_NONCE_COOKIE;
pub use crate::exported::stun_judging::refusal::VerdictRefusal;
pub use crate::exported::stun_judging::stored_keys::StoredKeys;
pub use crate::keys::Accepted;
pub use crate::nonce::NonceSecurityBits;

impl VerdictRefusal {
    /// Returns the reason with which [`LongTermServerAuth::validate_incoming_message`] fails for
    /// this refusal.
    #[must_use]
    pub fn reason(self) -> LongTermServerAuthErrorReason {
        LongTermServerAuthErrorReason::from(self)
    }
}

/// The shortest nonce lifetime that a server accepts: 30 seconds.
///
/// # Examples
///
/// ```
/// use seatcrane_stun::auth::MINIMUM_NONCE_EXPIRY_DURATION;
/// use std::time::Duration;
///
/// let wanted = Duration::from_secs(10);
/// assert_eq!(wanted.max(MINIMUM_NONCE_EXPIRY_DURATION), Duration::from_secs(30));
/// ```
pub const MINIMUM_NONCE_EXPIRY_DURATION: Duration = Duration::from_secs(30);

/// The panic message of the unchecked signing calls.
const UNSIGNED: &str = "the message can be signed";

macro_rules! debug {
    ($name:ident) => {
        impl fmt::Debug for $name {
            fn fmt(&self, f: &mut fmt::Formatter<'_>) -> fmt::Result {
                f.write_str(concat!(stringify!($name), " { .. }"))
            }
        }
    };
}

/// Signs messages with a shared password and verifies messages that were signed with it (RFC 8489,
/// section 9.1).
///
/// Short-term credentials also have a USERNAME. This type neither writes nor reads it: add it
/// before you sign, and compare it yourself when a message arrives. Without this comparison you
/// know that the sender has the password, but not for which session the message was meant.
///
/// # Examples
///
/// One ICE agent signs a connectivity check, and the other one verifies it:
///
/// ```
/// use seatcrane_stun::auth::ShortTermAuth;
/// use seatcrane_stun::types::message::*;
/// use seatcrane_stun::types::prelude::*;
///
/// # fn main() -> Result<(), Box<dyn std::error::Error>> {
/// let password = ShortTermCredentials::new("VOkJxbRl1RmTxUk/WvJxBt".to_string());
/// let mut auth = ShortTermAuth::new(); // each side has its own
/// auth.set_credentials(password, IntegrityAlgorithm::Sha1);
///
/// let id = TransactionId::from(*b"any 12 bytes"); // yours must be unpredictable
/// let check = Message::builder_request_with_id(BINDING, id, MessageWriteVec::new());
/// let check = auth.sign_outgoing_message(check)?.finish();
///
/// let check = Message::from_bytes(&check)?;
/// assert_eq!(auth.validate_incoming_message(&check)?, Some(IntegrityAlgorithm::Sha1));
/// # Ok(())
/// # }
/// ```
pub struct ShortTermAuth {
    proved: proved::ShortTermAuth,
    kept: Option<(ShortTermCredentials, IntegrityAlgorithm)>,
    key: Option<IntegrityKey>,
}

debug!(ShortTermAuth);

impl Default for ShortTermAuth {
    fn default() -> Self {
        ShortTermAuth::new()
    }
}

impl ShortTermAuth {
    /// Creates an authenticator without credentials.
    ///
    /// Until [`set_credentials`](Self::set_credentials) is called, it signs nothing and verifies
    /// nothing.
    #[must_use]
    pub fn new() -> ShortTermAuth {
        ShortTermAuth {
            proved: proved::ShortTermAuth::new(Global),
            kept: None,
            key: None,
        }
    }

    /// Sets the password, and the algorithm to sign with.
    ///
    /// The algorithm does not restrict what is accepted: a message signed with either algorithm is
    /// verified.
    pub fn set_credentials(
        &mut self,
        credentials: ShortTermCredentials,
        algorithm: IntegrityAlgorithm,
    ) {
        granted(
            self.proved
                .set_credentials(credentials.to_proved(), algorithm),
        );
        self.key = Some(credentials.make_key());
        self.kept = Some((credentials, algorithm));
    }

    /// Returns the credentials and the algorithm to sign with, or `None` if no credentials were
    /// set.
    #[must_use]
    pub fn credentials(&self) -> Option<(&ShortTermCredentials, IntegrityAlgorithm)> {
        self.kept
            .as_ref()
            .map(|(credentials, algorithm)| (credentials, *algorithm))
    }

    /// Returns the key, which is the password itself, or `None` if no credentials were set.
    #[must_use]
    pub fn integrity_key(&self) -> Option<&IntegrityKey> {
        self.key.as_ref()
    }

    /// Returns the number of bytes that signing adds to a message: 24 for HMAC-SHA1, 36 for
    /// HMAC-SHA256, and 0 if there are no credentials.
    #[must_use]
    pub fn message_signature_bytes(&self) -> usize {
        self.proved.message_signature_bytes()
    }

    /// Signs a message: appends MESSAGE-INTEGRITY or MESSAGE-INTEGRITY-SHA256.
    ///
    /// Add all other attributes first, except FINGERPRINT, which comes after the signature
    /// ([`finish_with_fingerprint`](crate::extra::finish_with_fingerprint)). Without credentials
    /// the message is returned unchanged.
    ///
    /// # Errors
    ///
    /// Returns the first of these errors that applies. The writer is then dropped.
    ///
    /// - [`StunWriteError::NotAllowed`]: the writer is empty. Start it with one of the builders of
    ///   [`Message`].
    /// - [`StunWriteError::MessageIntegrityExists`]: the message is signed already.
    /// - [`StunWriteError::TooLarge`]: the message would be longer than a STUN message may be.
    /// - [`StunWriteError::TooSmall`]: the writer has no room for the signature.
    /// - [`StunWriteError::OutOfMemory`]: an allocation failed.
    pub fn sign_outgoing_message<W: MessageWrite>(
        &mut self,
        message: W,
    ) -> Result<W, StunWriteError> {
        self.proved.sign_outgoing_message(with_header(message)?)
    }

    /// Like [`sign_outgoing_message`](Self::sign_outgoing_message), but panics instead of returning
    /// an error.
    ///
    /// # Panics
    ///
    /// Panics if `sign_outgoing_message` would return an error.
    pub fn sign_outgoing_message_unchecked<W: MessageWrite>(&mut self, message: W) -> W {
        self.sign_outgoing_message(message).expect(UNSIGNED)
    }

    /// Verifies the signature of a message, and returns the algorithm that it was signed with.
    ///
    /// If the message has MESSAGE-INTEGRITY-SHA256, only that attribute is checked. Otherwise
    /// MESSAGE-INTEGRITY is checked.
    ///
    /// Returns `Ok(None)` if no credentials were set, because then nothing was checked. Do not
    /// mistake this result for a valid signature.
    ///
    /// # Errors
    ///
    /// - [`ValidateError::Parse`]: the message has no integrity attribute (`MissingAttribute`), or
    ///   the attribute has a wrong length (`InvalidAttributeData`).
    /// - [`ValidateError::IntegrityFailed`]: the signature was not made with this password.
    pub fn validate_incoming_message(
        &mut self,
        message: &Message<'_>,
    ) -> Result<Option<IntegrityAlgorithm>, ValidateError> {
        judged(message, self.proved.validate_incoming_message(&message.0))
    }
}

/// The client side of long-term authentication (RFC 8489, section 9.2): answers a server's
/// challenges, signs requests and verifies responses.
///
/// A client starts without a key, so its first request is not signed. The server answers 401, with
/// a realm and a nonce. The client accepts this challenge: it derives its key from user name, realm
/// and password, and its next request is signed. A success response with a valid signature confirms
/// the key. After that, a 401 is no longer treated as a challenge, because an attacker could have
/// sent it.
///
/// Use one client for each server and user. To change the user after a success, create a new
/// client.
///
/// # Security
///
/// Until the key is confirmed, an attacker who can forge a response can make the client answer a
/// challenge of the attacker instead of the server's. The attacker then chooses the realm, and with
/// it the key, and also the algorithm.
///
/// So a client that supports HMAC-SHA256 can be downgraded to HMAC-SHA1, even if the server
/// supports HMAC-SHA256 too. One forged 401 is enough, with a nonce such as `x` that has no
/// security bits, and without PASSWORD-ALGORITHMS: the client takes the server for an old one, and
/// signs with HMAC-SHA1. The server answers that nonce with its own 438. The client takes the nonce
/// from the 438 but keeps the algorithm, and the server accepts the next request as a request of an
/// old client. Both sides then report [`Validated`](LongTermClientValidation::Validated) with
/// HMAC-SHA1. A client that supports only HMAC-SHA256 can be downgraded by two forged messages: a
/// 401 without a list of algorithms, whose nonce has security bits but not *Password algorithms*,
/// such as `obMatJos2QAAAx`, and a 438 with the server's nonce. If you need HMAC-SHA256, compare
/// [`signing_algorithm`](LongTermClientAuth::signing_algorithm) with it after each
/// [`ResendRequest`](LongTermClientValidation::ResendRequest), before you sign, and give up if it
/// differs. `SECURITY.md` in the repository describes the attack and other measures.
///
/// # Examples
///
/// A client that supports only HMAC-SHA256, and gives up if it is downgraded:
///
/// ```
/// use seatcrane_stun::auth::{
///     LongTermClientAuth, LongTermClientValidation as Validation,
/// };
/// use seatcrane_stun::types::message::*;
///
/// /// Returns `true` to send another request, and `false` to give up.
/// fn goes_on(auth: &LongTermClientAuth, verdict: Validation) -> bool {
///     !matches!(verdict, Validation::ResendRequest(_))
///         || auth.signing_algorithm() == Some(IntegrityAlgorithm::Sha256)
/// }
///
/// let mut auth = LongTermClientAuth::new();
/// auth.set_supported_integrity(IntegrityAlgorithm::Sha256);
/// auth.set_credentials(LongTermCredentials::new(
///     "alice".to_string(),
///     "wonderland".to_string(),
/// ));
/// # use seatcrane_stun::types::attribute::{Nonce, Realm};
/// # use seatcrane_stun::types::prelude::*;
/// # let request = Message::from_bytes(b"\0\x01\0\0\x21\x12\xa4\x42 any 12 byte").unwrap();
/// # let mut forged = Message::builder_error(&request, MessageWriteVec::new());
/// # forged.add_error_code(401, "").unwrap();
/// # forged.add_attribute(&Realm::new("example.org").unwrap()).unwrap();
/// # forged.add_attribute(&Nonce::new("obMatJos2QAAAx").unwrap()).unwrap();
/// # let forged = forged.finish();
/// # let verdict = auth.validate_incoming_message(&Message::from_bytes(&forged).unwrap()).unwrap();
/// # assert_eq!(verdict, Validation::ResendRequest(None));
/// # assert!(!goes_on(&auth, verdict));
/// ```
pub struct LongTermClientAuth {
    proved: proved::LongTermClientAuth,
    credentials: Option<LongTermCredentials>,
}

debug!(LongTermClientAuth);

impl Default for LongTermClientAuth {
    fn default() -> Self {
        LongTermClientAuth::new()
    }
}

impl LongTermClientAuth {
    /// Creates a client without credentials.
    ///
    /// It supports only HMAC-SHA1, and sends the user name as a hash if the server accepts hashes
    /// ([`Feature::Auto`]).
    #[must_use]
    pub fn new() -> LongTermClientAuth {
        LongTermClientAuth {
            proved: proved::LongTermClientAuth::new(Global),
            credentials: None,
        }
    }

    /// Sets the user name and password.
    ///
    /// They take effect with the next challenge. If the client has already accepted a challenge, it
    /// keeps the key that it made then.
    ///
    /// A name longer than 513 bytes is accepted here, but a request that must carry it as USERNAME
    /// cannot be signed.
    pub fn set_credentials(&mut self, credentials: LongTermCredentials) {
        self.proved.set_credentials(credentials.clone().0);
        self.credentials = Some(credentials);
    }

    /// Returns the user name and password, or `None` if they were not set.
    #[must_use]
    pub fn credentials(&self) -> Option<&LongTermCredentials> {
        self.credentials.as_ref()
    }

    /// Returns the supported algorithms, each of them once, in the order in which they were added.
    #[must_use]
    pub fn supported_integrity(&self) -> &[IntegrityAlgorithm] {
        self.proved.supported_integrity()
    }

    /// Adds a supported algorithm.
    ///
    /// If the server offers a list of algorithms, the client uses the first algorithm in that list
    /// that it supports.
    pub fn add_supported_integrity(&mut self, algorithm: IntegrityAlgorithm) {
        self.proved.add_supported_integrity(algorithm);
    }

    /// Makes this the only supported algorithm.
    ///
    /// # Security
    ///
    /// This does not protect a client that supports only HMAC-SHA256 from being downgraded. If a
    /// 401 has no list of algorithms, and its nonce has security bits but not *Password
    /// algorithms*, the client signs with HMAC-SHA1, whatever it supports. An attacker can forge
    /// such a 401. To refuse HMAC-SHA1, call [`signing_algorithm`](Self::signing_algorithm) after
    /// each [`LongTermClientValidation::ResendRequest`], before you sign, and give up if it is not
    /// the algorithm that you want.
    pub fn set_supported_integrity(&mut self, algorithm: IntegrityAlgorithm) {
        self.proved.set_supported_integrity(algorithm);
    }

    /// Returns whether the user name is sent as a hash (USERHASH).
    #[must_use]
    pub fn anonymous_username(&self) -> Feature {
        self.proved.anonymous_username()
    }

    /// Sets whether the user name is sent as a hash (USERHASH). It takes effect with the next
    /// challenge.
    pub fn set_anonymous_username(&mut self, anonymous: Feature) {
        self.proved.set_anonymous_username(anonymous);
    }

    /// Returns the algorithm that the next message would be signed with, or `None` if the client
    /// has not accepted a challenge yet and would not sign.
    #[must_use]
    pub fn signing_algorithm(&self) -> Option<IntegrityAlgorithm> {
        self.proved.signing_algorithm()
    }

    /// Returns the number of bytes that [`sign_outgoing_message`](Self::sign_outgoing_message) adds
    /// to a request, or 0 if the client has not accepted a challenge yet.
    #[must_use]
    pub fn message_signature_bytes(&self) -> usize {
        self.proved.message_signature_bytes()
    }

    /// Signs a message for the server, as the accepted challenge requires.
    ///
    /// If the client has not accepted a challenge yet, the message is returned unchanged. Otherwise
    /// these attributes are appended, in this order:
    ///
    /// - to a request, NONCE, REALM, and USERNAME or USERHASH;
    /// - PASSWORD-ALGORITHMS, if the server sent a list of algorithms;
    /// - PASSWORD-ALGORITHM, if the server sent a list or the algorithm is HMAC-SHA256;
    /// - MESSAGE-INTEGRITY or MESSAGE-INTEGRITY-SHA256.
    ///
    /// Add your own attributes first, except FINGERPRINT
    /// ([`finish_with_fingerprint`](crate::extra::finish_with_fingerprint)).
    ///
    /// # Errors
    ///
    /// [`StunWriteError::NotAllowed`] if the writer is empty. Otherwise the attributes are written
    /// in the order above, and the call fails with the error of the first one that cannot be
    /// written. The writer is then dropped, and the client is unchanged.
    ///
    /// - [`StunWriteError::MessageIntegrityExists`], [`StunWriteError::AttributeExists`]: the
    ///   message already has a signature, or an attribute of the type to add.
    /// - [`StunWriteError::TooLarge`]: the message would be too long, or the user name has more
    ///   than 513 bytes.
    /// - [`StunWriteError::TooSmall`]: the writer has no room for these attributes.
    /// - [`StunWriteError::OutOfMemory`]: an allocation failed.
    pub fn sign_outgoing_message<W: MessageWrite>(
        &mut self,
        message: W,
    ) -> Result<W, StunWriteError> {
        self.proved.sign_outgoing_message(with_header(message)?)
    }

    /// Like [`sign_outgoing_message`](Self::sign_outgoing_message), but panics instead of returning
    /// an error.
    ///
    /// # Panics
    ///
    /// Panics if `sign_outgoing_message` would return an error.
    pub fn sign_outgoing_message_unchecked<W: MessageWrite>(&mut self, message: W) -> W {
        self.sign_outgoing_message(message).expect(UNSIGNED)
    }

    /// Judges a response from the server (RFC 8489, section 9.2.5).
    ///
    /// - A **401** is a challenge until the first success has been validated. After that it is
    ///   judged by its signature, like any other response. If the client can answer the challenge,
    ///   it stores realm and nonce, makes its key, and returns
    ///   [`LongTermClientValidation::ResendRequest`].
    /// - If a **438** has REALM and NONCE, the client replaces its stored realm and nonce, whether
    ///   the response is signed or not, and also returns `ResendRequest`. It keeps its key, and
    ///   with it the algorithm. If it has not accepted a challenge yet, it stores nothing.
    /// - **Any other response** is [`LongTermClientValidation::Validated`] if its signature is
    ///   valid.
    ///
    /// After `ResendRequest` pass the response to the agent, and send a new request with a new
    /// transaction ID, signed by [`sign_outgoing_message`](Self::sign_outgoing_message).
    ///
    /// # Security
    ///
    /// This call checks neither the transaction ID nor the source address. Pass it only responses
    /// to an outstanding request of yours, from the address to which the request was sent
    /// ([`StunAgent::request_transaction`](crate::agent::StunAgent::request_transaction)). Limit
    /// the number of requests that you send again: a server, or an attacker who sees a transaction
    /// ID, can otherwise make you resend forever.
    ///
    /// # Errors
    ///
    /// An error leaves the client unchanged. For a 401 that is a challenge, returns the first of
    /// these errors that applies:
    ///
    /// - `Unauthorized`: no credentials are set, REALM or NONCE is missing, or the client has
    ///   already answered this challenge, which usually means a wrong password. Give up.
    /// - `UnsupportedFeature`: client and server have no algorithm in common. If the nonce
    ///   announces a list of algorithms and the response has none, the error is `Unauthorized`
    ///   instead. Give up.
    /// - `UnsupportedFeature`: the user name must be hashed ([`Feature::Required`]), and the nonce
    ///   does not allow it. Give up.
    ///
    /// For every other response, returns:
    ///
    /// - `IntegrityFailed`: the signature is missing or invalid. Drop the response, which may be
    ///   forged, and keep waiting.
    ///
    /// `OutOfMemory` means that an allocation failed. Only a call that would otherwise return
    /// `ResendRequest` can fail with it.
    ///
    /// # Examples
    ///
    /// Acting on the verdict:
    ///
    /// ```
    /// use seatcrane_stun::auth::LongTermClientAuth;
    /// use seatcrane_stun::auth::LongTermClientAuthErrorReason as Reason;
    /// use seatcrane_stun::auth::LongTermClientValidation as Validation;
    /// # use seatcrane_stun::types::message::Message;
    ///
    /// enum Next { Resend, Done, Wait, GiveUp(Reason) }
    ///
    /// fn next(auth: &mut LongTermClientAuth, response: &Message<'_>) -> Next {
    ///     match auth.validate_incoming_message(response).map_err(|error| error.reason()) {
    ///         Ok(Validation::ResendRequest(_)) => Next::Resend,
    ///         Ok(Validation::Validated(_)) => Next::Done, // a success, or a signed error
    ///         Err(Reason::IntegrityFailed) => Next::Wait, // perhaps forged
    ///         Err(reason) => Next::GiveUp(reason),
    ///     }
    /// }
    /// # let unsigned = *b"\x01\x01\0\0\x21\x12\xa4\x42 any 12 byte";
    /// # let unsigned = Message::from_bytes(&unsigned).unwrap();
    /// # assert!(matches!(next(&mut LongTermClientAuth::new(), &unsigned), Next::Wait));
    /// ```
    pub fn validate_incoming_message(
        &mut self,
        message: &Message<'_>,
    ) -> Result<LongTermClientValidation, LongTermClientAuthError> {
        judged(message, self.proved.validate_incoming_message(&message.0))
    }
}

/// The server side of long-term authentication (RFC 8489, section 9.2.4): the users of a realm, and
/// a record for each client address.
///
/// The record of an address holds the latest nonce that was made for it, the time at which that
/// nonce expires, the algorithms that the address was offered, and its *client*. The client is the
/// user who was validated there last.
///
/// # Memory
///
/// Almost every request or indication from a new address adds a record, even if it is refused. The
/// only exception is a message that has an integrity attribute but lacks REALM, NONCE or a user
/// name. So anybody who can send from many addresses makes the server grow, and you have to set a
/// limit. Watch [`address_count`](LongTermServerAuth::address_count), and call
/// [`forget`](LongTermServerAuth::forget) and
/// [`forget_expired`](LongTermServerAuth::forget_expired). A record without a client takes about
/// 200 bytes.
///
/// # Examples
///
/// ```
/// use seatcrane_stun::auth::LongTermServerAuth;
/// use seatcrane_stun::types::message::{IntegrityAlgorithm, LongTermCredentials};
/// use std::time::Duration;
///
/// let mut auth = LongTermServerAuth::new("example.org".to_string());
/// auth.add_supported_integrity(IntegrityAlgorithm::Sha256); // besides HMAC-SHA1
/// auth.set_nonce_expiry_duration(Duration::from_secs(600));
/// auth.add_user(LongTermCredentials::new(
///     "alice".to_string(),
///     "wonderland".to_string(),
/// ));
/// ```
pub struct LongTermServerAuth {
    proved: proved::LongTermServerAuth,
}

debug!(LongTermServerAuth);

impl LongTermServerAuth {
    /// Creates a server for a realm, without users.
    ///
    /// It supports only HMAC-SHA1, accepts hashed user names ([`Feature::Auto`]), and makes nonces
    /// that are valid for one hour.
    ///
    /// A realm longer than 763 bytes is accepted here, but then no response can be signed. Keep it
    /// short, because it is part of every challenge, and the server sends a challenge to anybody
    /// who sends a request.
    #[must_use]
    pub fn new(realm: String) -> LongTermServerAuth {
        LongTermServerAuth {
            proved: proved::LongTermServerAuth::new(Global, text(realm)),
        }
    }

    /// Returns the realm.
    pub fn realm(&self) -> &str {
        self.proved.realm()
    }

    /// Adds a user, or replaces the password of an existing user.
    ///
    /// If the name is longer than 513 bytes, a message can name this user only by USERHASH.
    pub fn add_user(&mut self, credentials: LongTermCredentials) {
        granted(self.proved.add_user(credentials.0));
    }

    /// Adds a user with stored keys instead of a password, or replaces the password or keys of an
    /// existing user.
    ///
    /// The keys must have been made for the server's realm. All of them are stored, so a key can be
    /// used as soon as the server supports its algorithm, even if that is later.
    ///
    /// If the name is longer than 513 bytes, a message can name this user only by USERHASH.
    ///
    /// # Examples
    ///
    /// ```
    /// use seatcrane_stun::auth::{LongTermServerAuth, StoredKeys};
    ///
    /// // The MD5 hash of "alice:example.org:wonderland", as a database stores it.
    /// let md5 = [
    ///     0x72, 0xf8, 0x6f, 0x20, 0x53, 0x70, 0x3f, 0xaa,
    ///     0x0f, 0x52, 0x1c, 0xe7, 0x1c, 0xfe, 0x6f, 0x59,
    /// ];
    /// let mut auth = LongTermServerAuth::new("example.org".to_string());
    /// auth.add_user_with_keys("alice".to_string(), StoredKeys::new().with_sha1(md5));
    /// ```
    pub fn add_user_with_keys(&mut self, username: String, keys: StoredKeys) {
        granted(self.proved.add_user_with_keys(text(username), keys));
    }

    /// Removes a user. Requests that name this user are refused from now on.
    ///
    /// If the user is still the client of an address, messages to that address cannot be signed
    /// until you call [`remove_client`](Self::remove_client) for this address.
    pub fn remove_user(&mut self, user: &str) {
        self.proved.remove_user(user);
    }

    /// Returns the supported algorithms, the strongest first.
    pub fn supported_integrity(&self) -> &[IntegrityAlgorithm] {
        self.proved.supported_integrity()
    }

    /// Adds a supported algorithm. Every user gets a key for it.
    pub fn add_supported_integrity(&mut self, algorithm: IntegrityAlgorithm) {
        self.proved.add_supported_integrity(algorithm);
    }

    /// Makes this the only supported algorithm.
    ///
    /// Call it before the first message arrives: messages to a client that uses another algorithm
    /// can no longer be signed until you call [`remove_client`](Self::remove_client).
    pub fn set_supported_integrity(&mut self, algorithm: IntegrityAlgorithm) {
        self.proved.set_supported_integrity(algorithm);
    }

    /// Returns whether clients may send a hash (USERHASH) in place of the user name.
    pub fn anonymous_username(&self) -> Feature {
        self.proved.anonymous_username()
    }

    /// Sets whether clients may send a hash (USERHASH) in place of the user name. Nonces that are
    /// made from now on announce this setting.
    ///
    /// A server treats [`Feature::Required`] like [`Feature::Auto`]: it still accepts a plain
    /// USERNAME.
    pub fn set_anonymous_username(&mut self, anonymous: Feature) {
        granted(self.proved.set_anonymous_username(anonymous));
    }

    /// Sets how long new nonces are valid. Less than 30 seconds counts as 30 seconds.
    ///
    /// Existing nonces are not affected.
    pub fn set_nonce_expiry_duration(&mut self, expiry: Duration) {
        self.proved
            .set_nonce_expiry_duration(expiry.max(MINIMUM_NONCE_EXPIRY_DURATION));
    }

    /// Returns the number of addresses that have a record, in constant time.
    pub fn address_count(&self) -> usize {
        self.proved.address_count()
    }

    /// Returns the latest nonce that was made for an address, whether it has expired or not, or
    /// `None` if the address has no record.
    pub fn nonce_for_client(&self, client: SocketAddr) -> Option<&str> {
        self.proved.nonce_for_client(client)
    }

    /// Returns the user who was validated last at this address, and the algorithm that both sides
    /// agreed on.
    ///
    /// Call this right after [`Validated`](LongTermServerValidation::Validated) to learn who sent
    /// the request. Do not read the USERNAME attribute instead: a message may have two of them, and
    /// [`Message::attribute`] returns the first, while the authenticator judges the last.
    ///
    /// Returns `None` if nobody was validated here, or after
    /// [`remove_client`](Self::remove_client). A user who has been removed since is still returned.
    pub fn client(&self, client: SocketAddr) -> Option<(&str, IntegrityAlgorithm)> {
        self.proved.client(client)
    }

    /// Forgets the client of an address, but not its nonce. Responses to this address are not
    /// signed until a client is validated there again.
    ///
    /// Call this after every response. As long as an address has a client, its record never
    /// expires, and its 401 and 438 responses carry no list of algorithms, so a new client at the
    /// same address cannot authenticate.
    ///
    /// The record keeps the memory of the client's name, until another user is validated at this
    /// address or the record is removed. So nothing is allocated for a client that returns.
    pub fn remove_client(&mut self, client: SocketAddr) {
        self.proved.remove_client(client);
    }

    /// Removes the record of an address: its nonce, the algorithms that it was offered, and its
    /// client. The next message from this address is treated as its first.
    pub fn forget(&mut self, client: SocketAddr) {
        self.proved.forget(client);
    }

    /// Removes every record that has no client and whose nonce expired before `now`.
    ///
    /// Pass the current time minus the nonce lifetime. A record then outlives its nonce by one more
    /// lifetime. A client that returns within that time is answered with a 438 and can continue. If
    /// its record were gone, and it repeated the algorithms that it was once offered, it would be
    /// refused with `BadRequest`.
    ///
    /// This visits every record, so call it every few seconds rather than for each message. On a
    /// server with many records, [`forget_expired_within`](Self::forget_expired_within) avoids the
    /// pause.
    ///
    /// # Examples
    ///
    /// ```
    /// # use seatcrane_stun::Instant;
    /// # use seatcrane_stun::auth::LongTermServerAuth;
    /// # use std::time::Duration;
    /// const LIFETIME: Duration = Duration::from_secs(600);
    ///
    /// fn forget(auth: &mut LongTermServerAuth, now: Instant) {
    ///     auth.forget_expired(now - LIFETIME);
    /// }
    /// # forget(&mut LongTermServerAuth::new(String::new()), Instant::ZERO);
    /// ```
    pub fn forget_expired(&mut self, now: Instant) {
        self.proved.forget_expired(now);
    }

    /// Like [`forget_expired`](Self::forget_expired), but visits at most `most` records.
    ///
    /// It starts at the address `from`, in the order of `SocketAddr`, or at the first address if
    /// `from` is `None`. It returns the address at which to continue, or `None` once it has visited
    /// all records. So pass the result of each call to the next:
    ///
    /// ```
    /// # use seatcrane_stun::Instant;
    /// # use seatcrane_stun::auth::LongTermServerAuth;
    /// # let mut auth = LongTermServerAuth::new(String::new());
    /// # let (expired, mut next) = (Instant::ZERO, None);
    /// next = auth.forget_expired_within(expired, next, 100);
    /// ```
    pub fn forget_expired_within(
        &mut self,
        now: Instant,
        from: Option<SocketAddr>,
        most: usize,
    ) -> Option<SocketAddr> {
        self.proved.forget_expired_within(now, from, most)
    }

    /// Returns the number of bytes that [`sign_outgoing_message`](Self::sign_outgoing_message) adds
    /// to a message to this address, or 0 if the server has no record of the address.
    ///
    /// `is_request` is `true` for a request or an indication, and `false` for a response.
    pub fn message_signature_bytes(&self, to: SocketAddr, is_request: bool) -> usize {
        self.proved.message_signature_bytes(to, is_request)
    }

    /// Signs a message to a client: adds the challenge, and the signature if the address has a
    /// client.
    ///
    /// If the server has no record of the address, the message is returned unchanged. Otherwise
    /// these attributes are appended, in this order:
    ///
    /// - to a response, NONCE and REALM;
    /// - to a response to an address without a client, PASSWORD-ALGORITHMS. From then on, the
    ///   listed algorithms count as those that this address was offered, so send every response
    ///   that you sign;
    /// - PASSWORD-ALGORITHM, if the client uses HMAC-SHA256;
    /// - MESSAGE-INTEGRITY or MESSAGE-INTEGRITY-SHA256, if the address has a client.
    ///
    /// Sign every response to a message that was
    /// [`Validated`](LongTermServerValidation::Validated), whatever its error code: a client drops
    /// an unsigned response to a signed request, and waits until its request times out. Pass the
    /// 401 and the 438 of a refused request to this call too, because they need the nonce and the
    /// realm. Only if this server refused a request with
    /// [`BadRequest`](LongTermServerAuthErrorReason::BadRequest), send the 400 without this call
    /// (RFC 8489, section 9.2.4).
    ///
    /// # Errors
    ///
    /// [`StunWriteError::NotAllowed`] if the writer is empty. Otherwise the attributes are written
    /// in the order above, and the call fails with the error of the first one that cannot be
    /// written. The writer is then dropped, and the server is unchanged.
    ///
    /// - [`StunWriteError::MessageIntegrityExists`], [`StunWriteError::AttributeExists`]: the
    ///   message already has a signature, or an attribute of the type to add.
    /// - [`StunWriteError::TooLarge`]: the message would be too long, or the realm has more than
    ///   763 bytes.
    /// - [`StunWriteError::TooSmall`]: the writer has no room for these attributes.
    /// - [`StunWriteError::IntegrityFailed`]: the client's user was removed, or its algorithm is no
    ///   longer supported.
    /// - [`StunWriteError::OutOfMemory`]: an allocation failed.
    ///
    /// # Examples
    ///
    /// The challenge for a request that was refused:
    ///
    /// ```
    /// use seatcrane_stun::auth::LongTermServerAuth;
    /// use seatcrane_stun::types::message::{Message, MessageWriteVec, StunWriteError};
    /// use seatcrane_stun::types::prelude::*;
    /// use std::net::SocketAddr;
    ///
    /// fn challenge(
    ///     auth: &mut LongTermServerAuth,
    ///     request: &Message<'_>,
    ///     from: SocketAddr,
    /// ) -> Result<Vec<u8>, StunWriteError> {
    ///     let mut error = Message::builder_error(request, MessageWriteVec::new());
    ///     error.add_error_code(401, "Unauthenticated")?;
    ///     Ok(auth.sign_outgoing_message(error, from)?.finish())
    /// }
    /// ```
    pub fn sign_outgoing_message<W: MessageWrite>(
        &mut self,
        message: W,
        to: SocketAddr,
    ) -> Result<W, StunWriteError> {
        self.proved.sign_outgoing_message(with_header(message)?, to)
    }

    /// Like [`sign_outgoing_message`](Self::sign_outgoing_message), but panics instead of returning
    /// an error.
    ///
    /// # Panics
    ///
    /// Panics if `sign_outgoing_message` would return an error.
    pub fn sign_outgoing_message_unchecked<W: MessageWrite>(
        &mut self,
        message: W,
        to: SocketAddr,
    ) -> W {
        self.sign_outgoing_message(message, to).expect(UNSIGNED)
    }

    /// Judges a message that arrived from `from`, with random numbers of the operating system.
    ///
    /// A request or an indication is validated if and only if
    ///
    /// - it has a REALM, whose value is not compared;
    /// - its NONCE is the current one of the address;
    /// - its algorithms agree with those that the address was offered;
    /// - it names a registered user, who has a key for the agreed algorithm;
    /// - its signature is valid under that key.
    ///
    /// The user is then the [`client`](Self::client) of the address. A response is validated if its
    /// signature is valid under the key of that client.
    ///
    /// If the address has no current nonce, a new nonce is made from sixteen random numbers, but
    /// only for a message without an integrity attribute, or for a message that has REALM, NONCE
    /// and a user name.
    ///
    /// # Errors
    ///
    /// For a response that is not validated, returns `IntegrityFailed`: drop the response. For a
    /// request or an indication, returns the first of these errors that applies:
    ///
    /// | Reason | Cause | Answer |
    /// |---|---|---|
    /// | `Unauthorized` | there is no well-formed integrity attribute | 401 |
    /// | `BadRequest` | REALM, NONCE or the user name is missing | 400 |
    /// | `BadRequest` | the algorithms disagree with the offer | 400, or 438 (see below) |
    /// | `Unauthorized` | neither the nonce nor its security bits are the current ones | 401 |
    /// | `StaleNonce` | the nonce is not current | 438 |
    /// | `Unauthorized` | the user is unknown or has no key, or the signature is wrong | 401 |
    ///
    /// `OutOfMemory` means that an allocation failed, which can happen only if a nonce must be made
    /// or a new client stored. Drop the message.
    ///
    /// Answer `BadRequest` with 438 if the address had no nonce before this call and has one after
    /// it. Its record was then lost, for example in a restart, and the client repeats an old offer.
    /// The client treats an unsigned 400 as forged, and would send its request again in vain, but a
    /// 438 gives it a nonce with which it can continue.
    ///
    /// # Panics
    ///
    /// Panics if the operating system provides no random numbers.
    ///
    /// # Examples
    ///
    /// Choosing the code with which a request is answered, where 200 stands for a success:
    ///
    /// ```
    /// use seatcrane_stun::auth::LongTermServerAuthErrorReason as Reason;
    /// # use seatcrane_stun::Instant;
    /// # use seatcrane_stun::auth::LongTermServerAuth;
    /// # use seatcrane_stun::types::message::Message;
    /// # use std::net::SocketAddr;
    /// # fn code(
    /// #     auth: &mut LongTermServerAuth,
    /// #     request: &Message<'_>,
    /// #     from: SocketAddr,
    /// #     now: Instant,
    /// # ) -> Option<u16> {
    ///
    /// let had_nonce = auth.nonce_for_client(from).is_some();
    /// let verdict = auth.validate_incoming_message(request, from, now);
    /// match verdict.map_err(|error| error.reason()) {
    ///     Ok(_) => Some(200), // `auth.client(from)` returns the user who sent it
    ///     Err(Reason::Unauthorized) => Some(401),
    ///     Err(Reason::StaleNonce) => Some(438),
    ///     Err(Reason::BadRequest) if had_nonce => Some(400),
    ///     Err(Reason::BadRequest) => {
    ///         Some(auth.nonce_for_client(from).map_or(400, |_| 438))
    ///     }
    ///     Err(_) => None, // drop it
    /// }
    /// # }
    /// # let mut auth = LongTermServerAuth::new("example.org".to_string());
    /// # let request = *b"\x00\x01\0\0\x21\x12\xa4\x42 any 12 byte";
    /// # let request = Message::from_bytes(&request).unwrap();
    /// # let from = "192.0.2.1:4242".parse().unwrap();
    /// # assert_eq!(code(&mut auth, &request, from, Instant::ZERO), Some(401));
    /// ```
    #[cfg(feature = "rand")]
    #[cfg_attr(docsrs, doc(cfg(feature = "rand")))]
    pub fn validate_incoming_message(
        &mut self,
        message: &Message<'_>,
        from: SocketAddr,
        now: Instant,
    ) -> Result<LongTermServerValidation, LongTermServerAuthError> {
        let mut source = crate::random::for_a_nonce(crate::random::system);
        let verdict =
            self.proved
                .validate_incoming_message(&message.0, from, now, &mut source);
        judged(message, verdict)
    }

    /// Like `validate_incoming_message`, with random numbers from your own generator: `fill` fills
    /// a slice with random bytes, for example `|bytes| rng.fill_bytes(bytes)` with the crate
    /// `rand`. It is called once if a nonce is made, and otherwise not at all.
    ///
    /// Anybody who can predict these numbers can predict nonces, so use a cryptographically secure
    /// generator.
    ///
    /// # Errors
    ///
    /// See `validate_incoming_message`, which lists every reason with the response to send.
    pub fn validate_incoming_message_with_rng(
        &mut self,
        message: &Message<'_>,
        from: SocketAddr,
        now: Instant,
        fill: impl FnMut(&mut [u8]),
    ) -> Result<LongTermServerValidation, LongTermServerAuthError> {
        let mut source = crate::random::for_a_nonce(fill);
        let verdict =
            self.proved
                .validate_incoming_message(&message.0, from, now, &mut source);
        judged(message, verdict)
    }

    /// Like `validate_incoming_message`, with sixteen random numbers of your own.
    ///
    /// Anybody who can predict these numbers can predict nonces. They are read only if a nonce is
    /// made. You may pass them to the next call if no nonce was made, which is so if
    /// [`nonce_for_client`](Self::nonce_for_client) returns the same as before the call. Otherwise
    /// they are in the nonce, which everybody can see: never pass them again.
    ///
    /// # Errors
    ///
    /// See `validate_incoming_message`, which lists every reason with the response to send.
    pub fn validate_incoming_message_with_words(
        &mut self,
        message: &Message<'_>,
        from: SocketAddr,
        now: Instant,
        words: [u32; 16],
    ) -> Result<LongTermServerValidation, LongTermServerAuthError> {
        let mut source = WordSource::new(words);
        let verdict =
            self.proved
                .validate_incoming_message(&message.0, from, now, &mut source);
        judged(message, verdict)
    }

    /// Returns the user whose key will be used to verify a message, so that you can look that user
    /// up in a database.
    ///
    /// - For a request or an indication, this is the user of the last visible USERHASH, or of the
    ///   last visible USERNAME if there is no USERHASH.
    /// - For a response, it is the client of the address.
    ///
    /// `None` means that the verdict does not depend on the users, for example because the message
    /// has a USERHASH and hashed names are disabled. Call
    /// [`validate_incoming_message_with_words`](Self::validate_incoming_message_with_words) in that
    /// case.
    ///
    /// # Security
    ///
    /// This call does not check the signature. Anybody can send any name, so limit how often you
    /// look up a name.
    ///
    /// # Examples
    ///
    /// ```
    /// use seatcrane_stun::auth::{LongTermServerAuth, LongTermServerUser, NamedUser};
    /// use seatcrane_stun::types::message::{LongTermCredentials, Message};
    /// use std::net::SocketAddr;
    ///
    /// fn look_up(
    ///     auth: &LongTermServerAuth,
    ///     message: &Message<'_>,
    ///     from: SocketAddr,
    ///     database: impl Fn(NamedUser<'_>) -> Option<LongTermCredentials>,
    /// ) -> Option<LongTermServerUser> {
    ///     let credentials = database(auth.named_user(message, from)?)?;
    ///     // for `validate_incoming_message_of_with_words`
    ///     Some(auth.prepare_user(credentials))
    /// }
    /// ```
    pub fn named_user<'a>(
        &'a self,
        message: &'a Message<'_>,
        from: SocketAddr,
    ) -> Option<NamedUser<'a>> {
        self.proved.named_user(&message.0, from)
    }

    /// Returns the user whom a request or an indication names: by the hash in its last visible
    /// USERHASH or, if no USERHASH is visible, by the name in its last visible USERNAME.
    ///
    /// Returns `None` if neither attribute is visible. Also returns `None` if a USERHASH is visible
    /// but the server does not accept hashes ([`Feature::Disabled`]), even if the message also has
    /// a USERNAME. The verdict of [`judge`](Self::judge) then does not depend on the users.
    ///
    /// # Security
    ///
    /// This call checks neither the signature nor the nonce, so an attacker can name any user.
    pub fn named_in<'a>(&self, message: &'a Message<'_>) -> Option<NamedUser<'a>> {
        self.proved.as_realm().named_in(&ReadMessage::of(&message.0))
    }

    /// Makes the keys of a user who is not registered with this server.
    ///
    /// Pass the result to
    /// [`validate_incoming_message_of_with_words`](Self::validate_incoming_message_of_with_words)
    /// and [`sign_outgoing_message_of`](Self::sign_outgoing_message_of). You may keep it and use it
    /// again, until you change the supported algorithms: it has a key for each algorithm that is
    /// supported now. The server itself is unchanged.
    pub fn prepare_user(&self, credentials: LongTermCredentials) -> LongTermServerUser {
        LongTermServerUser {
            proved: granted(self.proved.as_realm().prepare_user(credentials.0)),
        }
    }

    /// Like [`prepare_user`](Self::prepare_user), with stored keys in place of a password.
    ///
    /// The keys must have been made for the server's realm. A key for an unsupported algorithm is
    /// ignored.
    pub fn prepare_user_with_keys(&self, username: String, keys: StoredKeys) -> LongTermServerUser {
        LongTermServerUser {
            proved: granted(
                self.proved
                    .as_realm()
                    .prepare_user_with_keys(text(username), keys),
            ),
        }
    }

    /// Checks the signature of a message with the key that a registered user has for `algorithm`,
    /// and returns the algorithm of the signature if it is valid. Returns `None` if the signature
    /// is missing or invalid, or if there is no such user or key.
    ///
    /// This is not authentication: the nonce is not checked, so a message that an attacker has
    /// recorded and sends again is valid too.
    pub fn user_verifies(
        &self,
        name: &str,
        algorithm: IntegrityAlgorithm,
        message: &Message<'_>,
    ) -> Option<IntegrityAlgorithm> {
        self.proved.user_verifies(name, algorithm, &message.0)
    }

    /// Returns a nonce that is made of these 16 random numbers and has the security bits of the
    /// current settings (RFC 8489, section 9.2). It has at most 29 bytes.
    ///
    /// Pass such a nonce to [`judge`](Self::judge), and to [`add_challenge`](Self::add_challenge),
    /// which writes it into a response. A server that stores no nonces derives the numbers from a
    /// secret, the address of the client and the time, because anybody who can predict them can
    /// predict nonces.
    pub fn nonce_of_words(&self, words: &[u32; 16]) -> String {
        String::from(granted(self.proved.as_realm().nonce_of_words(words)).as_str())
    }

    /// Judges a request or an indication as if the nonce that you pass were the current one, and
    /// all supported algorithms had been offered with it.
    ///
    /// The call reads no record of an address and stores none, so threads can share a server whose
    /// nonces are a function of the address and the time, made by
    /// [`nonce_of_words`](Self::nonce_of_words). Do not pass responses: they are judged like
    /// requests.
    ///
    /// It accepts the same messages as [`validate_incoming_message_with_words`][validate] does if
    /// this nonce is current and all supported algorithms were offered. Sign the response with the
    /// returned key, by [`add_message_integrity_with_prepared_key`][sign]. To sign it later, or on
    /// another thread, clone the key: the clone does not need the server.
    ///
    /// [validate]: Self::validate_incoming_message_with_words
    /// [sign]: crate::types::prelude::MessageWriteExt::add_message_integrity_with_prepared_key
    ///
    /// # Security
    ///
    /// Pass a nonce that `nonce_of_words` made. If a nonce lacks the security bit *Password
    /// algorithms*, a message with this nonce is judged with HMAC-SHA1 even if the server supports
    /// HMAC-SHA256.
    ///
    /// # Errors
    ///
    /// Returns the first of these errors that applies:
    ///
    /// - [`Unauthorized`](VerdictRefusal::Unauthorized) (answer 401): there is no well-formed
    ///   integrity attribute.
    /// - [`BadRequest`](VerdictRefusal::BadRequest) (answer 400): REALM, NONCE or the user name is
    ///   missing, or the algorithms are not those that the server supports. If the message has
    ///   another nonce than `nonce`, answer 438 instead, because the sender repeats algorithms that
    ///   it was offered with an earlier nonce, and would treat an unsigned 400 as forged.
    /// - [`Unauthorized`](VerdictRefusal::Unauthorized) (answer 401): the message has another
    ///   nonce, whose security bits differ from those of `nonce`.
    /// - [`StaleNonce`](VerdictRefusal::StaleNonce) (answer 438): the message has another nonce
    ///   than `nonce`.
    /// - [`Unauthorized`](VerdictRefusal::Unauthorized) (answer 401): the user is unknown or has no
    ///   key, or the signature is wrong.
    ///
    /// # Examples
    ///
    /// ```
    /// use seatcrane_stun::auth::{LongTermServerAuth, VerdictRefusal};
    /// use seatcrane_stun::types::message::Message;
    ///
    /// // The code to answer a request with, where 200 stands for a success.
    /// fn code(auth: &LongTermServerAuth, request: &Message<'_>, nonce: &str) -> u16 {
    ///     match auth.judge(request, nonce) {
    ///         Ok(accepted) => {
    ///             println!("a request of {}", accepted.name());
    ///             200
    ///         }
    ///         Err(VerdictRefusal::Unauthorized) => 401,
    ///         Err(VerdictRefusal::BadRequest) => 400,
    ///         Err(VerdictRefusal::StaleNonce) => 438,
    ///     }
    /// }
    /// # let auth = LongTermServerAuth::new("example.org".to_string());
    /// # let nonce = auth.nonce_of_words(&[7; 16]);
    /// # let request = Message::from_bytes(b"\0\x01\0\0\x21\x12\xa4\x42 any 12 byte").unwrap();
    /// # assert_eq!(code(&auth, &request, &nonce), 401);
    /// ```
    pub fn judge<'a>(
        &'a self,
        message: &'a Message<'_>,
        nonce: &str,
    ) -> Result<Accepted<'a>, VerdictRefusal> {
        let read = ReadMessage::of(&message.0);
        let accepted = self.proved.as_realm().judge(&read, nonce);
        judged(message, accepted.map(Accepted))
    }

    /// Judges a request or an indication like [`judge`](Self::judge), as a server whose only user
    /// is `user`.
    ///
    /// The server's own users are ignored. If `user` is the user whom [`named_in`](Self::named_in)
    /// returned, the verdict is the same as that of a server with all your users. If your database
    /// has no such user, call [`judge`](Self::judge) on a server without users, which refuses the
    /// message like a message that names an unknown user.
    ///
    /// # Errors
    ///
    /// Returns the errors of [`judge`](Self::judge), in the same order.
    pub fn judge_of<'a>(
        &'a self,
        message: &'a Message<'_>,
        nonce: &str,
        user: &'a LongTermServerUser,
    ) -> Result<Accepted<'a>, VerdictRefusal> {
        let read = ReadMessage::of(&message.0);
        let realm = self.proved.as_realm();
        let accepted = realm.judge_of(&read, nonce, &user.proved);
        judged(message, accepted.map(Accepted))
    }

    /// Adds to a response the attributes that a client needs to sign its next request with a nonce
    /// (RFC 8489, section 9.2.4): NONCE, REALM and, if the nonce has the security bit *Password
    /// algorithms*, PASSWORD-ALGORITHMS with the supported algorithms, the strongest first.
    ///
    /// Call it for a 401 or a 438 of a server that stores no nonces, with the nonce that you will
    /// pass to [`judge`](Self::judge) for the next request. Nothing is signed, and the records of
    /// addresses are neither read nor changed.
    ///
    /// # Errors
    ///
    /// [`StunWriteError::NotAllowed`] if the writer is empty. Otherwise the attributes are written
    /// in the order above, and the call fails with the error of the first one that cannot be
    /// written. The writer is then dropped.
    ///
    /// - [`StunWriteError::MessageIntegrityExists`], [`StunWriteError::AttributeExists`]: the
    ///   message already has a signature, or an attribute of the type to add.
    /// - [`StunWriteError::TooLarge`]: the message would be too long, or the nonce or the realm has
    ///   more than 763 bytes.
    /// - [`StunWriteError::TooSmall`]: the writer has no room for these attributes.
    /// - [`StunWriteError::OutOfMemory`]: an allocation failed.
    ///
    /// # Examples
    ///
    /// A server that stores nothing about its clients challenges one, and accepts its next request:
    ///
    /// ```
    /// use seatcrane_stun::auth::{LongTermClientAuth, LongTermServerAuth};
    /// use seatcrane_stun::types::message::*;
    /// use seatcrane_stun::types::prelude::*;
    ///
    /// # fn main() -> Result<(), Box<dyn std::error::Error>> {
    /// let alice = LongTermCredentials::new("alice".to_string(), "wonderland".to_string());
    /// let mut server = LongTermServerAuth::new("example.org".to_string());
    /// server.add_supported_integrity(IntegrityAlgorithm::Sha256);
    /// server.add_user(alice.clone());
    /// // derive yours from a secret, address and time
    /// let nonce = server.nonce_of_words(&[7; 16]);
    ///
    /// let mut client = LongTermClientAuth::new();
    /// client.add_supported_integrity(IntegrityAlgorithm::Sha256);
    /// client.set_credentials(alice);
    /// let id = TransactionId::from(*b"any 12 bytes"); // yours must be unpredictable
    /// let request = Message::builder_request_with_id(BINDING, id, MessageWriteVec::new());
    /// let request = request.finish();
    /// let request = Message::from_bytes(&request)?;
    /// assert!(server.judge(&request, &nonce).is_err());
    ///
    /// let mut challenge = Message::builder_error(&request, MessageWriteVec::new());
    /// challenge.add_error_code(401, "Unauthenticated")?;
    /// let challenge = server.add_challenge(challenge, &nonce)?.finish();
    /// client.validate_incoming_message(&Message::from_bytes(&challenge)?)?;
    ///
    /// let id = TransactionId::from(*b"other 12 ids"); // a new one for each request
    /// let request = Message::builder_request_with_id(BINDING, id, MessageWriteVec::new());
    /// let request = client.sign_outgoing_message(request)?.finish();
    /// let request = Message::from_bytes(&request)?;
    /// let accepted = server.judge(&request, &nonce).map_err(|_| "refused")?;
    /// assert_eq!(accepted.name(), "alice");
    /// assert_eq!(accepted.algorithm(), IntegrityAlgorithm::Sha256);
    ///
    /// let mut success = Message::builder_success(&request, MessageWriteVec::new());
    /// let (key, algorithm) = (accepted.key(), accepted.algorithm()); // for later
    /// success.add_message_integrity_with_prepared_key(&key, algorithm)?;
    /// client.validate_incoming_message(&Message::from_bytes(&success.finish())?)?;
    /// assert_eq!(server.address_count(), 0);
    /// # Ok(())
    /// # }
    /// ```
    pub fn add_challenge<W: MessageWrite>(
        &self,
        message: W,
        nonce: &str,
    ) -> Result<W, StunWriteError> {
        let realm = self.proved.as_realm();
        realm.add_challenge(with_header(message)?, nonce)
    }

    /// Judges a message like a server whose only user is `user`, with random numbers from your own
    /// generator: `fill` fills a slice with random bytes, for example `|bytes|
    /// rng.fill_bytes(bytes)`.
    ///
    /// The server's own users are ignored. If `user` is the user whom
    /// [`named_user`](Self::named_user) returned, the verdict is the same as that of a server with
    /// all your users. If your database has no such user, call
    /// [`validate_incoming_message_with_rng`](Self::validate_incoming_message_with_rng) on a server
    /// without users.
    ///
    /// # Errors
    ///
    /// See `validate_incoming_message`, which lists every reason with the response to send.
    pub fn validate_incoming_message_of_with_rng(
        &mut self,
        message: &Message<'_>,
        from: SocketAddr,
        now: Instant,
        fill: impl FnMut(&mut [u8]),
        user: &mut LongTermServerUser,
    ) -> Result<LongTermServerValidation, LongTermServerAuthError> {
        let mut source = crate::random::for_a_nonce(fill);
        let verdict = self.proved.validate_incoming_message_of(
            &message.0,
            from,
            now,
            &mut source,
            &mut user.proved,
        );
        judged(message, verdict)
    }

    /// Judges a message like a server whose only user is `user`, with sixteen random numbers of
    /// your own.
    ///
    /// The server's own users are ignored. If `user` is the user whom
    /// [`named_user`](Self::named_user) returned, the verdict is the same as that of a server with
    /// all your users. If your database has no such user, call
    /// [`validate_incoming_message_with_words`](Self::validate_incoming_message_with_words) on a
    /// server without users.
    ///
    /// Anybody who can predict the random numbers can predict nonces. They are read only if a nonce
    /// is made. You may pass them again only if no nonce was made (see
    /// [`validate_incoming_message_with_words`](Self::validate_incoming_message_with_words)).
    ///
    /// # Errors
    ///
    /// See `validate_incoming_message`, which lists every reason with the response to send.
    pub fn validate_incoming_message_of_with_words(
        &mut self,
        message: &Message<'_>,
        from: SocketAddr,
        now: Instant,
        words: [u32; 16],
        user: &mut LongTermServerUser,
    ) -> Result<LongTermServerValidation, LongTermServerAuthError> {
        let mut source = WordSource::new(words);
        let verdict = self.proved.validate_incoming_message_of(
            &message.0,
            from,
            now,
            &mut source,
            &mut user.proved,
        );
        judged(message, verdict)
    }

    /// Like [`sign_outgoing_message`](Self::sign_outgoing_message), with the key of `user`.
    ///
    /// Pass the user with whom the request was validated.
    ///
    /// # Errors
    ///
    /// See [`sign_outgoing_message`](Self::sign_outgoing_message). Here
    /// [`StunWriteError::IntegrityFailed`] means that `user` is not the client of the address, or
    /// has no key for its algorithm.
    pub fn sign_outgoing_message_of<W: MessageWrite>(
        &mut self,
        message: W,
        to: SocketAddr,
        user: &mut LongTermServerUser,
    ) -> Result<W, StunWriteError> {
        self.proved
            .sign_outgoing_message_of(with_header(message)?, to, &mut user.proved)
    }
}

/// A user with keys, made by [`LongTermServerAuth::prepare_user`] or
/// [`LongTermServerAuth::prepare_user_with_keys`], to pass to a server with each message.
///
/// # Examples
///
/// A user whose keys are stored in a database in place of the password:
///
/// ```
/// use seatcrane_stun::auth::{
///     LongTermServerAuth, LongTermServerUser, StoredKeys,
/// };
/// use seatcrane_stun::types::message::{IntegrityAlgorithm, long_term_key};
///
/// // Once, when alice chooses a password.
/// let key = long_term_key(
///     IntegrityAlgorithm::Sha1,
///     "alice",
///     "example.org",
///     "wonderland",
/// );
/// let stored: [u8; 16] = key.as_bytes().try_into().unwrap();
///
/// // For each message that names her.
/// let auth = LongTermServerAuth::new("example.org".to_string());
/// let keys = StoredKeys::new().with_sha1(stored);
/// let alice: LongTermServerUser =
///     auth.prepare_user_with_keys("alice".to_string(), keys);
/// ```
pub struct LongTermServerUser {
    proved: ProvedUser,
}

impl LongTermServerUser {
    /// Returns whether this user was prepared for the realm of `server`, and for the algorithms
    /// that the server supports now.
    ///
    /// If so, you can pass the user to the server. If not, prepare the user again, because the
    /// server would judge and sign for the realm and the algorithms that the user was prepared for.
    pub fn belongs_to(&self, server: &LongTermServerAuth) -> bool {
        self.proved.belongs_to(server.proved.as_realm())
    }
}

debug!(LongTermServerUser);
