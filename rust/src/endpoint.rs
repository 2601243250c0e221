//! STUN servers, clients and ICE agents. You own the sockets and the clocks: pass each datagram
//! that arrives to one of these types, and send what it returns.
//!
//! [`Server::receive`] judges a datagram, and returns a response to send, an accepted request that
//! you answer, an indication, a response, or the reason why the datagram is dropped. The server
//! stores nothing about its clients. [`OpenServer`] answers everybody, and [`ShortTermServer`] uses
//! short-term credentials.
//!
//! [`Client::request`] starts a request, [`Client::receive`] judges the datagrams that arrive at
//! the client, and [`Client::poll`] returns the bytes to send, and how requests ended. [`ice`] has
//! the connectivity checks of an ICE agent.
//!
//! # Examples
//!
//! [`Client`] has an example of a client. A server that answers Binding requests of its users:
//!
//! ```no_run
//! use seatcrane_stun::endpoint::{LongTerm, Received, Server, UnixTime, random_seed};
//! use seatcrane_stun::types::message::LongTermCredentials;
//! use std::net::UdpSocket;
//!
//! # fn main() -> Result<(), Box<dyn std::error::Error>> {
//! let secret = random_seed(); // store it, so that a restart loses no client
//! let settings = LongTerm::new("example.org", secret);
//! let server = Server::builder(settings).answer_binding(true).build()?;
//! // keys depend on the realm, so the server makes the table
//! let mut users = server.users();
//! users.add(LongTermCredentials::new("alice".to_string(), "wonderland".to_string()))?;
//!
//! let socket = UdpSocket::bind("0.0.0.0:3478")?;
//! let mut buffer = [0; 2048];
//! loop {
//!     let (length, from) = socket.recv_from(&mut buffer)?;
//!     match server.receive(&buffer[..length], from, UnixTime::now(), &users) {
//!         Received::Answer(answer) => {
//!             drop(socket.send_to(answer.bytes(), answer.to()));
//!         }
//!         Received::Dropped(why) => eprintln!("dropped: {why}"),
//!         // an indication, a response, or a request with another method than Binding
//!         _ => {}
//!     }
//! }
//! # }
//! ```

use crate::exported::stun_client_endpoint::ended;
use crate::exported::stun_endpoint::{received, server as core_server};
use crate::exported::stun_judging::algorithm_set::AlgorithmSet;
use crate::exported::stun_types::message::IntegrityAlgorithm;
use core::fmt;

mod batch;
mod body;
mod client;
mod client_outcomes;
mod client_settings;
#[cfg(feature = "std")]
mod clock;
mod given;
mod indications;
mod open;
mod request_options;
mod server;
mod stream;
mod time_limited;
#[cfg(feature = "tracing")]
pub(crate) mod verdict;

pub mod ice;

pub use crate::exported::stun_endpoint::received::Refusal;
pub use crate::exported::stun_endpoint::server::{
    Cause, DEFAULT_NONCE_LIFETIME, SHORTEST_NONCE_LIFETIME,
};
pub use crate::exported::stun_endpoint::unix_time::UnixTime;
pub use batch::Answers;
pub use body::{AddError, BODY_LIMIT, Body, BodyError};
pub use client::Client;
pub use client_outcomes::{
    Drops, ErrorResponse, Input, Output, Redirect, RequestError, RequestId, Response, StartError,
};
pub use client_settings::{
    ClientBuildError, ClientBuilder, Credentials, Retransmission, Transport,
};
#[cfg(feature = "std")]
#[cfg_attr(docsrs, doc(cfg(feature = "std")))]
pub use clock::Clock;
pub use open::{
    OpenReceived, OpenRequest, OpenServer, ResponseSettings, ShortTermIndication, ShortTermReceived,
    ShortTermServer, ShortTermUsers,
};
pub(crate) use server::lent;
pub use request_options::RequestOptions;
pub use server::{
    Answer, Identified, LongTerm, Lookup, OwnedLookup, Received, Reply, ReplyWriter, Request,
    Server, ServerBuilder, User, UserError, Users,
};
pub use stream::{FrameBuffer, StreamError};
pub use time_limited::TimeLimitedUsers;

/// Lists of attribute types to pass to [`ServerBuilder::understands`] and to `understands` of the
/// other builders. [`crate::types`] has the same lists. The types of STUN itself are always
/// understood, so you need not pass them.
pub mod types {
    #[doc(no_inline)]
    pub use crate::types::{ICE, TURN};
}

/// Why a server was not built.
///
/// # Examples
///
/// ```
/// use seatcrane_stun::endpoint::{BuildError, LongTerm, Server};
///
/// # let secret = [1; 32]; // yours must be random
/// let settings = LongTerm::new("example.org", secret).algorithms(&[]);
/// let built = Server::builder(settings).build();
/// assert_eq!(built.err(), Some(BuildError::NoAlgorithm));
/// ```
#[derive(Clone, Copy, Debug, PartialEq, Eq, Hash)]
#[non_exhaustive]
pub enum BuildError {
    /// The realm has more than 763 bytes, so no response could carry it.
    RealmTooLong,
    /// The text of SOFTWARE has more than 763 bytes, so no response could carry it.
    SoftwareTooLong,
    /// The nonce lifetime is less than 30 seconds.
    NonceLifetime,
    /// The list of algorithms is empty.
    NoAlgorithm,
    /// An allocation failed.
    OutOfMemory,
}

impl fmt::Display for BuildError {
    fn fmt(&self, f: &mut fmt::Formatter<'_>) -> fmt::Result {
        f.write_str(match self {
            BuildError::RealmTooLong => "the realm has more than 763 bytes",
            BuildError::SoftwareTooLong => "the text of SOFTWARE has more than 763 bytes",
            BuildError::NonceLifetime => "a nonce lasts for less than 30 seconds",
            BuildError::NoAlgorithm => "the list of algorithms is empty",
            BuildError::OutOfMemory => "out of memory",
        })
    }
}

impl core::error::Error for BuildError {}

impl From<core_server::BuildError> for BuildError {
    fn from(why: core_server::BuildError) -> BuildError {
        match why {
            core_server::BuildError::RealmTooLong => BuildError::RealmTooLong,
            core_server::BuildError::SoftwareTooLong => BuildError::SoftwareTooLong,
            core_server::BuildError::NonceLifetime => BuildError::NonceLifetime,
            core_server::BuildError::OutOfMemory => BuildError::OutOfMemory,
        }
    }
}

/// Returns the set of the algorithms in a list, or `None` if the list is empty.
fn set_of(list: &[IntegrityAlgorithm]) -> Option<AlgorithmSet> {
    let (first, others) = list.split_first()?;
    let set = AlgorithmSet::only(*first);
    Some(others.iter().fold(set, |set, other| set.with(*other)))
}

/// Returns 32 random bytes from the operating system, for the seed of a [`Client`], the secret of a
/// server with [`LongTerm`] credentials, or the password and the tie-breaker of an agent of
/// [`ice`]. Call it once for each of these, because the password, for example, is sent to the peer,
/// who must not learn a seed.
///
/// # Panics
///
/// Panics if the operating system provides no random numbers.
///
/// # Examples
///
/// ```
/// use seatcrane_stun::endpoint::{Client, random_seed};
///
/// # fn main() -> Result<(), Box<dyn std::error::Error>> {
/// let client = Client::builder("192.0.2.1:3478".parse()?).build(random_seed())?;
/// # Ok(())
/// # }
/// ```
#[cfg(feature = "rand")]
#[cfg_attr(docsrs, doc(cfg(feature = "rand")))]
#[must_use]
pub fn random_seed() -> [u8; 32] {
    let mut seed = [0; 32];
    crate::random::system(&mut seed);
    seed
}

impl UnixTime {
    /// Returns the current time, or the beginning of 1970 if the clock is set to an earlier time.
    #[cfg(feature = "std")]
    #[cfg_attr(docsrs, doc(cfg(feature = "std")))]
    #[must_use]
    pub fn now() -> UnixTime {
        UnixTime::at(std::time::SystemTime::now())
    }

    /// Converts a time that you have already read from the system clock to whole seconds since the
    /// beginning of 1970. An earlier time becomes the beginning of 1970.
    ///
    /// # Examples
    ///
    /// ```
    /// use seatcrane_stun::endpoint::UnixTime;
    /// use std::time::{Duration, SystemTime};
    ///
    /// let time = SystemTime::UNIX_EPOCH + Duration::from_millis(1_800_000_000_900);
    /// assert_eq!(UnixTime::at(time).as_secs(), 1_800_000_000);
    /// ```
    #[cfg(feature = "std")]
    #[cfg_attr(docsrs, doc(cfg(feature = "std")))]
    #[must_use]
    pub fn at(time: std::time::SystemTime) -> UnixTime {
        let since = time.duration_since(std::time::UNIX_EPOCH);
        UnixTime::from_secs(since.unwrap_or_default().as_secs())
    }
}

/// Writes the code of the response and its reason phrase, such as `401 Unauthenticated`.
impl fmt::Display for Refusal {
    fn fmt(&self, f: &mut fmt::Formatter<'_>) -> fmt::Result {
        write!(f, "{} {}", self.code(), self.phrase())
    }
}

impl Cause {
    /// All causes, each at its [`index`](Self::index).
    pub const ALL: [Cause; Cause::COUNT] = [
        Cause::NoSignature,
        Cause::Incomplete,
        Cause::OtherAlgorithms,
        Cause::OtherFeatures,
        Cause::StaleNonce,
        Cause::WrongCredentials,
        Cause::UnknownAttribute,
    ];

    /// The number of causes.
    pub const COUNT: usize = 7;

    /// Returns the index of this cause in [`ALL`](Self::ALL), for an array of counters.
    #[must_use]
    pub fn index(self) -> usize {
        self as usize
    }

    /// Returns the name of this variant, such as `StaleNonce`.
    #[must_use]
    pub fn name(self) -> &'static str {
        match self {
            Cause::NoSignature => "NoSignature",
            Cause::Incomplete => "Incomplete",
            Cause::OtherAlgorithms => "OtherAlgorithms",
            Cause::OtherFeatures => "OtherFeatures",
            Cause::StaleNonce => "StaleNonce",
            Cause::WrongCredentials => "WrongCredentials",
            Cause::UnknownAttribute => "UnknownAttribute",
        }
    }
}

impl fmt::Display for Cause {
    fn fmt(&self, f: &mut fmt::Formatter<'_>) -> fmt::Result {
        f.write_str(match self {
            Cause::NoSignature => "the request is not signed",
            Cause::Incomplete => "the realm, the nonce or the user name is missing",
            Cause::OtherAlgorithms => "the password algorithms are not those that were offered",
            Cause::OtherFeatures => "the security bits of the nonce are not the server's",
            Cause::StaleNonce => "the nonce is not valid any more",
            Cause::WrongCredentials => "the user is unknown, or the signature is not the user's",
            Cause::UnknownAttribute => "the request has an attribute that is not understood",
        })
    }
}

/// Why a datagram is dropped.
///
/// The reasons of a [`Client`] name their rows in *The client's rule*, the table in
/// `docs/DIFFERENCES.md` in the repository that says what a client does with each response.
///
/// # Examples
///
/// ```
/// use seatcrane_stun::endpoint::DropReason;
///
/// /// How many datagrams were dropped, for each reason.
/// #[derive(Default)]
/// struct Counters([u64; DropReason::COUNT]);
///
/// impl Counters {
///     fn count(&mut self, why: DropReason) {
///         self.0[why.index()] += 1;
///     }
/// }
/// let mut counters = Counters::default();
/// counters.count(DropReason::Malformed);
/// let names = DropReason::ALL.map(DropReason::name);
/// assert!(
///     names
///         .iter()
///         .zip(counters.0)
///         .any(|(name, count)| *name == "Malformed" && count == 1)
/// );
/// ```
#[derive(Clone, Copy, Debug, PartialEq, Eq, Hash)]
#[non_exhaustive]
pub enum DropReason {
    /// The datagram does not begin with the header of a STUN message.
    NotStun,
    /// The datagram begins with the header of a STUN message, but does not have the length that the
    /// header states, or its attributes do not fill that length exactly.
    Malformed,
    /// The datagram has a FINGERPRINT that is wrong, is not the last attribute, or does not have 4
    /// bytes. So it is damaged, or belongs to another protocol (RFC 8489, section 14.7; row 2).
    WrongFingerprint,
    /// The datagram is an indication with an attribute that must be understood but is not: its type
    /// is neither one of STUN itself, nor one that you passed to
    /// [`understands`](ServerBuilder::understands).
    UnknownAttribute,
    /// The datagram is a response without a valid signature, although it must have one. Or it is a
    /// 401 or a 438 that answers an earlier message of its request, which the client has since
    /// replaced with another message (rows 5 and 11).
    NotVerified,
    /// The datagram is a 401 or a 438 without a valid signature that the client cannot answer, for
    /// one of these reasons:
    ///
    /// - It lacks the realm or the nonce.
    /// - It has no algorithm that the client supports.
    /// - Its nonce does not allow hashed names, although the client must send one.
    ///
    /// Or it is a 401 or a 438, signed or not, whose list of algorithms is so long that the request
    /// would not fit in a message (row 6).
    UnanswerableChallenge,
    /// The datagram is a 401 or a 438 that is weaker than an earlier challenge for which a signed
    /// request has succeeded. It offers only a weaker algorithm, or it does not allow hashed names
    /// although the earlier challenge did (row 8).
    WeakerChallenge,
    /// An allocation failed, or a client has no transaction ID left for another message of a
    /// request. The client continues to retransmit the request until it times out (row 15).
    OutOfMemory,
    /// The datagram has no FINGERPRINT, although the settings require one (RFC 8489, section 7.3;
    /// row 2).
    MissingFingerprint,
    /// The datagram is a 401 or a 438 that arrived after the end of the first plan of its request,
    /// which is 39.5 seconds after the start of the request by default (see [`Retransmission`]).
    /// The client no longer answers challenges to this request, so that the request ends within two
    /// plans (row 13).
    LateChallenge,
    /// The datagram repeats the challenge for which the current message of the request is signed,
    /// so the server may have refused this message. The client retransmits the message when its
    /// timer fires, and the request may end if the challenge arrives again after that (row 9).
    Refused,
    /// The datagram is a request or an indication with a method that you do not serve
    /// ([`ServerBuilder::methods`], [`ResponseSettings::methods`]; RFC 8489, section 6.3).
    OtherMethod,
    /// The datagram is an indication without MESSAGE-INTEGRITY and MESSAGE-INTEGRITY-SHA256, or
    /// without USERNAME before these, at a [`ShortTermServer`]. A request with the same attributes
    /// would get a 400.
    UnsignedIndication,
    /// The datagram is an indication that no user has signed, at a [`ShortTermServer`]: USERNAME is
    /// not the name of a user, or the signature is not made with the user's password. A request
    /// with the same attributes would get a 401.
    UnauthenticatedIndication,
    /// The [`Users`] or the [`User`] that the call was passed are of a realm with another name than
    /// the server's, and their keys depend on that name. So that you notice the mistake, the server
    /// drops every datagram that it is passed with them, except for unsigned Binding requests if it
    /// answers these without users ([`open_binding`](ServerBuilder::open_binding)).
    OtherRealm,
}

impl DropReason {
    /// All reasons, each at its [`index`](Self::index).
    pub const ALL: [DropReason; DropReason::COUNT] = [
        DropReason::NotStun,
        DropReason::Malformed,
        DropReason::WrongFingerprint,
        DropReason::UnknownAttribute,
        DropReason::NotVerified,
        DropReason::UnanswerableChallenge,
        DropReason::WeakerChallenge,
        DropReason::OutOfMemory,
        DropReason::MissingFingerprint,
        DropReason::LateChallenge,
        DropReason::Refused,
        DropReason::OtherMethod,
        DropReason::UnsignedIndication,
        DropReason::UnauthenticatedIndication,
        DropReason::OtherRealm,
    ];

    /// The number of reasons.
    pub const COUNT: usize = 15;

    /// Returns the index of this reason in [`ALL`](Self::ALL), for an array of counters.
    #[must_use]
    pub fn index(self) -> usize {
        self as usize
    }

    /// Returns the name of this variant, such as `Malformed`.
    #[must_use]
    pub fn name(self) -> &'static str {
        match self {
            DropReason::NotStun => "NotStun",
            DropReason::Malformed => "Malformed",
            DropReason::WrongFingerprint => "WrongFingerprint",
            DropReason::UnknownAttribute => "UnknownAttribute",
            DropReason::NotVerified => "NotVerified",
            DropReason::UnanswerableChallenge => "UnanswerableChallenge",
            DropReason::WeakerChallenge => "WeakerChallenge",
            DropReason::OutOfMemory => "OutOfMemory",
            DropReason::MissingFingerprint => "MissingFingerprint",
            DropReason::LateChallenge => "LateChallenge",
            DropReason::Refused => "Refused",
            DropReason::OtherMethod => "OtherMethod",
            DropReason::UnsignedIndication => "UnsignedIndication",
            DropReason::UnauthenticatedIndication => "UnauthenticatedIndication",
            DropReason::OtherRealm => "OtherRealm",
        }
    }
}

impl fmt::Display for DropReason {
    fn fmt(&self, f: &mut fmt::Formatter<'_>) -> fmt::Result {
        f.write_str(match self {
            DropReason::NotStun => "the datagram has no STUN header",
            DropReason::Malformed => "the message is not what its header says",
            DropReason::WrongFingerprint => "the FINGERPRINT is wrong",
            DropReason::UnknownAttribute => "an indication has an attribute that is not understood",
            DropReason::NotVerified => "it is not signed as its request is",
            DropReason::UnanswerableChallenge => "its challenge cannot be answered",
            DropReason::WeakerChallenge => "its challenge asks for less than one before",
            DropReason::OutOfMemory => "an allocation failed",
            DropReason::MissingFingerprint => "the FINGERPRINT is missing",
            DropReason::LateChallenge => "its challenge arrived too late",
            DropReason::Refused => "it repeats the challenge for which its request is signed",
            DropReason::OtherMethod => "its method is not served",
            DropReason::UnsignedIndication => "an indication is not signed, or names no user",
            DropReason::UnauthenticatedIndication => "an indication is not signed by a user",
            DropReason::OtherRealm => "the users are of another realm than the server",
        })
    }
}

impl From<received::DropReason> for DropReason {
    fn from(why: received::DropReason) -> DropReason {
        match why {
            received::DropReason::NotStun => DropReason::NotStun,
            received::DropReason::Malformed => DropReason::Malformed,
            received::DropReason::WrongFingerprint => DropReason::WrongFingerprint,
            received::DropReason::MissingFingerprint => DropReason::MissingFingerprint,
            received::DropReason::UnknownAttribute => DropReason::UnknownAttribute,
            received::DropReason::OtherRealm => DropReason::OtherRealm,
            received::DropReason::NotSigned(Refusal::BadRequest) => DropReason::UnsignedIndication,
            received::DropReason::NotSigned(_) => DropReason::UnauthenticatedIndication,
        }
    }
}

impl From<ended::DropReason> for DropReason {
    fn from(why: ended::DropReason) -> DropReason {
        match why {
            ended::DropReason::WrongFingerprint => DropReason::WrongFingerprint,
            ended::DropReason::MissingFingerprint => DropReason::MissingFingerprint,
            ended::DropReason::NotVerified => DropReason::NotVerified,
            ended::DropReason::UnanswerableChallenge => DropReason::UnanswerableChallenge,
            ended::DropReason::WeakerChallenge => DropReason::WeakerChallenge,
            ended::DropReason::OutOfMemory => DropReason::OutOfMemory,
            ended::DropReason::LateChallenge => DropReason::LateChallenge,
            ended::DropReason::Refused => DropReason::Refused,
        }
    }
}
