//! The settings of a client.

use super::client::Client;
use super::indications::Indications;
use super::set_of;
use crate::attributes::TYPES;
use crate::copies::{granted, text};
use crate::credentials::{LongTermCredentials, ShortTermCredentials};
use crate::exported::stun_agent::agent::RequestRto;
use crate::exported::stun_client::credentials as core_credentials;
use crate::exported::stun_client::preferences::Preferences;
use crate::exported::stun_client_endpoint::form::Form;
use crate::exported::stun_client_endpoint::settings::{Settings, SettingsError, settings_refusal};
use crate::exported::stun_judging::algorithm_set::AlgorithmSet;
use crate::exported::stun_judging::feature::Feature;
use crate::exported::stun_types::attribute::AttributeType;
use crate::exported::stun_types::message::IntegrityAlgorithm;
use crate::kit::alloc::Global;
use crate::kit::prelude::Vec as KitVec;
use crate::ported::STUN;
use crate::types::TransportType;
use alloc::string::String;
use alloc::vec::Vec;
use core::fmt;
use core::net::SocketAddr;
use core::time::Duration;

/// The credentials with which a client signs its requests and verifies the responses.
///
/// # Examples
///
/// ```
/// use seatcrane_stun::endpoint::{Client, Credentials};
///
/// # let (server, seed) = ("192.0.2.1:3478".parse()?, [7; 32]);
/// let alice = Credentials::long_term("alice", "wonderland");
/// let client = Client::builder(server).credentials(alice).build(seed)?;
/// # Ok::<(), Box<dyn std::error::Error>>(())
/// ```
#[must_use]
#[derive(Clone)]
pub struct Credentials(Kind);

#[derive(Clone)]
enum Kind {
    None,
    Short(String, ShortTermCredentials, IntegrityAlgorithm),
    Long(LongTermCredentials),
}

impl fmt::Debug for Credentials {
    fn fmt(&self, f: &mut fmt::Formatter<'_>) -> fmt::Result {
        f.write_str("Credentials { .. }")
    }
}

impl Credentials {
    /// Creates credentials that sign no request.
    pub fn none() -> Credentials {
        Credentials(Kind::None)
    }

    /// Creates short-term credentials: each request is signed with this password and algorithm, and
    /// only responses that are signed with this password and algorithm are accepted (RFC 8489,
    /// section 9.1).
    ///
    /// If the name or the password is wrong, the server answers with a 401 that is not signed. The
    /// client drops it ([`NotVerified`](super::DropReason::NotVerified)), because anybody could
    /// have sent it, and the request ends as [`TimedOut`](super::RequestError::TimedOut), with 401
    /// as [`Drops::code`](super::Drops::code).
    ///
    /// # Examples
    ///
    /// ```
    /// use seatcrane_stun::endpoint::{Client, Credentials, RequestError, Response};
    /// use seatcrane_stun::types::message::IntegrityAlgorithm::Sha256;
    ///
    /// # let (server, seed) = ("192.0.2.1:3478".parse()?, [7; 32]);
    /// let alice = Credentials::short_term("alice", "wonderland", Sha256);
    /// let client = Client::builder(server).credentials(alice).build(seed)?;
    ///
    /// /// Describes how a request of this client ended.
    /// fn describe(result: &Result<Response, RequestError>) -> String {
    ///     match result {
    ///         Ok(response) => format!("{:?}", response.message()),
    ///         Err(RequestError::TimedOut(drops)) if drops.code() == Some(401) => {
    ///             "wrong name or password?".into()
    ///         }
    ///         Err(error) => error.to_string(),
    ///     }
    /// }
    /// # assert_eq!(describe(&Err(RequestError::Cancelled)), "cancelled");
    /// # Ok::<(), Box<dyn std::error::Error>>(())
    /// ```
    pub fn short_term(
        name: impl Into<String>,
        password: impl Into<String>,
        algorithm: IntegrityAlgorithm,
    ) -> Credentials {
        let password = ShortTermCredentials::new(password.into());
        Credentials(Kind::Short(name.into(), password, algorithm))
    }

    /// Creates long-term credentials: requests are signed after the server has challenged the
    /// client (RFC 8489, section 9.2).
    pub fn long_term(name: impl Into<String>, password: impl Into<String>) -> Credentials {
        Credentials(Kind::Long(LongTermCredentials::new(
            name.into(),
            password.into(),
        )))
    }

    /// Converts the credentials to those of the core.
    fn core(
        self,
        preferences: Preferences,
        accepts_unsigned: bool,
    ) -> core_credentials::Credentials<Global> {
        match self.0 {
            Kind::None => core_credentials::Credentials::Unsigned,
            Kind::Short(name, password, algorithm) => {
                let (name, password) = (text(name), password.password());
                granted(core_credentials::Credentials::short_term(
                    Global, name, password, algorithm,
                ))
            }
            Kind::Long(user) => {
                core_credentials::Credentials::LongTerm(core_credentials::LongTerm {
                    user: user.0,
                    preferences,
                    accepts_unsigned,
                })
            }
        }
    }
}

/// The plan of a message: when it is sent, and how long the client waits for its response (RFC
/// 8489, section 6.2.1). A plan takes 39.5 seconds by default.
///
/// A message that answers a challenge has a plan of its own. But after the plan of the first
/// message, the client answers no more challenges to the request
/// ([`LateChallenge`](super::DropReason::LateChallenge)), and sends no message of the request
/// again. So each request ends at the latest at the first [`poll`](super::Client::poll) after two
/// plans, 79 seconds by default.
///
/// # Examples
///
/// ```
/// use seatcrane_stun::endpoint::Retransmission;
/// use std::time::Duration;
///
/// let ms = Duration::from_millis;
/// // Three transmissions, at 0, 200 and 600 ms; the request ends 800 ms after the last.
/// let hurried = Retransmission::new(ms(200), Duration::MAX, 3, ms(800));
/// assert_ne!(hurried, Retransmission::default());
/// ```
#[must_use]
#[derive(Clone, Copy, Debug, PartialEq, Eq, Hash)]
pub struct Retransmission {
    first: Duration,
    most: Duration,
    sends: u32,
    last: Duration,
}

impl Retransmission {
    /// Returns a plan.
    ///
    /// - `first`: the time between the first and the second transmission (RTO, at least 500 ms by
    ///   RFC 8489). The time after each further transmission is twice the time before.
    /// - `most`: an upper bound on these times. `Duration::MAX` means no bound.
    /// - `sends`: how often a message is sent in total, the first time included (Rc). 0 counts as
    ///   1.
    /// - `last`: the time from the last transmission to the end of the request (Rm times RTO). It
    ///   does not depend on `first`.
    ///
    /// Each of the three times is at least 1 ms: a shorter one counts as 1 ms, so that the client
    /// waits after each transmission, even if all times are zero.
    ///
    /// The default is 500 ms, no bound, 7 transmissions and 8 s (RFC 8489, section 6.2.1): the
    /// message is sent after 0, 0.5, 1.5, 3.5, 7.5, 15.5 and 31.5 s, and the request ends after
    /// 39.5 s.
    pub fn new(first: Duration, most: Duration, sends: u32, last: Duration) -> Retransmission {
        let shortest = Duration::from_millis(1);
        Retransmission {
            first: first.max(shortest),
            most: most.max(shortest),
            sends,
            last: last.max(shortest),
        }
    }

    /// Returns the arguments of [`new`](Self::new).
    pub(super) fn parts(self) -> (Duration, Duration, u32, Duration) {
        (self.first, self.most, self.sends, self.last)
    }

    /// Converts the plan to that of the core.
    pub(super) fn timeouts(self) -> RequestRto {
        RequestRto {
            initial: self.first,
            max: self.most,
            retransmits: self.sends,
            last_retransmit: self.last,
        }
    }
}

impl Default for Retransmission {
    /// Returns the plan of 500 ms, no bound, 7 transmissions and 8 s.
    fn default() -> Retransmission {
        let [first, last] = [500, 8000].map(Duration::from_millis);
        Retransmission::new(first, Duration::MAX, 7, last)
    }
}

/// The kind of transport that carries the messages of a client.
///
/// # Examples
///
/// ```
/// use seatcrane_stun::endpoint::{Client, FrameBuffer, Transport};
///
/// # let (server, seed) = ("192.0.2.1:3478".parse()?, [7; 32]);
/// // Over TCP. What is read goes through the buffer, and each message to
/// // `Client::receive`.
/// let client =
///     Client::builder(server).transport(Transport::Stream).build(seed)?;
/// let buffer = FrameBuffer::new();
/// # Ok::<(), Box<dyn std::error::Error>>(())
/// ```
#[derive(Clone, Copy, Debug, PartialEq, Eq, Hash, Default)]
#[non_exhaustive]
pub enum Transport {
    /// Datagrams, which may be lost: a request is retransmitted until it is answered, up to seven
    /// times in total by default ([`ClientBuilder::retransmission`]).
    #[default]
    Datagram,
    /// A stream: a request is sent once, and the client waits for its response as long as it would
    /// wait with datagrams (39.5 seconds by default; see [`Retransmission`]).
    Stream,
}

/// Builds a [`Client`]. All calls except [`build`](Self::build) are optional.
///
/// # Examples
///
/// ```
/// use seatcrane_stun::endpoint::{Client, ClientBuildError, Credentials};
///
/// # let (server, seed) = ("192.0.2.1:3478".parse().unwrap(), [7; 32]);
/// let client = Client::builder(server)
///     .credentials(Credentials::long_term("alice", "wonderland"))
///     .software("example 1.0")
///     .fingerprint(true)
///     .build(seed)?;
/// # Ok::<(), ClientBuildError>(())
/// ```
#[must_use = "a client is made by `build`"]
#[derive(Clone, Debug)]
pub struct ClientBuilder {
    server: SocketAddr,
    transport: Transport,
    credentials: Credentials,
    /// `None` stands for an empty list, with which no client is built.
    algorithms: Option<AlgorithmSet>,
    anonymous_username: Feature,
    plan: Retransmission,
    challenges: u32,
    accepts_unsigned: bool,
    understood: Vec<AttributeType>,
    software: Option<String>,
    has_fingerprint: bool,
    requires_fingerprint: bool,
}

/// Why a client was not built.
///
/// # Examples
///
/// ```
/// use seatcrane_stun::endpoint::{Client, ClientBuildError};
///
/// # let (server, seed) = ("192.0.2.1:3478".parse().unwrap(), [7; 32]);
/// let built = Client::builder(server).algorithms(&[]).build(seed);
/// assert_eq!(built.err(), Some(ClientBuildError::NoAlgorithm));
/// ```
#[derive(Clone, Copy, Debug, PartialEq, Eq, Hash)]
#[non_exhaustive]
pub enum ClientBuildError {
    /// The user name has more than 513 bytes.
    NameTooLong,
    /// The text of SOFTWARE has more than 763 bytes.
    SoftwareTooLong,
    /// The list of algorithms is empty.
    NoAlgorithm,
}

impl fmt::Display for ClientBuildError {
    fn fmt(&self, f: &mut fmt::Formatter<'_>) -> fmt::Result {
        f.write_str(match self {
            ClientBuildError::NameTooLong => "the user name has more than 513 bytes",
            ClientBuildError::SoftwareTooLong => "the text of SOFTWARE has more than 763 bytes",
            ClientBuildError::NoAlgorithm => "the list of algorithms is empty",
        })
    }
}

impl core::error::Error for ClientBuildError {}

impl From<SettingsError> for ClientBuildError {
    fn from(why: SettingsError) -> ClientBuildError {
        match why {
            SettingsError::NameTooLong => ClientBuildError::NameTooLong,
            SettingsError::SoftwareTooLong => ClientBuildError::SoftwareTooLong,
        }
    }
}

impl ClientBuilder {
    pub(super) fn new(server: SocketAddr) -> ClientBuilder {
        ClientBuilder {
            server,
            transport: Transport::Datagram,
            credentials: Credentials::none(),
            algorithms: Some(AlgorithmSet::Both),
            anonymous_username: Feature::Auto,
            plan: Retransmission::default(),
            challenges: 6,
            accepts_unsigned: false,
            understood: understood(),
            software: None,
            has_fingerprint: false,
            requires_fingerprint: false,
        }
    }

    /// Sets the credentials. Without them requests are not signed.
    pub fn credentials(mut self, credentials: Credentials) -> ClientBuilder {
        self.credentials = credentials;
        self
    }

    /// Sets the transport of the messages: datagrams by default.
    pub fn transport(mut self, transport: Transport) -> ClientBuilder {
        self.transport = transport;
        self
    }

    /// Sets the algorithms that long-term credentials may use. By default they may use both.
    pub fn algorithms(mut self, list: &[IntegrityAlgorithm]) -> ClientBuilder {
        self.algorithms = set_of(list);
        self
    }

    /// Sets whether a hash is sent in place of the user name. By default the hash is sent if the
    /// server allows hashes.
    pub fn anonymous_username(mut self, feature: Feature) -> ClientBuilder {
        self.anonymous_username = feature;
        self
    }

    /// Sets when each message is retransmitted, and when a request without a response ends.
    pub fn retransmission(mut self, plan: Retransmission) -> ClientBuilder {
        self.plan = plan;
        self
    }

    /// Sets how often another message of a request may take the place of the current one: 6 times
    /// by default. After that, the next challenge ends the request: with
    /// [`RequestError::Unauthorized`](super::RequestError::Unauthorized) if the challenge is a 401
    /// that answers a signed message, and otherwise with
    /// [`RequestError::TooManyChallenges`](super::RequestError::TooManyChallenges). A restart of
    /// the server, a new address of the client, an expired nonce, a forged challenge, and an
    /// unsigned error 400, 437 or 441 each count as one replacement.
    ///
    /// A wrong password ends a request earlier: when the server refuses the current message again
    /// after its retransmission (over a stream, at the first refusal), or when it sends the third
    /// 401 with the same realm but a new nonce.
    pub fn challenges(mut self, most: u32) -> ClientBuilder {
        self.challenges = most;
        self
    }

    /// Sets whether the client accepts unsigned responses to requests that it sent unsigned. By
    /// default it does not. Only long-term credentials use this setting: without credentials
    /// unsigned responses are always accepted, and with short-term credentials never.
    ///
    /// A request is unsigned until it is challenged, and new requests are unsigned again after a
    /// challenged request timed out. After an unsigned error 400, 437 or 441, the client may send
    /// an unsigned message in place of a signed one. While the message of a request is unsigned, an
    /// attacker who can read and forge messages can also forge its response.
    pub fn accept_unsigned(mut self, accepts: bool) -> ClientBuilder {
        self.accepts_unsigned = accepts;
        self
    }

    /// Adds types of attributes that you understand in responses, in addition to those that this
    /// crate can read.
    pub fn understands(mut self, types: &[AttributeType]) -> ClientBuilder {
        self.understood.extend_from_slice(types);
        self
    }

    /// Sets the text of SOFTWARE in each request.
    pub fn software(mut self, text: impl Into<String>) -> ClientBuilder {
        self.software = Some(text.into());
        self
    }

    /// Sets whether each request has FINGERPRINT. By default it has none.
    pub fn fingerprint(mut self, has_one: bool) -> ClientBuilder {
        self.has_fingerprint = has_one;
        self
    }

    /// Sets whether responses without FINGERPRINT are dropped (RFC 8489, section 7.3). By default
    /// they are not. A response whose FINGERPRINT is wrong, is not the last attribute or does not
    /// have 4 bytes is always dropped. Call this only if your protocol requires FINGERPRINT,
    /// because the client then drops all responses of a server that sends none, and the requests
    /// time out.
    pub fn require_fingerprint(mut self, required: bool) -> ClientBuilder {
        self.requires_fingerprint = required;
        self
    }

    /// Builds the client.
    ///
    /// `seed` must be 32 random bytes that are used for this client alone, such as
    /// [`random_seed`](super::random_seed) returns, because the transaction IDs are derived from
    /// the seed. An attacker who can guess these IDs can forge responses to unsigned requests. No
    /// call detects bytes that are not random, or that another client has.
    ///
    /// # Errors
    ///
    /// Returns the first of these errors that applies:
    ///
    /// - [`ClientBuildError::NameTooLong`]: the user name has more than 513 bytes.
    /// - [`ClientBuildError::SoftwareTooLong`]: the text of SOFTWARE has more than 763 bytes.
    /// - [`ClientBuildError::NoAlgorithm`]: the list of algorithms is empty.
    pub fn build(self, seed: [u8; 32]) -> Result<Client, ClientBuildError> {
        let name = match &self.credentials.0 {
            Kind::None => "",
            Kind::Short(name, ..) => name,
            Kind::Long(user) => user.username(),
        };
        let software = self.software.as_deref().unwrap_or("");
        if let Some(why) = settings_refusal(name, software) {
            return Err(why.into());
        }
        let preferences = Preferences {
            algorithms: self.algorithms.ok_or(ClientBuildError::NoAlgorithm)?,
            anonymous_username: self.anonymous_username,
        };
        let timeouts = self.plan.timeouts();
        let indications = self.indications(seed);
        let credentials = self.credentials.core(preferences, self.accepts_unsigned);
        let understood = granted(KitVec::from_slice(Global, &self.understood));
        let settings = Settings {
            form: Form::new(self.software.map(text), self.has_fingerprint),
            requires_fingerprint: self.requires_fingerprint,
            understood,
            challenges: self.challenges,
            timeouts,
        };
        Ok(Client::new(
            self.transport.core(),
            self.server,
            credentials,
            settings,
            indications,
            &seed,
        ))
    }

    /// Returns the settings with which the client writes its indications.
    fn indications(&self, seed: [u8; 32]) -> Indications {
        Indications {
            seed,
            next: 0,
            software: self.software.clone(),
            has_fingerprint: self.has_fingerprint,
            signer: match &self.credentials.0 {
                Kind::Short(name, password, algorithm) => {
                    Some((name.clone(), password.password().into(), *algorithm))
                }
                Kind::None | Kind::Long(_) => None,
            },
        }
    }
}

impl Transport {
    fn core(self) -> TransportType {
        match self {
            Transport::Datagram => TransportType::Udp,
            Transport::Stream => TransportType::Tcp,
        }
    }
}

/// Returns the types that this crate can read and that must be understood, which are those below
/// 0x8000.
fn understood() -> Vec<AttributeType> {
    let further = TYPES.iter().filter(|kind| kind.comprehension_required());
    let further = further.filter(|kind| !STUN.contains(kind));
    STUN.iter().chain(further).copied().collect()
}
