//! A server with long-term credentials.

use super::given::{Given, text_of};
use super::open::ResponseSettings;
use super::{BuildError, Cause, DEFAULT_NONCE_LIFETIME, DropReason, Refusal, UnixTime, set_of};
use crate::copies::{copy, granted, text};
use crate::credentials::{LongTermCredentials, long_term_key};
use crate::exported::stun_attributes as further;
use crate::exported::stun_base::attribute_type::AttributeType;
use crate::exported::stun_buffer::writer::BufferWriter;
use crate::exported::stun_endpoint::{buffered, lookup, open, received, reply, server, users};
use crate::exported::stun_extra::canonical_address::canonical;
use crate::exported::stun_judging::algorithm_set::AlgorithmSet;
use crate::exported::stun_judging::named_user::NamedUser;
use crate::exported::stun_judging::realm::Realm;
use crate::exported::stun_judging::stored_keys::StoredKeys;
use crate::exported::stun_judging::user::LongTermServerUser;
use crate::exported::stun_types::attribute::{
    Attribute, ErrorCode, RawAttribute, XorMappedAddress,
};
use crate::exported::stun_types::message::{
    BINDING, IntegrityAlgorithm, MessageClass, Method, StunWriteError, deciding_algorithm,
};
use crate::exported::stun_types::prelude::{MessageWrite, MessageWriteExt as Proved};
use crate::extra::reason_phrase;
use crate::kit::alloc::{AllocError, Global};
use crate::kit::prelude::{String as KitString, Vec as KitVec};
use crate::message::{Message, MessageHeader};
use crate::trace::record;
use crate::transaction::TransactionId;
use crate::write::check_appended;
use alloc::string::String;
use alloc::sync::Arc;
use alloc::vec::Vec;
use core::fmt;
use core::net::SocketAddr;

/// The settings of a server with long-term credentials (RFC 8489, section 9.2). By default the
/// server supports both algorithms, accepts hashed names, and has a nonce lifetime of one hour.
///
/// `secret` is 32 random bytes. Anybody who has it can make nonces that the server accepts. Servers
/// accept each other's nonces if they have the same secret, algorithms, `user_hashes` and nonce
/// lifetime, except that a server refuses a nonce from a period that has not begun on its own
/// clock. If the clocks differ by less than a nonce lifetime, the client then gets a 438, and
/// continues with the nonce in that 438. A server that starts again with the same secret serves its
/// old clients at once.
///
/// # Examples
///
/// ```
/// use seatcrane_stun::endpoint::{LongTerm, Server};
/// use seatcrane_stun::types::message::IntegrityAlgorithm::Sha256;
///
/// # let (secret, last) = ([1; 32], [2; 32]); // yours must be random
/// let settings = LongTerm::new("example.org", secret)
///     .previous_secret(last)
///     .algorithms(&[Sha256])
///     .nonce_lifetime(600);
/// let server = Server::builder(settings).build()?;
/// # Ok::<(), seatcrane_stun::endpoint::BuildError>(())
/// ```
#[must_use = "settings are passed to `Server::builder`"]
#[derive(Clone)]
pub struct LongTerm {
    realm: String,
    secret: [u8; 32],
    previous: Option<[u8; 32]>,
    /// `None` stands for an empty list, with which no server is built.
    algorithms: Option<AlgorithmSet>,
    user_hashes: bool,
    nonce_lifetime: u64,
    open_binding: bool,
}

/// Shows the realm, but not the secrets.
impl fmt::Debug for LongTerm {
    fn fmt(&self, f: &mut fmt::Formatter<'_>) -> fmt::Result {
        let mut shown = f.debug_struct("LongTerm");
        shown.field("realm", &self.realm).finish_non_exhaustive()
    }
}

impl LongTerm {
    /// Returns the settings of a server for this realm, with this secret.
    ///
    /// `secret` must be 32 random bytes, such as [`random_seed`](super::random_seed) returns. No
    /// call detects bytes that are not random.
    pub fn new(realm: impl Into<String>, secret: [u8; 32]) -> LongTerm {
        LongTerm {
            realm: realm.into(),
            secret,
            previous: None,
            algorithms: Some(AlgorithmSet::Both),
            user_hashes: true,
            nonce_lifetime: DEFAULT_NONCE_LIFETIME,
            open_binding: false,
        }
    }

    /// Sets a second secret: nonces that were made from it are accepted too, but the server never
    /// sends one. When you change the secret, pass the old secret to this call, and remove the call
    /// two nonce lifetimes later.
    pub fn previous_secret(mut self, secret: [u8; 32]) -> LongTerm {
        self.previous = Some(secret);
        self
    }

    /// Sets the supported algorithms. By default both are supported.
    ///
    /// If you change them, the users and the secret stay. Nonces depend on the algorithms, so each
    /// client then gets one 401 or 438, and signs its request again for the new settings. A server
    /// that supports only HMAC-SHA1 offers no list of algorithms, and refuses a signed request that
    /// has one.
    ///
    /// If you remove HMAC-SHA256, a client of this library that has succeeded with it drops these
    /// challenges ([`WeakerChallenge`](super::DropReason::WeakerChallenge)), because an attacker
    /// may have forged them. Its next request times out, after 39.5 seconds by default, and the
    /// request after that succeeds. Requests that the client starts in the meantime may time out
    /// too.
    pub fn algorithms(mut self, algorithms: &[IntegrityAlgorithm]) -> LongTerm {
        self.algorithms = set_of(algorithms);
        self
    }

    /// Sets whether clients may send a hash in place of a name (RFC 8489, section 14.4). By default
    /// they may.
    ///
    /// If you change this setting, the users and the secret stay. Nonces depend on this setting, so
    /// each client then gets one 401 or 438, and signs its request again. But if you forbid hashes,
    /// a client of this library that has succeeded with a hash drops these challenges, and its next
    /// request times out, as after the removal of HMAC-SHA256 from the
    /// [`algorithms`](Self::algorithms).
    pub fn user_hashes(mut self, allowed: bool) -> LongTerm {
        self.user_hashes = allowed;
        self
    }

    /// Sets the nonce lifetime: the number of seconds for which the server sends the same nonce to
    /// a client. After it is sent, a nonce is accepted for one to two lifetimes. By default it is
    /// [`DEFAULT_NONCE_LIFETIME`](super::DEFAULT_NONCE_LIFETIME), an hour.
    pub fn nonce_lifetime(mut self, seconds: u64) -> LongTerm {
        self.nonce_lifetime = seconds;
        self
    }

    /// Sets whether the server answers unsigned Binding requests, as TURN servers do. By default it
    /// challenges them. The response is not signed, and is the same as that of an
    /// [`OpenServer`](super::OpenServer) that answers Binding requests. A signed Binding request is
    /// judged like any other request.
    ///
    /// A [`Client`](super::Client) with credentials sends its first request unsigned, and drops a
    /// response to it that is not signed ([`NotVerified`](super::DropReason::NotVerified)). So at
    /// such a server its Binding request is answered each time it is sent, and still ends as
    /// [`TimedOut`](super::RequestError::TimedOut), by default after 39.5 s. Send the Binding
    /// request of such a client with
    /// [`RequestOptions::unsigned`](super::RequestOptions::unsigned): the client then accepts the
    /// unsigned response.
    ///
    /// # Examples
    ///
    /// ```
    /// use seatcrane_stun::endpoint::{LongTerm, Received, Server, UnixTime};
    /// use seatcrane_stun::types::message::Message;
    ///
    /// # let secret = [1; 32]; // yours must be random
    /// let settings = LongTerm::new("example.org", secret).open_binding(true);
    /// let server = Server::builder(settings).build()?;
    /// let (users, from) = (server.users(), "192.0.2.1:4242".parse()?);
    ///
    /// let binding = b"\0\x01\0\0\x21\x12\xa4\x42 any 12 byte";
    /// match server.receive(binding, from, UnixTime::now(), &users) {
    ///     Received::Answer(answer) => {
    ///         assert_eq!(Message::from_bytes(answer.bytes())?.xor_mapped_address()?, from);
    ///     }
    ///     other => panic!("{other:?}"),
    /// }
    /// # Ok::<(), Box<dyn std::error::Error>>(())
    /// ```
    pub fn open_binding(mut self, is_open: bool) -> LongTerm {
        self.open_binding = is_open;
        self
    }
}

/// Builds a [`Server`] step by step. [`Server::new`] builds a server with the same settings in one
/// call.
///
/// # Examples
///
/// ```
/// use seatcrane_stun::endpoint::{LongTerm, Server, types};
///
/// # let secret = [1; 32]; // yours must be random
/// let server = Server::builder(LongTerm::new("example.org", secret))
///     .understands(types::TURN)
///     .software("example 1.0")
///     .answer_binding(true)
///     .build()?;
/// assert_eq!(server.realm(), "example.org");
/// # Ok::<(), seatcrane_stun::endpoint::BuildError>(())
/// ```
#[derive(Clone, Debug)]
#[must_use = "a server is made by `build`"]
pub struct ServerBuilder {
    long_term: LongTerm,
    settings: ResponseSettings,
}

impl ServerBuilder {
    /// Adds types of attributes that you understand, in addition to those of STUN.
    /// [`types`](super::types) has lists.
    pub fn understands(mut self, types: &[AttributeType]) -> ServerBuilder {
        self.settings = self.settings.understands(types);
        self
    }

    /// Removes types from those that you understand, so that a request with an attribute of one of
    /// these types gets a 420. Call it after [`understands`](Self::understands) to leave types out
    /// of a list in [`types`](super::types). The types of STUN itself are always understood.
    ///
    /// # Examples
    ///
    /// A TURN server that cannot set the DF bit in the datagrams that it relays:
    ///
    /// ```
    /// use seatcrane_stun::endpoint::{LongTerm, Server, types};
    /// use seatcrane_stun::types::attribute::AttributeType;
    ///
    /// # let secret = [1; 32]; // yours must be random
    /// let server = Server::builder(LongTerm::new("example.org", secret))
    ///     .understands(types::TURN)
    ///     .does_not_understand(&[AttributeType::DONT_FRAGMENT])
    ///     .build();
    /// # assert!(server.is_ok());
    /// ```
    pub fn does_not_understand(mut self, types: &[AttributeType]) -> ServerBuilder {
        self.settings = self.settings.does_not_understand(types);
        self
    }

    /// Sets the text of SOFTWARE in each response.
    pub fn software(mut self, text: impl Into<String>) -> ServerBuilder {
        self.settings = self.settings.software(text);
        self
    }

    /// Sets whether the server itself responds to each accepted Binding request. By default it
    /// returns the request to you.
    pub fn answer_binding(mut self, answers: bool) -> ServerBuilder {
        self.settings = self.settings.answer_binding(answers);
        self
    }

    /// Sets whether messages without FINGERPRINT are dropped (RFC 8489, section 7.3), as a protocol
    /// may require. By default they are not. A message whose FINGERPRINT is wrong, is not the last
    /// attribute or does not have 4 bytes is always dropped.
    pub fn require_fingerprint(mut self, required: bool) -> ServerBuilder {
        self.settings = self.settings.require_fingerprint(required);
        self
    }

    /// Sets the methods that you serve, like [`ResponseSettings::methods`]: requests and
    /// indications with any other method are dropped.
    pub fn methods(mut self, methods: &[Method]) -> ServerBuilder {
        self.settings = self.settings.methods(methods);
        self
    }

    /// Sets whether unsigned Binding requests are answered, like [`LongTerm::open_binding`].
    pub fn open_binding(mut self, is_open: bool) -> ServerBuilder {
        self.long_term = self.long_term.open_binding(is_open);
        self
    }

    /// Builds the server.
    ///
    /// # Errors
    ///
    /// Returns the errors of [`Server::new`].
    pub fn build(self) -> Result<Server, BuildError> {
        Server::new(self.long_term, self.settings)
    }
}

/// A STUN server with long-term credentials. It stores nothing about its clients.
///
/// The outcome of a datagram depends only on the datagram, its source address, the time, the
/// settings and the users, and not on earlier datagrams. So a flood of datagrams uses no memory,
/// and every machine with the same settings and users can answer every client. `Server`, [`Users`]
/// and [`User`] are `Send` and `Sync`, and the calls that judge take `&self`, so threads can share
/// them in an `Arc` without a lock.
///
/// The [module](super) has an example.
///
/// # Changing the users or the settings
///
/// To change the users, replace the `Arc<Users>`. To change settings, build another server with the
/// same secret, and replace the `Arc<Server>`. A server accepts what its own settings offer,
/// whatever the settings of the server that made the [`Users`] or the [`User`], so these stay.
///
/// Only the realm ties users to a server, because their keys depend on its name. A server that is
/// passed users of another realm drops what it would judge with them
/// ([`DropReason::OtherRealm`](super::DropReason::OtherRealm)). To change the realm, make a new
/// table with [`users`](Self::users) of the new server, add the users again, and replace the server
/// and the table together, for example as one `Arc<(Server, Users)>`.
pub struct Server {
    core: server::Server<Global>,
    realm: String,
    /// The server that answers unsigned Binding requests.
    open: Option<open::OpenServer<Global>>,
    methods: Option<Vec<Method>>,
}

/// Shows the realm, but not the secrets.
impl fmt::Debug for Server {
    fn fmt(&self, f: &mut fmt::Formatter<'_>) -> fmt::Result {
        let mut shown = f.debug_struct("Server");
        shown.field("realm", &self.realm()).finish_non_exhaustive()
    }
}

impl Server {
    /// Returns a builder for a server with these settings.
    pub fn builder(long_term: LongTerm) -> ServerBuilder {
        ServerBuilder {
            long_term,
            settings: ResponseSettings::new(),
        }
    }

    /// Builds a server from the settings for long-term credentials, and from the settings that all
    /// kinds of servers have.
    ///
    /// # Errors
    ///
    /// Returns the first of these errors that applies:
    ///
    /// - [`BuildError::RealmTooLong`]: the realm has more than 763 bytes.
    /// - [`BuildError::SoftwareTooLong`]: the text of SOFTWARE has more than 763 bytes.
    /// - [`BuildError::NonceLifetime`]: the nonce lifetime is less than 30 seconds.
    /// - [`BuildError::NoAlgorithm`]: the list of algorithms is empty.
    /// - [`BuildError::OutOfMemory`]: an allocation failed.
    pub fn new(long_term: LongTerm, settings: ResponseSettings) -> Result<Server, BuildError> {
        let mut understood = KitVec::new(Global);
        understood
            .extend_from_slice(&settings.understood)
            .map_err(|_| BuildError::OutOfMemory)?;
        let (realm, methods) = (long_term.realm.clone(), settings.methods.clone());
        let open = settings.clone().answer_binding(true);
        let open = long_term.open_binding.then_some(open);
        let settings = server::LongTerm {
            realm: text(long_term.realm),
            secret: long_term.secret,
            previous_secret: long_term.previous,
            algorithms: long_term.algorithms.unwrap_or(AlgorithmSet::Both),
            user_hashes: long_term.user_hashes,
            nonce_lifetime: long_term.nonce_lifetime,
            understood,
            software: settings.software.map(text),
            answers_binding: settings.answers_binding,
            requires_fingerprint: settings.requires_fingerprint,
        };
        // The core has no empty set, so an empty list is refused here, in the stated order.
        let core = match (server::Server::new(Global, settings), long_term.algorithms) {
            (Ok(core), Some(_)) => core,
            (Ok(_) | Err(server::BuildError::OutOfMemory), None) => {
                return Err(BuildError::NoAlgorithm);
            }
            (Err(why), _) => return Err(why.into()),
        };
        let open = match open {
            Some(settings) => Some(open::OpenServer::new(Global, settings.core()?)?),
            None => None,
        };
        Ok(Server {
            core,
            realm,
            open,
            methods,
        })
    }

    /// Returns an empty table of users for this server's realm. You can use it with every server of
    /// this realm, whatever the other settings of that server are.
    pub fn users(&self) -> Users {
        Users {
            core: granted(self.core.users()),
            keys: Given::new(),
        }
    }

    /// Returns the realm.
    pub fn realm(&self) -> &str {
        &self.realm
    }

    /// Returns the nonce that the server sends to this address at this time.
    pub fn nonce_for(&self, from: SocketAddr, now: UnixTime) -> String {
        String::from(granted(self.core.nonce_for(from, now)).as_str())
    }

    /// Judges a datagram, and writes the response if the server itself responds.
    ///
    /// `from` is the address that the datagram came from. The two forms of an IPv4 address,
    /// `a.b.c.d` and `::ffff:a.b.c.d`, count as the same address.
    ///
    /// - Bytes that are not a message, messages with a wrong FINGERPRINT, and requests and
    ///   indications with a method that you do not serve ([`methods`](ServerBuilder::methods)) are
    ///   dropped. If `users` are of another realm, so is every datagram except for unsigned Binding
    ///   requests that are answered because of [`open_binding`](ServerBuilder::open_binding).
    /// - A request gets the response of the first of these lines that applies (RFC 8489, sections
    ///   6.3.1 and 9.2.4):
    ///   - Success or 420, neither of them signed: it is an unsigned Binding request, and you
    ///     called [`open_binding`](ServerBuilder::open_binding).
    ///   - 401: it is not signed.
    ///   - 400: it has no REALM, NONCE or user name, or it has the current nonce, but other
    ///     algorithms than were offered with that nonce.
    ///   - 438: its nonce is not accepted, or it has an earlier nonce that is still accepted, but
    ///     wrong algorithms or credentials. The code is 401 instead if the nonce has other security
    ///     bits than the server's nonces, and the algorithms of the request agree with these other
    ///     bits.
    ///   - 401: it is not signed by one of `users`.
    ///   - 420, which is signed: it has an attribute that is not understood.
    ///   - Success: it is a Binding request, and you called `answer_binding`.
    ///
    ///   Every other request is returned as [`Received::Request`].
    /// - An indication with an attribute that is not understood is dropped. Other indications, and
    ///   responses, are returned to you.
    pub fn receive<'a>(
        &self,
        bytes: &'a [u8],
        from: SocketAddr,
        now: UnixTime,
        users: &'a Users,
    ) -> Received<'a> {
        let mut buffer = KitVec::new(Global);
        let received = self.judged(bytes, from, &mut buffer, |buffer| {
            self.core.receive_into(bytes, from, now, &users.core, buffer)
        });
        let received = of_core(received, buffer.into_std());
        record!(bytes, from, received, || self.cause(bytes, from, now, users));
        received
    }

    /// Judges a datagram with `judge`, a call of the core, unless the datagram is dropped because
    /// of its method, or answered without credentials.
    fn judged<'a>(
        &self,
        bytes: &'a [u8],
        from: SocketAddr,
        buffer: &mut KitVec<u8>,
        judge: impl FnOnce(&mut KitVec<u8>) -> Result<CoreReceived<'a>, AllocError>,
    ) -> Judged<'a> {
        if self.lacks_method_of(bytes) {
            buffer.clear();
            return Err(DropReason::OtherMethod);
        }
        if let Some(open) = self.open_for(bytes) {
            return match open.receive_into(bytes, from, buffer) {
                Ok(buffered::ReceivedInto::Answer(answer)) => Ok(CoreReceived::Answer(answer)),
                Ok(buffered::ReceivedInto::Dropped(why)) => Err(why.into()),
                // Not reached: this is a Binding request, and the open server answers all of them.
                Ok(_) => Err(DropReason::Malformed),
                Err(error) => Err(error.into()),
            };
        }
        judge(buffer).map_err(DropReason::from)
    }

    /// Returns `true` if a datagram is a request or an indication with a method that is not served.
    fn lacks_method_of(&self, bytes: &[u8]) -> bool {
        is_of_other_method(self.methods.as_deref(), bytes)
    }

    /// Returns the server that answers a datagram without credentials, if the datagram is an
    /// unsigned Binding request and the settings allow such requests.
    fn open_for(&self, bytes: &[u8]) -> Option<&open::OpenServer<Global>> {
        let open = self.open.as_ref()?;
        let message = Message::from_bytes(bytes).ok()?;
        let is_binding = message.has_class(MessageClass::Request) && message.has_method(BINDING);
        (is_binding && deciding_algorithm(bytes).is_none()).then_some(open)
    }

    /// Returns `true` if a datagram is dropped or answered before its credentials are judged.
    fn needs_no_credentials(&self, bytes: &[u8]) -> bool {
        self.lacks_method_of(bytes) || self.open_for(bytes).is_some()
    }

    /// Judges a datagram like [`receive`](Self::receive), and writes the response into a buffer
    /// that you keep between datagrams, replacing its contents. The buffer is empty afterwards if
    /// there is no response. Once the buffer is large enough, a Binding request is answered with
    /// one allocation, for its nonce.
    ///
    /// # Examples
    ///
    /// ```no_run
    /// use seatcrane_stun::endpoint::{Received, Server, UnixTime, Users};
    /// use std::net::UdpSocket;
    ///
    /// fn serve(server: &Server, users: &Users, socket: &UdpSocket) -> std::io::Result<()> {
    ///     let (mut datagram, mut buffer) = ([0; 2048], Vec::new());
    ///     loop {
    ///         let (length, from) = socket.recv_from(&mut datagram)?;
    ///         let (bytes, now) = (&datagram[..length], UnixTime::now());
    ///         match server.receive_into(bytes, from, now, users, &mut buffer) {
    ///             Received::Answer(answer) => {
    ///                 socket.send_to(answer.bytes(), answer.to())?;
    ///             }
    ///             Received::Dropped(why) => eprintln!("dropped: {why}"),
    ///             _ => {} // a request with another method than Binding, or no request
    ///         }
    ///     }
    /// }
    /// ```
    pub fn receive_into<'a, 'b>(
        &self,
        bytes: &'a [u8],
        from: SocketAddr,
        now: UnixTime,
        users: &'a Users,
        buffer: &'b mut Vec<u8>,
    ) -> Received<'a, &'b [u8]> {
        let received = lent(buffer, |buffer| {
            self.judged(bytes, from, buffer, |buffer| {
                self.core.receive_into(bytes, from, now, &users.core, buffer)
            })
        });
        let received = of_core(received, buffer.as_slice());
        record!(bytes, from, received, || self.cause(bytes, from, now, users));
        received
    }

    /// Derives the keys of a user, for [`receive_for`](Self::receive_for). You can cache the result
    /// and use it with every server of this realm.
    pub fn user(&self, credentials: LongTermCredentials) -> User {
        User(Arc::new(granted(self.core.user(credentials.0))))
    }

    /// Like [`user`](Self::user), but takes stored keys instead of a password. The keys must have
    /// been made for this server's realm, because they depend on it.
    pub fn user_with_keys(&self, name: impl Into<String>, keys: StoredKeys) -> User {
        let user = self.core.user_with_keys(text(name.into()), keys);
        User(Arc::new(granted(user)))
    }

    /// Judges a datagram like [`receive`](Self::receive), but instead of a table takes the one user
    /// that you looked up, or `None` if there is no such user.
    ///
    /// If the name of `user` differs from the name in the request, as after a look-up that ignores
    /// case, the client gets a 401. If `user` is of another realm, the datagram is dropped
    /// ([`OtherRealm`](super::DropReason::OtherRealm)).
    pub fn receive_for<'a>(
        &'a self,
        bytes: &'a [u8],
        from: SocketAddr,
        now: UnixTime,
        user: Option<&'a User>,
    ) -> Received<'a> {
        let core = user.map(|user| &*user.0);
        let mut buffer = KitVec::new(Global);
        let received = self.judged(bytes, from, &mut buffer, |buffer| {
            self.core.receive_for_into(bytes, from, now, core, buffer)
        });
        let received = of_core(received, buffer.into_std());
        record!(bytes, from, received, || self.cause_for(bytes, from, now, user));
        received
    }

    /// Judges a datagram like [`receive_for`](Self::receive_for), and writes the response into a
    /// buffer that you keep between datagrams, replacing its contents. The buffer is empty
    /// afterwards if there is no response.
    pub fn receive_for_into<'a, 'b>(
        &'a self,
        bytes: &'a [u8],
        from: SocketAddr,
        now: UnixTime,
        user: Option<&'a User>,
        buffer: &'b mut Vec<u8>,
    ) -> Received<'a, &'b [u8]> {
        let core = user.map(|user| &*user.0);
        let received = lent(buffer, |buffer| {
            self.judged(bytes, from, buffer, |buffer| {
                self.core.receive_for_into(bytes, from, now, core, buffer)
            })
        });
        let received = of_core(received, buffer.as_slice());
        record!(bytes, from, received, || self.cause_for(bytes, from, now, user));
        received
    }

    /// Judges a datagram like [`receive`](Self::receive), and also returns why it is refused, so
    /// that you can count or log the cause. The cause is what [`cause`](Self::cause) returns, but
    /// the datagram is judged only once.
    ///
    /// # Examples
    ///
    /// ```
    /// use seatcrane_stun::endpoint::{Answer, Received, Server, UnixTime, Users};
    /// use std::net::SocketAddr;
    ///
    /// fn answer(server: &Server, users: &Users, bytes: &[u8], from: SocketAddr) -> Option<Answer> {
    ///     let (received, cause) = server.receive_with_cause(bytes, from, UnixTime::now(), users);
    ///     if let Some(cause) = cause {
    ///         println!("{from}: {} {cause}", cause.code());
    ///     }
    ///     match received {
    ///         Received::Answer(answer) => Some(answer),
    ///         _ => None,
    ///     }
    /// }
    /// ```
    pub fn receive_with_cause<'a>(
        &'a self,
        bytes: &'a [u8],
        from: SocketAddr,
        now: UnixTime,
        users: &'a Users,
    ) -> (Received<'a>, Option<Cause>) {
        let (mut buffer, mut cause) = (KitVec::new(Global), None);
        let received = self.judged(bytes, from, &mut buffer, |buffer| {
            let (received, why) = self.core.receive_with_cause(bytes, from, now, &users.core)?;
            cause = why;
            Ok(received.into_buffer(buffer))
        });
        let received = of_core(received, buffer.into_std());
        record!(bytes, from, received, || cause);
        (received, cause)
    }

    /// Judges a datagram like [`receive_for`](Self::receive_for), and also returns why it is
    /// refused, like [`receive_with_cause`](Self::receive_with_cause).
    pub fn receive_for_with_cause<'a>(
        &'a self,
        bytes: &'a [u8],
        from: SocketAddr,
        now: UnixTime,
        user: Option<&'a User>,
    ) -> (Received<'a>, Option<Cause>) {
        let core = user.map(|user| &*user.0);
        let (mut buffer, mut cause) = (KitVec::new(Global), None);
        let received = self.judged(bytes, from, &mut buffer, |buffer| {
            let (received, why) = self.core.receive_for_with_cause(bytes, from, now, core)?;
            cause = why;
            Ok(received.into_buffer(buffer))
        });
        let received = of_core(received, buffer.into_std());
        record!(bytes, from, received, || cause);
        (received, cause)
    }

    /// Returns why [`receive`](Self::receive) refuses a datagram, so that you can count or log the
    /// cause. Pass the arguments that you passed to `receive`, with the same time and the same
    /// users.
    ///
    /// Returns `None` if `receive` does not refuse the datagram: it is dropped, is not a request,
    /// or is accepted. It also returns `None` if an allocation failed.
    ///
    /// It judges the request again, so call it only for an answer that refuses the request, or call
    /// [`receive_with_cause`](Self::receive_with_cause) in place of `receive`. The client learns
    /// only the [code](Cause::code), and not the cause.
    ///
    /// # Examples
    ///
    /// ```
    /// use seatcrane_stun::endpoint::{Answer, Received, Server, UnixTime, Users};
    /// use std::net::SocketAddr;
    ///
    /// fn answer(
    ///     server: &Server,
    ///     users: &Users,
    ///     bytes: &[u8],
    ///     from: SocketAddr,
    /// ) -> Option<Answer> {
    ///     let now = UnixTime::now();
    ///     let Received::Answer(answer) = server.receive(bytes, from, now, users)
    ///     else {
    ///         return None;
    ///     };
    ///     if answer.refusal().is_some() {
    ///         if let Some(cause) = server.cause(bytes, from, now, users) {
    ///             println!("{from}: {} {cause}", cause.code());
    ///         }
    ///     }
    ///     Some(answer)
    /// }
    /// ```
    #[must_use]
    pub fn cause(
        &self,
        bytes: &[u8],
        from: SocketAddr,
        now: UnixTime,
        users: &Users,
    ) -> Option<Cause> {
        if self.needs_no_credentials(bytes) {
            return None;
        }
        self.core.cause(bytes, from, now, &users.core).ok().flatten()
    }

    /// Returns why [`receive_for`](Self::receive_for) refuses a datagram, like
    /// [`cause`](Self::cause).
    ///
    /// For a request that [`resume`](Self::resume) refused, pass the bytes of the request, the user
    /// whom you passed to `resume`, and the time at which the request [arrived](Lookup::arrived).
    #[must_use]
    pub fn cause_for(
        &self,
        bytes: &[u8],
        from: SocketAddr,
        now: UnixTime,
        user: Option<&User>,
    ) -> Option<Cause> {
        if self.needs_no_credentials(bytes) {
            return None;
        }
        let user = user.map(|user| &*user.0);
        self.core.cause_for(bytes, from, now, user).ok().flatten()
    }

    /// Judges a datagram as far as is possible without its user, for a server whose users are in a
    /// database.
    ///
    /// A request waits for a look-up only if it is signed, names a user, and carries a nonce that
    /// is accepted for its source at this time. So an attacker who invents a nonce causes no
    /// look-up, nor does an attacker who forges a source address but has not seen a nonce that was
    /// sent to it.
    ///
    /// # Examples
    ///
    /// ```
    /// use seatcrane_stun::auth::NamedUser;
    /// use seatcrane_stun::endpoint::{Identified, Received, Server, UnixTime, User};
    /// use std::net::SocketAddr;
    ///
    /// fn received<'a>(
    ///     server: &'a Server,
    ///     bytes: &'a [u8],
    ///     from: SocketAddr,
    ///     look_up: impl Fn(NamedUser<'_>) -> Option<&'a User>,
    /// ) -> Received<'a> {
    ///     match server.identify(bytes, from, UnixTime::now()) {
    ///         Identified::Done(received) => received,
    ///         Identified::Lookup(lookup) => {
    ///             let user = look_up(lookup.user_id()); // it may take its time
    ///             server.resume(lookup, user)
    ///         }
    ///     }
    /// }
    /// ```
    pub fn identify<'a>(
        &'a self,
        bytes: &'a [u8],
        from: SocketAddr,
        now: UnixTime,
    ) -> Identified<'a> {
        let mut buffer = KitVec::new(Global);
        let identified = self.identified(bytes, from, now, &mut buffer);
        self.of_identified(identified, bytes, from, now, buffer.into_std())
    }

    /// Judges a datagram like [`identify`](Self::identify), and writes the response into a buffer
    /// that you keep between datagrams, replacing its contents. The buffer is empty afterwards if
    /// there is no response, for example because the request waits for its user.
    ///
    /// # Examples
    ///
    /// ```
    /// use seatcrane_stun::endpoint::{Identified, Received, Server, UnixTime, Users};
    /// use std::net::UdpSocket;
    ///
    /// fn answer(
    ///     (server, users): (&Server, &Users),
    ///     socket: &UdpSocket,
    ///     (datagram, buffer): (&mut [u8], &mut Vec<u8>),
    /// ) -> std::io::Result<()> {
    ///     let (length, from) = socket.recv_from(datagram)?;
    ///     let bytes = &datagram[..length];
    ///     if let Identified::Lookup(lookup) =
    ///         server.identify_into(bytes, from, UnixTime::now(), buffer)
    ///     {
    ///         let user = users.find(lookup.user_id());
    ///         let _ = server.resume_into(lookup, user.as_ref(), buffer);
    ///     }
    ///     match buffer.is_empty() {
    ///         true => Ok(()), // nothing to send at once
    ///         false => socket.send_to(buffer, from).map(drop),
    ///     }
    /// }
    /// ```
    pub fn identify_into<'a, 'b>(
        &'a self,
        bytes: &'a [u8],
        from: SocketAddr,
        now: UnixTime,
        buffer: &'b mut Vec<u8>,
    ) -> Identified<'a, &'b [u8]> {
        let identified = lent(buffer, |buffer| self.identified(bytes, from, now, buffer));
        self.of_identified(identified, bytes, from, now, buffer.as_slice())
    }

    /// Judges a datagram as far as is possible without its user, and writes a response into the
    /// buffer.
    fn identified<'a>(
        &'a self,
        bytes: &'a [u8],
        from: SocketAddr,
        now: UnixTime,
        buffer: &mut KitVec<u8>,
    ) -> Known<'a> {
        let mut waiting = None;
        let judged = self.judged(bytes, from, buffer, |buffer| {
            match self.core.identify_into(bytes, from, now, buffer)? {
                buffered::IdentifiedInto::Done(received) => Ok(received),
                buffered::IdentifiedInto::Lookup(lookup) => {
                    waiting = Some(lookup);
                    Err(AllocError) // not returned, because `waiting` is set
                }
            }
        });
        match waiting {
            Some(lookup) => Known::Lookup(lookup),
            None => Known::Done(judged),
        }
    }

    /// Converts an outcome that `identified` returned to the types of this module.
    #[cfg_attr(not(feature = "tracing"), allow(unused_variables, clippy::unused_self))]
    fn of_identified<'a, B>(
        &'a self,
        identified: Known<'a>,
        bytes: &'a [u8],
        from: SocketAddr,
        now: UnixTime,
        buffer: B,
    ) -> Identified<'a, B> {
        match identified {
            Known::Done(received) => {
                let received = of_core(received, buffer);
                record!(bytes, from, received, || self.cause_for(bytes, from, now, None));
                Identified::Done(received)
            }
            Known::Lookup(lookup) => {
                #[cfg(feature = "tracing")]
                super::verdict::record_look_up(bytes, from);
                Identified::Lookup(Lookup {
                    message: Message(copy(lookup.message())),
                    lookup,
                })
            }
        }
    }

    /// Judges the request of a look-up with the user that you found, or with `None` if there is no
    /// such user. The result is what [`receive_for`](Self::receive_for) returns at the time at
    /// which the request arrived, so a slow database does not turn it into a 438.
    ///
    /// If the name of `user` differs from the name in the request, as after a look-up that ignores
    /// case, the client gets a 401.
    ///
    /// `lookup` is a [`Lookup`], or a reference to an [`OwnedLookup`], which does not borrow the
    /// datagram.
    pub fn resume<'a>(
        &'a self,
        lookup: impl Into<Lookup<'a>>,
        user: Option<&'a User>,
    ) -> Received<'a> {
        let core = user.map(|user| &*user.0);
        let mut buffer = KitVec::new(Global);
        let (looked_up, received) = self.resumed(lookup, |lookup| {
            self.core.resume_into(lookup, core, &mut buffer)
        });
        let received = of_core(received, buffer.into_std());
        looked_up.record(&received, |bytes, from, now| self.cause_for(bytes, from, now, user));
        received
    }

    /// Judges the request of a look-up like [`resume`](Self::resume), and writes the response into
    /// a buffer that you keep between datagrams, replacing its contents. The buffer is empty
    /// afterwards if there is no response. [`identify_into`](Self::identify_into) has an example.
    pub fn resume_into<'a, 'b>(
        &'a self,
        lookup: impl Into<Lookup<'a>>,
        user: Option<&'a User>,
        buffer: &'b mut Vec<u8>,
    ) -> Received<'a, &'b [u8]> {
        let core = user.map(|user| &*user.0);
        let (looked_up, received) = lent(buffer, |buffer| {
            self.resumed(lookup, |lookup| self.core.resume_into(lookup, core, buffer))
        });
        let received = of_core(received, buffer.as_slice());
        looked_up.record(&received, |bytes, from, now| self.cause_for(bytes, from, now, user));
        received
    }

    /// Judges the request of a look-up like [`resume`](Self::resume), with the user of this table
    /// whom it names. Use this call if your server looks up some users in a table, and others
    /// elsewhere.
    ///
    /// # Examples
    ///
    /// A server of time-limited users that looks for any other user in a table:
    ///
    /// ```
    /// use seatcrane_stun::endpoint::Received;
    /// use seatcrane_stun::endpoint::{
    ///     Identified, Server, TimeLimitedUsers, UnixTime, Users,
    /// };
    /// use std::net::SocketAddr;
    ///
    /// fn answer(
    ///     (server, limited, users): (&Server, &TimeLimitedUsers, &Users),
    ///     bytes: &[u8],
    ///     from: SocketAddr,
    /// ) -> Option<Vec<u8>> {
    ///     let now = UnixTime::now();
    ///     let user;
    ///     let received = match server.identify(bytes, from, now) {
    ///         Identified::Done(received) => received,
    ///         Identified::Lookup(lookup) => match limited.find(lookup.user_id(), now)
    ///         {
    ///             Some(found) => {
    ///                 user = server.user(found);
    ///                 server.resume(lookup, Some(&user))
    ///             }
    ///             None => server.resume_among(lookup, users),
    ///         },
    ///     };
    ///     match received {
    ///         Received::Answer(answer) => Some(answer.into_bytes()),
    ///         Received::Request(request) => request.reply().refuse(400).finish().ok(),
    ///         _ => None,
    ///     }
    /// }
    /// ```
    pub fn resume_among<'a>(
        &'a self,
        lookup: impl Into<Lookup<'a>>,
        users: &'a Users,
    ) -> Received<'a> {
        let mut buffer = KitVec::new(Global);
        let (looked_up, received) = self.resumed(lookup, |lookup| {
            let received = self.core.resume_among(lookup, &users.core)?;
            Ok(received.into_buffer(&mut buffer))
        });
        let received = of_core(received, buffer.into_std());
        looked_up.record(&received, |bytes, from, now| self.cause(bytes, from, now, users));
        received
    }

    /// Judges the request of a look-up like [`resume_among`](Self::resume_among), and writes the
    /// response into a buffer that you keep between datagrams, replacing its contents. The buffer
    /// is empty afterwards if there is no response.
    pub fn resume_among_into<'a, 'b>(
        &'a self,
        lookup: impl Into<Lookup<'a>>,
        users: &'a Users,
        buffer: &'b mut Vec<u8>,
    ) -> Received<'a, &'b [u8]> {
        let (looked_up, received) = lent(buffer, |buffer| {
            self.resumed(lookup, |lookup| {
                let received = self.core.resume_among(lookup, &users.core)?;
                Ok(received.into_buffer(buffer))
            })
        });
        let received = of_core(received, buffer.as_slice());
        looked_up.record(&received, |bytes, from, now| self.cause(bytes, from, now, users));
        received
    }

    /// Judges the request of a look-up with `judge`, a call of the core. Also returns what to
    /// record about the request.
    #[allow(clippy::unused_self, reason = "the call is of this server")]
    fn resumed<'a>(
        &'a self,
        lookup: impl Into<Lookup<'a>>,
        judge: impl FnOnce(lookup::Lookup<'a>) -> Result<CoreReceived<'a>, AllocError>,
    ) -> (LookedUp<'a>, Judged<'a>) {
        let lookup = lookup.into();
        let looked_up = LookedUp {
            bytes: lookup.message.as_bytes(),
            from: lookup.from(),
            arrived: lookup.arrived(),
        };
        (looked_up, judge(lookup.lookup).map_err(DropReason::from))
    }
}

/// What to record about the request of a look-up.
#[cfg_attr(not(feature = "tracing"), allow(dead_code))]
struct LookedUp<'a> {
    bytes: &'a [u8],
    from: SocketAddr,
    arrived: UnixTime,
}

impl LookedUp<'_> {
    /// Records the outcome of the request; `cause` returns why it was refused.
    #[cfg_attr(not(feature = "tracing"), allow(unused_variables, clippy::unused_self))]
    fn record<B>(
        &self,
        received: &Received<'_, B>,
        cause: impl FnOnce(&[u8], SocketAddr, UnixTime) -> Option<Cause>,
    ) {
        let (bytes, from) = (self.bytes, self.from);
        record!(bytes, from, *received, || cause(bytes, from, self.arrived));
    }
}

/// An outcome that the core returns, with the bytes of a response in a buffer.
type CoreReceived<'a> = buffered::ReceivedInto<'a, received::Request<'a, Global>>;

/// An outcome that the core returns, or why a datagram is dropped: for a reason that is found
/// before the core judges the datagram, or because memory ran out.
type Judged<'a> = Result<CoreReceived<'a>, DropReason>;

/// The outcome of a datagram that the core has judged as far as possible without its user, with the
/// bytes of a response in a buffer.
enum Known<'a> {
    Done(Judged<'a>),
    Lookup(lookup::Lookup<'a>),
}

impl From<AllocError> for DropReason {
    fn from(_: AllocError) -> DropReason {
        DropReason::OutOfMemory
    }
}

/// Returns `true` if there is a list of methods, and a datagram is a request or an indication whose
/// method is not in the list.
pub(super) fn is_of_other_method(methods: Option<&[Method]>, bytes: &[u8]) -> bool {
    let (Some(methods), Ok(header)) = (methods, MessageHeader::from_bytes(bytes)) else {
        return false;
    };
    let kind = header.get_type();
    !kind.is_response() && !methods.contains(&kind.method())
}

/// The outcome of a datagram as far as it is known without the user. The bytes of a response are a
/// `Vec`, or a slice of the buffer that was passed to [`identify_into`](Server::identify_into).
///
/// # Examples
///
/// ```
/// use seatcrane_stun::endpoint::{Identified, Received, Server, User};
///
/// fn judged<'a>(
///     server: &'a Server,
///     identified: Identified<'a>,
///     user: Option<&'a User>,
/// ) -> Received<'a> {
///     match identified {
///         Identified::Done(received) => received,
///         Identified::Lookup(lookup) => server.resume(lookup, user),
///     }
/// }
/// ```
#[must_use = "it may be a response to send, or a request that waits for its user"]
#[derive(Debug)]
pub enum Identified<'a, B = Vec<u8>> {
    /// The outcome of the datagram, which does not depend on the user.
    Done(Received<'a, B>),
    /// The request waits for its user. Look that user up, and pass both to [`Server::resume`].
    Lookup(Lookup<'a>),
}

/// A request that waits until you have looked up its user. It carries a nonce that the server
/// accepts for its source.
///
/// A client that retransmits its request causes another look-up, so merge look-ups that have the
/// same source address and [`transaction_id`](Self::transaction_id).
///
/// # Examples
///
/// ```
/// use seatcrane_stun::auth::NamedUser;
/// use seatcrane_stun::endpoint::Lookup;
///
/// /// The key of the row of a user.
/// fn key(lookup: &Lookup<'_>) -> String {
///     match lookup.user_id() {
///         NamedUser::ByName(name) => format!("name:{name}"),
///         NamedUser::ByHash(hash) => format!("hash:{hash:02x?}"),
///     }
/// }
/// ```
#[must_use = "the request waits for `Server::resume`"]
#[derive(Debug)]
pub struct Lookup<'a> {
    message: Message<'a>,
    lookup: lookup::Lookup<'a>,
}

impl<'a> Lookup<'a> {
    /// Returns the user whom the request names. The signature is not checked yet, so anybody who
    /// has an accepted nonce can name any user.
    #[must_use]
    pub fn user_id(&self) -> NamedUser<'a> {
        self.lookup.user_id()
    }

    /// Returns the transaction ID of the request.
    #[must_use]
    pub fn transaction_id(&self) -> TransactionId {
        TransactionId(self.lookup.transaction_id())
    }

    /// Returns the address that the request came from. An IPv4 address is returned as `a.b.c.d`,
    /// even if it came as `::ffff:a.b.c.d`.
    #[must_use]
    pub fn from(&self) -> SocketAddr {
        canonical(self.lookup.from())
    }

    /// Returns the time that was passed to [`Server::identify`].
    #[must_use]
    pub fn arrived(&self) -> UnixTime {
        self.lookup.arrived()
    }

    /// Returns the request.
    #[must_use]
    pub fn message(&self) -> &Message<'a> {
        &self.message
    }

    /// Copies the request, so that the look-up can outlive the datagram, for example in a task that
    /// waits for a database. Pass a reference to the result to [`Server::resume`].
    pub fn into_owned(self) -> OwnedLookup {
        OwnedLookup {
            bytes: self.message.as_bytes().to_vec(),
            from: self.lookup.source(),
            arrived: self.lookup.arrived(),
            user: match self.lookup.user_id() {
                NamedUser::ByName(name) => OwnedName::Text(name.into()),
                NamedUser::ByHash(hash) => OwnedName::Hash(hash),
            },
            has_fingerprint: self.lookup.has_fingerprint(),
        }
    }
}

/// A [`Lookup`] with a copy of its request. [`Lookup::into_owned`] makes it.
///
/// # Examples
///
/// Each look-up runs in a thread of its own, while the buffer receives the next datagram:
///
/// ```
/// use seatcrane_stun::endpoint::{Lookup, Received, Server, User};
/// use std::sync::Arc;
///
/// fn look_up(server: Arc<Server>, lookup: Lookup<'_>, find: fn(&str) -> Option<User>) {
///     use seatcrane_stun::auth::NamedUser::{ByHash, ByName};
///
///     let lookup = lookup.into_owned();
///     std::thread::spawn(move || {
///         let user = match lookup.user_id() {
///             ByName(name) => find(name), // it may take its time
///             ByHash(_) => None,
///         };
///         if let Received::Answer(answer) = server.resume(&lookup, user.as_ref()) {
///             println!("{} bytes to {}", answer.bytes().len(), answer.to());
///         }
///     });
/// }
/// ```
#[derive(Clone)]
#[must_use = "the request waits for `Server::resume`"]
pub struct OwnedLookup {
    bytes: Vec<u8>,
    from: SocketAddr,
    arrived: UnixTime,
    user: OwnedName,
    has_fingerprint: bool,
}

#[derive(Clone)]
enum OwnedName {
    Text(String),
    Hash([u8; 32]),
}

impl fmt::Debug for OwnedLookup {
    fn fmt(&self, f: &mut fmt::Formatter<'_>) -> fmt::Result {
        f.debug_struct("OwnedLookup")
            .field("message", &self.as_lookup().message)
            .field("from", &self.from())
            .finish_non_exhaustive()
    }
}

impl OwnedLookup {
    /// Returns the user whom the request names. The signature is not checked yet, so anybody who
    /// has an accepted nonce can name any user.
    #[must_use]
    pub fn user_id(&self) -> NamedUser<'_> {
        match &self.user {
            OwnedName::Text(name) => NamedUser::ByName(name),
            OwnedName::Hash(hash) => NamedUser::ByHash(*hash),
        }
    }

    /// Returns the transaction ID of the request.
    #[must_use]
    pub fn transaction_id(&self) -> TransactionId {
        self.as_lookup().transaction_id()
    }

    /// Returns the address that the request came from. An IPv4 address is returned as `a.b.c.d`,
    /// even if it came as `::ffff:a.b.c.d`.
    #[must_use]
    pub fn from(&self) -> SocketAddr {
        canonical(self.from)
    }

    /// Returns the time that was passed to [`Server::identify`].
    #[must_use]
    pub fn arrived(&self) -> UnixTime {
        self.arrived
    }

    /// Returns the bytes of the request.
    #[must_use]
    pub fn bytes(&self) -> &[u8] {
        &self.bytes
    }

    /// Returns a look-up that borrows the copy of the request.
    #[expect(clippy::missing_panics_doc, reason = "the bytes were read before")]
    pub fn as_lookup(&self) -> Lookup<'_> {
        let message = Message::from_bytes(&self.bytes).expect("it was read before");
        let (user, has_fingerprint) = (self.user_id(), self.has_fingerprint);
        let request = copy(&message.0);
        Lookup {
            lookup: lookup::Lookup::new(request, self.from, self.arrived, user, has_fingerprint),
            message,
        }
    }
}

/// Returns the look-up, like [`OwnedLookup::as_lookup`].
impl<'a> From<&'a OwnedLookup> for Lookup<'a> {
    fn from(owned: &'a OwnedLookup) -> Lookup<'a> {
        owned.as_lookup()
    }
}

/// Passes a buffer of the caller to a call of the core.
pub(crate) fn lent<R>(buffer: &mut Vec<u8>, call: impl FnOnce(&mut KitVec<u8>) -> R) -> R {
    let mut core = KitVec::from_std(core::mem::take(buffer));
    let result = call(&mut core);
    *buffer = core.into_std();
    result
}

/// Converts an outcome of the core to the type of this module, with the bytes of the response.
fn of_core<B>(received: Judged<'_>, bytes: B) -> Received<'_, B> {
    received_of(received, bytes, request_of, Message)
}

/// Converts an outcome of the core, at a server of any kind, to the type of this module, with the
/// bytes of the response. `request_of` returns `None` if there is no memory for the request.
pub(super) fn received_of<B, R, I, S, J>(
    received: Result<buffered::ReceivedInto<'_, R, I>, DropReason>,
    bytes: B,
    request_of: impl FnOnce(R) -> Option<S>,
    indication_of: impl FnOnce(I) -> J,
) -> Received<'_, B, S, J> {
    use buffered::ReceivedInto as Core;

    match received {
        Ok(Core::Answer(answer)) => Received::Answer(answer_of(answer, bytes)),
        Ok(Core::Request(request)) => match request_of(request) {
            Some(request) => Received::Request(request),
            None => Received::Dropped(DropReason::OutOfMemory),
        },
        Ok(Core::Indication(indication)) => Received::Indication(indication_of(indication)),
        Ok(Core::Response(message)) => Received::Response(Message(message)),
        Ok(Core::Dropped(why)) => Received::Dropped(why.into()),
        Err(why) => Received::Dropped(why),
    }
}

/// Converts a response of the core to the type of this module.
fn answer_of<B>(answer: buffered::BufferedAnswer, bytes: B) -> Answer<B> {
    Answer {
        to: answer.to,
        refusal: answer.refusal,
        bytes,
    }
}

/// Converts an accepted request of the core to the type of this module, or returns `None` if there
/// is no memory for its reply.
pub(super) fn request_of(request: received::Request<'_, Global>) -> Option<Request<'_>> {
    let message = Message(copy(request.message()));
    let (user, algorithm) = (request.user(), request.algorithm());
    let reply = Reply(shared(request.into_reply())?);
    Some(Request {
        message,
        user,
        algorithm,
        reply,
    })
}

/// Returns a value to share, or `None` if there is no memory for it.
///
/// `Arc::new` aborts the program if there is no memory, and stable Rust has no call like it that
/// returns an error. So this call first allocates as much memory and frees it. Another thread may
/// still take that memory in between.
pub(super) fn shared<T>(value: T) -> Option<Arc<T>> {
    let mut room: Vec<([usize; 2], T)> = Vec::new();
    room.try_reserve_exact(1).ok()?;
    drop(core::hint::black_box(room));
    Some(Arc::new(value))
}

/// A user with derived keys. [`Server::user`] makes it. You can use it with every server that has
/// the same realm and [`algorithms`](LongTerm::algorithms). A clone shares the keys.
///
/// # Examples
///
/// ```
/// use seatcrane_stun::endpoint::{LongTerm, Server, User};
/// use seatcrane_stun::types::message::LongTermCredentials;
/// use std::collections::HashMap;
///
/// # let server = Server::builder(LongTerm::new("example.org", [7; 32])).build()?;
/// let mut cache: HashMap<String, User> = HashMap::new();
/// let alice = LongTermCredentials::new("alice".to_string(), "wonderland".to_string());
/// cache.insert("alice".to_string(), server.user(alice));
/// let shared: Option<User> = cache.get("alice").cloned();
/// # assert!(shared.is_some());
/// # Ok::<(), seatcrane_stun::endpoint::BuildError>(())
/// ```
#[derive(Clone)]
pub struct User(Arc<LongTermServerUser<Global>>);

impl fmt::Debug for User {
    fn fmt(&self, f: &mut fmt::Formatter<'_>) -> fmt::Result {
        f.write_str("User { .. }")
    }
}

/// Why a user was not added.
///
/// # Examples
///
/// ```
/// use seatcrane_stun::endpoint::{UserError, Users};
/// use seatcrane_stun::types::message::LongTermCredentials;
///
/// fn add(users: &mut Users, name: &str, password: &str) -> Result<(), UserError> {
///     users.add(LongTermCredentials::new(name.to_string(), password.to_string()))
/// }
/// ```
#[derive(Clone, Copy, Debug, PartialEq, Eq, Hash)]
#[non_exhaustive]
pub enum UserError {
    /// An allocation failed.
    OutOfMemory,
}

impl fmt::Display for UserError {
    fn fmt(&self, f: &mut fmt::Formatter<'_>) -> fmt::Result {
        f.write_str(match self {
            UserError::OutOfMemory => "an allocation failed",
        })
    }
}

impl core::error::Error for UserError {}

impl From<AllocError> for UserError {
    fn from(_: AllocError) -> UserError {
        UserError::OutOfMemory
    }
}

/// The users of a realm, by name. [`Server::users`] makes an empty table. You can use it with every
/// server of this realm: it has each user's keys for both algorithms, and each server judges by its
/// own settings (see [`Server`]).
///
/// To change the users of a running server, change a clone of the table, and then use the clone in
/// place of the table. Cloning needs no passwords. It prepares the derived keys again, which takes
/// half as long as adding the users did.
///
/// # Examples
///
/// ```
/// use seatcrane_stun::endpoint::{LongTerm, Server, UserError, Users};
/// use seatcrane_stun::types::message::LongTermCredentials;
/// use std::sync::{Arc, RwLock};
///
/// fn add(
///     users: &RwLock<Arc<Users>>,
///     name: &str,
///     password: &str,
/// ) -> Result<(), UserError> {
///     let mut changed = Users::clone(&users.read().unwrap());
///     changed.add(LongTermCredentials::new(
///         name.to_string(),
///         password.to_string(),
///     ))?;
///     *users.write().unwrap() = Arc::new(changed);
///     Ok(())
/// }
/// # let server = Server::builder(LongTerm::new("example.org", [7; 32])).build()?;
/// # let users = RwLock::new(Arc::new(server.users()));
/// # add(&users, "alice", "wonderland")?;
/// # add(&users, "bob", "builder")?;
/// # let users = users.into_inner().unwrap();
/// # assert!(users.names().eq(["alice", "bob"]));
/// # Ok::<(), Box<dyn std::error::Error>>(())
/// ```
pub struct Users {
    core: users::Users<Global>,
    keys: Given<StoredKeys>,
}

/// Shows how many users there are, but not their names.
impl fmt::Debug for Users {
    fn fmt(&self, f: &mut fmt::Formatter<'_>) -> fmt::Result {
        let mut shown = f.debug_struct("Users");
        shown.field("len", &self.len()).finish_non_exhaustive()
    }
}

impl Clone for Users {
    fn clone(&self) -> Users {
        let settings = &self.core.realm;
        let (name, algorithms) = (text_of(settings.name()), settings.algorithms());
        let realm = Realm::new(Global, name, algorithms, settings.feature());
        let mut copy = Users {
            core: users::Users { realm },
            keys: Given::new(),
        };
        for (name, keys) in self.keys.iter() {
            let core = &mut copy.core;
            let add = || core.add_with_keys(text_of(name), *keys);
            granted(copy.keys.add(name, *keys, add));
        }
        copy
    }
}

impl Users {
    /// Adds a user with a password, and derives a key for each algorithm of the server. If the
    /// table already has a user with this name, the password replaces the user's password or keys.
    ///
    /// # Errors
    ///
    /// [`UserError::OutOfMemory`]: an allocation failed. The table is unchanged.
    pub fn add(&mut self, credentials: LongTermCredentials) -> Result<(), UserError> {
        let name = KitString::from_str(Global, credentials.username())?;
        let keys = self.keys_of(&credentials);
        let (name, core) = (name.as_str(), &mut self.core);
        Ok(self.keys.add(name, keys, || core.add(credentials.0))?)
    }

    /// Derives the keys of a user in the same way as the core.
    fn keys_of(&self, user: &LongTermCredentials) -> StoredKeys {
        let realm = &self.core.realm;
        let mut keys = StoredKeys::new();
        for algorithm in realm.algorithms().as_slice() {
            let (name, password) = (user.username(), user.password());
            let key = long_term_key(*algorithm, name, realm.name(), password);
            match algorithm {
                IntegrityAlgorithm::Sha1 => keys.sha1 = key.as_bytes().try_into().ok(),
                IntegrityAlgorithm::Sha256 => keys.sha256 = key.as_bytes().try_into().ok(),
            }
        }
        keys
    }

    /// Like [`add`](Self::add), but takes stored keys instead of a password. The keys must have
    /// been made for the realm of this table, because they depend on it.
    ///
    /// # Errors
    ///
    /// [`UserError::OutOfMemory`]: an allocation failed. The table is unchanged.
    ///
    /// # Examples
    ///
    /// ```
    /// use seatcrane_stun::auth::StoredKeys;
    /// use seatcrane_stun::endpoint::{LongTerm, Server};
    /// use seatcrane_stun::types::message::{IntegrityAlgorithm, long_term_key};
    ///
    /// # fn main() -> Result<(), Box<dyn std::error::Error>> {
    /// let server = Server::builder(LongTerm::new("example.org", [7; 32])).build()?;
    /// let key = long_term_key(
    ///     IntegrityAlgorithm::Sha256,
    ///     "alice",
    ///     "example.org",
    ///     "wonderland",
    /// );
    /// let keys = StoredKeys::new().with_sha256(key.as_bytes().try_into().ok());
    /// let mut users = server.users();
    /// users.add_with_keys("alice", keys)?; // she cannot sign with HMAC-SHA1
    ///
    /// # Ok(())
    /// # }
    /// ```
    pub fn add_with_keys(
        &mut self,
        name: impl Into<String>,
        keys: StoredKeys,
    ) -> Result<(), UserError> {
        let (name, core) = (name.into(), &mut self.core);
        let add = || core.add_with_keys(KitString::from_str(Global, &name)?, keys);
        Ok(self.keys.add(&name, keys, add)?)
    }

    /// Removes a user, so that requests that name this user are refused from now on. Returns
    /// `false` if there was no user with this name.
    pub fn remove(&mut self, name: &str) -> bool {
        self.core.remove(name);
        self.keys.remove(name)
    }

    /// Returns the number of users, in constant time.
    pub fn len(&self) -> usize {
        self.keys.len()
    }

    /// Returns `true` if there is no user.
    pub fn is_empty(&self) -> bool {
        self.len() == 0
    }

    /// Returns `true` if there is a user with this name, in logarithmic time.
    pub fn contains(&self, name: &str) -> bool {
        self.keys.contains(name)
    }

    /// Returns the user whom a request names, or `None` if the table has no such user, in
    /// logarithmic time. Pass what [`Lookup::user_id`] returns if you then call [`Server::resume`],
    /// or a name if you then call [`Server::receive_for`]. This call prepares the user's keys, so
    /// [`Server::resume_among`] is cheaper for a look-up in this table.
    ///
    /// # Examples
    ///
    /// ```
    /// use seatcrane_stun::auth::NamedUser;
    /// use seatcrane_stun::endpoint::{LongTerm, Server};
    /// use seatcrane_stun::types::attribute::Userhash;
    /// use seatcrane_stun::types::message::LongTermCredentials;
    ///
    /// let server = Server::builder(LongTerm::new("example.org", [7; 32])).build()?;
    /// let mut users = server.users();
    /// users.add(LongTermCredentials::new(
    ///     "alice".to_string(),
    ///     "wonderland".to_string(),
    /// ))?;
    /// assert!(users.find(NamedUser::ByName("alice")).is_some());
    /// assert!(
    ///     users
    ///         .find(NamedUser::ByHash(Userhash::compute("alice", users.realm())))
    ///         .is_some()
    /// );
    /// assert!(users.find(NamedUser::ByName("bob")).is_none());
    /// # Ok::<(), Box<dyn std::error::Error>>(())
    /// ```
    #[must_use]
    pub fn find(&self, user: NamedUser<'_>) -> Option<User> {
        let realm = &self.core.realm;
        let name = match user {
            NamedUser::ByName(name) => name,
            NamedUser::ByHash(hash) => realm.name_with_hash(&hash)?,
        };
        let keys = self.keys.get(name)?;
        let user = granted(realm.prepare_user_with_keys(text_of(name), *keys));
        Some(User(Arc::new(user)))
    }

    /// Returns the names of the users, in the order of their bytes.
    pub fn names(&self) -> impl Iterator<Item = &str> {
        self.keys.iter().map(|(name, _)| name)
    }

    /// Returns the realm.
    pub fn realm(&self) -> &str {
        self.core.realm.name()
    }
}

/// The outcome of a datagram at a server.
///
/// `B` is the type of a response's bytes: a `Vec`, a slice of the buffer that was passed to
/// [`receive_into`](Server::receive_into), or in a batch a range of its
/// [`Answers`](super::Answers). `R` and `I` are the types of an accepted request and of an accepted
/// indication. They depend on the kind of server: the defaults are those of [`Server`], and
/// [`OpenReceived`] and [`ShortTermReceived`] name the types of the two other kinds.
///
/// [`OpenReceived`]: super::OpenReceived
/// [`ShortTermReceived`]: super::ShortTermReceived
///
/// # Examples
///
/// ```
/// use seatcrane_stun::endpoint::Received;
///
/// /// Returns the response to send, if there is one now.
/// fn response(received: Received<'_>) -> Option<Vec<u8>> {
///     match received {
///         Received::Answer(answer) => Some(answer.into_bytes()),
///         Received::Request(request) => request.reply().success().finish().ok(),
///         Received::Dropped(why) => {
///             println!("dropped: {why}");
///             None
///         }
///         _ => None, // an indication, or a response
///     }
/// }
/// ```
#[must_use = "it may be a response to send, or a request to respond to"]
#[derive(Debug)]
#[non_exhaustive]
pub enum Received<'a, B = Vec<u8>, R = Request<'a>, I = Message<'a>> {
    /// Send this response.
    Answer(Answer<B>),
    /// The request is accepted. Respond to it, now or later.
    Request(R),
    /// An indication whose attributes are understood. Only a [`ShortTermServer`] checks who signed
    /// it. At any other server, decide by the source address whether to act on it, because
    /// long-term credentials do not protect it (RFC 8489, section 9.2).
    ///
    /// [`ShortTermServer`]: super::ShortTermServer
    Indication(I),
    /// A response, for a client on the same socket.
    Response(Message<'a>),
    /// The datagram is dropped, for this reason.
    Dropped(DropReason),
}

impl<'a, B, R, I> Received<'a, B, R, I> {
    /// Puts the bytes of a response into another buffer. If there is no memory for them, the
    /// datagram is dropped.
    pub(super) fn moved<C>(self, to: impl FnOnce(B) -> Option<C>) -> Received<'a, C, R, I> {
        match self {
            Received::Answer(answer) => match to(answer.bytes) {
                Some(bytes) => Received::Answer(Answer {
                    to: answer.to,
                    refusal: answer.refusal,
                    bytes,
                }),
                None => Received::Dropped(DropReason::OutOfMemory),
            },
            Received::Request(request) => Received::Request(request),
            Received::Indication(message) => Received::Indication(message),
            Received::Response(message) => Received::Response(message),
            Received::Dropped(why) => Received::Dropped(why),
        }
    }
}

/// A response to send. Its bytes are a `Vec`, a slice of the buffer that was passed to
/// [`receive_into`](Server::receive_into), or in a batch a range of its
/// [`Answers`](super::Answers).
///
/// # Examples
///
/// ```
/// use seatcrane_stun::endpoint::Answer;
/// use std::net::UdpSocket;
///
/// fn send(socket: &UdpSocket, answer: &Answer) -> std::io::Result<()> {
///     if let Some(refusal) = answer.refusal() {
///         println!("{}: {refusal}", answer.to());
///     }
///     socket.send_to(answer.bytes(), answer.to()).map(drop)
/// }
/// ```
#[must_use = "send the response"]
#[derive(Clone, Debug)]
pub struct Answer<B = Vec<u8>> {
    to: SocketAddr,
    refusal: Option<Refusal>,
    pub(super) bytes: B,
}

impl<B> Answer<B> {
    /// Returns the address to send the response to, which is the `from` that was passed to
    /// [`receive`](Server::receive).
    pub fn to(&self) -> SocketAddr {
        self.to
    }

    /// Returns how the response refuses the request, or `None` if it is a success.
    pub fn refusal(&self) -> Option<Refusal> {
        self.refusal
    }

    /// Returns the bytes to send.
    pub fn bytes(&self) -> &[u8]
    where
        B: AsRef<[u8]>,
    {
        self.bytes.as_ref()
    }

    /// Returns the bytes to send.
    pub fn into_bytes(self) -> B {
        self.bytes
    }
}

/// An accepted request, which a user has signed.
///
/// # Examples
///
/// ```
/// use seatcrane_stun::endpoint::Request;
/// use seatcrane_stun::extra::turn::TurnMethod;
///
/// fn answer(request: &Request<'_>) -> Option<Vec<u8>> {
///     println!("{} at {}", request.user(), request.from());
///     match TurnMethod::of(request.method()) {
///         Some(TurnMethod::Refresh) => request.reply().success().finish().ok(),
///         _ => request.reply().error(400, "Bad Request").finish().ok(),
///     }
/// }
/// ```
#[must_use = "the request waits for a response"]
#[derive(Debug)]
pub struct Request<'a> {
    message: Message<'a>,
    user: &'a str,
    algorithm: IntegrityAlgorithm,
    reply: Reply,
}

impl<'a> Request<'a> {
    /// Returns the message.
    #[must_use]
    pub fn message(&self) -> &Message<'a> {
        &self.message
    }

    /// Returns the method of the request.
    #[must_use]
    pub fn method(&self) -> Method {
        self.message.method()
    }

    /// Returns the address that the request came from. An IPv4 address is returned as `a.b.c.d`,
    /// even if it came as `::ffff:a.b.c.d`. Send the response to [`Reply::to`], which has the form
    /// that you passed to `receive`, because an IPv6 socket needs `::ffff:a.b.c.d`.
    #[must_use]
    pub fn from(&self) -> SocketAddr {
        canonical(self.reply.to())
    }

    /// Returns the name of the user who signed the request, even if the request has only a hash of
    /// the name. Use this name, and not the USERNAME of the message, which may name another user.
    #[must_use]
    pub fn user(&self) -> &'a str {
        self.user
    }

    /// Returns the algorithm that both sides agreed on.
    #[must_use]
    pub fn algorithm(&self) -> IntegrityAlgorithm {
        self.algorithm
    }

    /// Returns the [`Reply`] to the request. Clone it to respond later.
    #[must_use]
    pub fn reply(&self) -> &Reply {
        &self.reply
    }
}

/// A handle with which you respond to one accepted request, now or later, on any thread, without
/// the server. It contains a key, which `Debug` does not show.
///
/// The response has the method and the transaction ID of the request, and ends with FINGERPRINT if
/// the request did. It is signed with the key of the user who sent the request, even if it is an
/// error (a reply of an [`OpenServer`](super::OpenServer) is not signed). Respond to each request
/// at least once, because the client retransmits it until then.
///
/// # Examples
///
/// ```
/// use seatcrane_stun::endpoint::Request;
/// use seatcrane_stun::extra::attribute::Lifetime;
/// use seatcrane_stun::types::message::StunWriteError;
/// use std::net::SocketAddr;
///
/// fn respond(
///     request: &Request<'_>,
///     relay: Option<SocketAddr>,
/// ) -> Result<Vec<u8>, StunWriteError> {
///     match relay {
///         Some(relay) => request
///             .reply()
///             .success()
///             .add_xor_relayed_address(relay)
///             .add(&Lifetime::new(600))
///             .finish(),
///         None => request.reply().error(508, "Insufficient Capacity").finish(),
///     }
/// }
/// ```
#[derive(Clone)]
pub struct Reply(pub(super) Arc<reply::Reply<Global>>);

impl fmt::Debug for Reply {
    fn fmt(&self, f: &mut fmt::Formatter<'_>) -> fmt::Result {
        f.debug_struct("Reply")
            .field("to", &self.to())
            .field("transaction_id", &self.transaction_id())
            .finish_non_exhaustive()
    }
}

impl Reply {
    /// Returns the address to send the response to.
    #[must_use]
    pub fn to(&self) -> SocketAddr {
        self.0.to()
    }

    /// Returns the transaction ID of the request.
    #[must_use]
    pub fn transaction_id(&self) -> TransactionId {
        TransactionId(self.0.transaction_id())
    }

    /// Begins a success response.
    pub fn success(&self) -> ReplyWriter {
        self.success_in(&mut Vec::new(), Vec::new())
    }

    /// Begins a success response in a buffer that you keep between responses, replacing its
    /// contents. If the buffer has the capacity for the response, only the attributes that you add
    /// may allocate.
    ///
    /// # Examples
    ///
    /// ```
    /// use seatcrane_stun::endpoint::Request;
    /// use seatcrane_stun::extra::attribute::Lifetime;
    /// use std::net::UdpSocket;
    ///
    /// fn refresh(request: &Request<'_>, socket: &UdpSocket, buffer: &mut Vec<u8>) {
    ///     let reply = request.reply();
    ///     if let Ok(bytes) = reply.success_into(buffer).add(&Lifetime::new(600)).finish() {
    ///         drop(socket.send_to(bytes, reply.to()));
    ///     }
    /// }
    /// ```
    pub fn success_into<'b>(&self, buffer: &'b mut Vec<u8>) -> ReplyWriter<&'b mut Vec<u8>> {
        let mut memory = core::mem::take(buffer);
        self.success_in(&mut memory, buffer)
    }

    /// Begins a success response in this memory.
    fn success_in<B>(&self, memory: &mut Vec<u8>, buffer: B) -> ReplyWriter<B> {
        let page = lent(memory, |memory| self.0.success_over(memory));
        ReplyWriter {
            reply: self.clone(),
            page: page.map_err(StunWriteError::from),
            buffer,
        }
    }

    /// Begins an error response.
    ///
    /// [`finish`](ReplyWriter::finish) fails if the code is not from 300 to 699, or if the reason
    /// phrase has more than 763 bytes.
    pub fn error(&self, code: u16, reason: &str) -> ReplyWriter {
        self.error_in(code, reason, &mut Vec::new(), Vec::new())
    }

    /// Begins an error response like [`error`](Self::error), in a buffer that you keep between
    /// responses, replacing its contents.
    pub fn error_into<'b>(
        &self,
        code: u16,
        reason: &str,
        buffer: &'b mut Vec<u8>,
    ) -> ReplyWriter<&'b mut Vec<u8>> {
        let mut memory = core::mem::take(buffer);
        self.error_in(code, reason, &mut memory, buffer)
    }

    /// Begins an error response in this memory.
    fn error_in<B>(
        &self,
        code: u16,
        reason: &str,
        memory: &mut Vec<u8>,
        buffer: B,
    ) -> ReplyWriter<B> {
        ReplyWriter {
            reply: self.clone(),
            page: lent(memory, |memory| self.0.error_over(code, reason, memory)),
            buffer,
        }
    }

    /// Begins an error response with this code and the [reason phrase](reason_phrase) that is
    /// registered for it, or with an empty phrase if none is registered. [`ErrorCode`] has names
    /// for the codes.
    ///
    /// [`finish`](ReplyWriter::finish) fails if the code is not from 300 to 699.
    ///
    /// [`ErrorCode`]: crate::types::attribute::ErrorCode
    ///
    /// # Examples
    ///
    /// ```
    /// use seatcrane_stun::endpoint::Reply;
    /// use seatcrane_stun::types::attribute::ErrorCode;
    /// use seatcrane_stun::types::message::StunWriteError;
    ///
    /// fn full(reply: &Reply) -> Result<Vec<u8>, StunWriteError> {
    ///     // 508 Insufficient Capacity
    ///     reply.refuse(ErrorCode::INSUFFICIENT_CAPACITY).finish()
    /// }
    /// ```
    pub fn refuse(&self, code: u16) -> ReplyWriter {
        self.error(code, reason_phrase(code).unwrap_or_default())
    }

    /// Begins a 420 with UNKNOWN-ATTRIBUTES, for types that you do not understand in requests with
    /// some methods, or at some times. If you understand a type in no request, do not pass it to
    /// [`ServerBuilder::understands`]: the server itself then refuses requests with this type.
    ///
    /// # Examples
    ///
    /// ```
    /// use seatcrane_stun::endpoint::Request;
    /// use seatcrane_stun::types::attribute::AttributeType;
    ///
    /// /// Refuses EVEN-PORT while there are no pairs of ports left.
    /// fn refuse(request: &Request<'_>) -> Option<Vec<u8>> {
    ///     let kind = AttributeType::EVEN_PORT;
    ///     request.message().has_attribute(kind).then_some(())?;
    ///     request.reply().unknown(&[kind]).finish().ok()
    /// }
    /// ```
    pub fn unknown(&self, types: &[AttributeType]) -> ReplyWriter {
        let types = types.iter().flat_map(|kind| kind.value().to_be_bytes());
        let types: Vec<u8> = types.collect();
        let types = RawAttribute::new(AttributeType::UNKNOWN_ATTRIBUTES, &types);
        self.refuse(ErrorCode::UNKNOWN_ATTRIBUTE).add(&types)
    }
}

/// Adds attributes to a response. The first failure is stored, and [`finish`](Self::finish) returns
/// it. The bytes are a `Vec`, or a slice of the buffer that was passed to
/// [`success_into`](Reply::success_into) or [`error_into`](Reply::error_into).
#[must_use = "a response is written by `finish`"]
pub struct ReplyWriter<B = Vec<u8>> {
    reply: Reply,
    page: Result<Page, StunWriteError>,
    buffer: B,
}

type Page = BufferWriter<Global>;
type Added = Result<(), StunWriteError>;

impl<B> fmt::Debug for ReplyWriter<B> {
    fn fmt(&self, f: &mut fmt::Formatter<'_>) -> fmt::Result {
        f.debug_struct("ReplyWriter")
            .field("reply", &self.reply)
            .finish_non_exhaustive()
    }
}

impl<B> ReplyWriter<B> {
    /// Adds an attribute.
    ///
    /// # Panics
    ///
    /// Panics if [`Attribute::write_into`] of an attribute type of your own appends anything other
    /// than the attribute that `get_type` and `length` describe.
    #[allow(clippy::should_implement_trait)] // `Add` is for numbers.
    pub fn add<A: Attribute>(self, attribute: &A) -> ReplyWriter<B> {
        self.added(attribute, |page| Proved::add_attribute(page, attribute))
    }

    /// Like [`add`](Self::add), but adds the attribute even if the response already has an
    /// attribute of this type.
    ///
    /// Use it for the types that may repeat, such as XOR-PEER-ADDRESS (RFC 8656, section 9.1). A
    /// reader sees only the first attribute of any other type (RFC 8489, section 14).
    ///
    /// # Examples
    ///
    /// ```
    /// use seatcrane_stun::endpoint::Reply;
    /// use seatcrane_stun::extra::attribute::XorPeerAddress;
    /// use seatcrane_stun::types::message::StunWriteError;
    /// use std::net::SocketAddr;
    ///
    /// fn with_peers(
    ///     reply: &Reply,
    ///     peers: &[SocketAddr],
    /// ) -> Result<Vec<u8>, StunWriteError> {
    ///     let mut response = reply.success();
    ///     for peer in peers {
    ///         let attribute = XorPeerAddress::new(*peer, reply.transaction_id());
    ///         response = response.add_another(&attribute);
    ///     }
    ///     response.finish()
    /// }
    /// ```
    ///
    /// # Panics
    ///
    /// Panics in the same case as [`add`](Self::add).
    pub fn add_another<A: Attribute>(self, attribute: &A) -> ReplyWriter<B> {
        self.added(attribute, |page| {
            Proved::add_another_attribute(page, attribute)
        })
    }

    /// Adds an attribute with `add`, unless an earlier attribute could not be added.
    fn added<A: Attribute>(mut self, attribute: &A, add: impl Fn(&mut Page) -> Added) -> Self {
        if let Ok(page) = &mut self.page {
            let before = page.data().len();
            match add(page) {
                Ok(()) => check_appended(page.data(), before, attribute),
                Err(error) => self.page = Err(error),
            }
        }
        self
    }

    /// Adds XOR-MAPPED-ADDRESS with this address. An address `::ffff:a.b.c.d` is written as the
    /// IPv4 address `a.b.c.d`.
    pub fn add_xor_mapped_address(self, address: SocketAddr) -> ReplyWriter<B> {
        let id = self.reply.0.transaction_id();
        self.add(&XorMappedAddress::new(canonical(address), id))
    }

    /// Adds XOR-RELAYED-ADDRESS with this address, even if the response already has such an
    /// attribute: a TURN server that allocates an address of each family returns both (RFC 8656,
    /// section 7.2). An address `::ffff:a.b.c.d` is written as the IPv4 address `a.b.c.d`.
    pub fn add_xor_relayed_address(self, address: SocketAddr) -> ReplyWriter<B> {
        let id = self.reply.0.transaction_id();
        self.add_another(&further::XorRelayedAddress::new(canonical(address), id))
    }

    /// Adds XOR-PEER-ADDRESS with this address, even if the response already has such an attribute
    /// (RFC 8656, section 18.3). An address `::ffff:a.b.c.d` is written as the IPv4 address
    /// `a.b.c.d`.
    pub fn add_xor_peer_address(self, address: SocketAddr) -> ReplyWriter<B> {
        let id = self.reply.0.transaction_id();
        self.add_another(&further::XorPeerAddress::new(canonical(address), id))
    }

    /// Returns the bytes of the response, or the first error.
    fn bytes(reply: &Reply, page: Result<Page, StunWriteError>) -> Result<Vec<u8>, StunWriteError> {
        Ok(reply.0.finish_over(page?)?.into_std())
    }
}

impl ReplyWriter {
    /// Ends the response, and returns its bytes. Send them to [`Reply::to`].
    ///
    /// # Errors
    ///
    /// If an attribute could not be added, the call fails with the error of the first such
    /// attribute. Otherwise it fails if it cannot add SOFTWARE, the signature or FINGERPRINT. The
    /// error is always one of the errors of [`MessageWriteExt::add_attribute`].
    ///
    /// [`MessageWriteExt::add_attribute`]: crate::types::prelude::MessageWriteExt::add_attribute
    pub fn finish(self) -> Result<Vec<u8>, StunWriteError> {
        ReplyWriter::<Vec<u8>>::bytes(&self.reply, self.page)
    }
}

impl<'b> ReplyWriter<&'b mut Vec<u8>> {
    /// Ends the response, and returns the bytes in the buffer. Send them to [`Reply::to`].
    ///
    /// # Errors
    ///
    /// If an attribute could not be added, the call fails with the error of the first such
    /// attribute. Otherwise it fails if it cannot add SOFTWARE, the signature or FINGERPRINT. The
    /// error is always one of the errors of [`MessageWriteExt::add_attribute`], and the buffer is
    /// then empty.
    ///
    /// [`MessageWriteExt::add_attribute`]: crate::types::prelude::MessageWriteExt::add_attribute
    pub fn finish(self) -> Result<&'b [u8], StunWriteError> {
        *self.buffer = ReplyWriter::<Vec<u8>>::bytes(&self.reply, self.page)?;
        Ok(self.buffer)
    }
}
