//! Servers without a realm: a server without credentials, and a server with short-term credentials.

use super::given::{Given, text_of};
use super::server::{
    Received, Request, is_of_other_method, lent, received_of, request_of, shared,
};
use super::{BuildError, DropReason, Reply, UserError};
use crate::copies::{granted, text};
use crate::credentials::ShortTermCredentials;
use crate::exported::stun_base::attribute_type::AttributeType;
use crate::exported::stun_endpoint::{buffered, open, responder, short_term};
use crate::exported::stun_extra::canonical_address::canonical;
use crate::exported::stun_types::message::{IntegrityAlgorithm, Method};
use crate::kit::alloc::Global;
use crate::kit::prelude::{String as KitString, Vec as KitVec};
use crate::message::Message;
use crate::ported::STUN;
use crate::trace::record;
use alloc::string::String;
use alloc::vec::Vec;
use core::fmt;
use core::net::SocketAddr;

/// The settings that all kinds of servers have. By default a server understands only the attributes
/// of STUN, adds no SOFTWARE, accepts requests with any method, and returns Binding requests to
/// you.
///
/// # Examples
///
/// ```
/// use seatcrane_stun::endpoint::{OpenServer, ResponseSettings};
///
/// let settings = ResponseSettings::new().answer_binding(true).software("example 1.0");
/// let server = OpenServer::new(settings)?;
/// # Ok::<(), seatcrane_stun::endpoint::BuildError>(())
/// ```
#[must_use = "settings are passed to a server"]
#[derive(Clone, Debug, Default)]
pub struct ResponseSettings {
    pub(super) understood: Vec<AttributeType>,
    pub(super) software: Option<String>,
    pub(super) answers_binding: bool,
    pub(super) requires_fingerprint: bool,
    pub(super) methods: Option<Vec<Method>>,
}

impl ResponseSettings {
    /// Returns the default settings.
    pub fn new() -> ResponseSettings {
        ResponseSettings::default()
    }

    /// Adds types of attributes that you understand, in addition to those of STUN.
    /// [`types`](super::types) has lists.
    pub fn understands(mut self, types: &[AttributeType]) -> ResponseSettings {
        let further = types.iter().filter(|kind| !STUN.contains(kind));
        self.understood.extend(further);
        self
    }

    /// Removes types from those that you understand, so that a request with an attribute of one of
    /// these types gets a 420. Call it after [`understands`](Self::understands) to leave types out
    /// of a list in [`types`](super::types). The types of STUN itself are always understood.
    pub fn does_not_understand(mut self, types: &[AttributeType]) -> ResponseSettings {
        self.understood.retain(|kind| !types.contains(kind));
        self
    }

    /// Sets the text of SOFTWARE in each response.
    pub fn software(mut self, text: impl Into<String>) -> ResponseSettings {
        self.software = Some(text.into());
        self
    }

    /// Sets whether the server itself responds to each accepted Binding request. By default it
    /// returns the request to you.
    pub fn answer_binding(mut self, answers: bool) -> ResponseSettings {
        self.answers_binding = answers;
        self
    }

    /// Sets whether messages without FINGERPRINT are dropped (RFC 8489, section 7.3), as a protocol
    /// may require. By default they are not. A message whose FINGERPRINT is wrong, is not the last
    /// attribute or does not have 4 bytes is always dropped.
    pub fn require_fingerprint(mut self, required: bool) -> ResponseSettings {
        self.requires_fingerprint = required;
        self
    }

    /// Sets the methods that you serve: requests and indications with any other method are dropped
    /// before they are judged any further (RFC 8489, section 6.3). By default a server accepts all
    /// methods, and you have to refuse the requests that you do not serve. Include
    /// [`BINDING`](crate::types::message::BINDING) in the list if you serve it.
    ///
    /// # Examples
    ///
    /// ```
    /// use seatcrane_stun::endpoint::{
    ///     DropReason, OpenReceived, OpenServer, ResponseSettings,
    /// };
    /// use seatcrane_stun::types::message::{BINDING, Method};
    ///
    /// let settings = ResponseSettings::new().methods(&[BINDING, Method::SEND]);
    /// let server = OpenServer::new(settings.answer_binding(true))?;
    /// let allocate = b"\0\x03\0\0\x21\x12\xa4\x42 any 12 byte";
    /// match server.receive(allocate, "192.0.2.1:4242".parse()?) {
    ///     OpenReceived::Dropped(why) => assert_eq!(why, DropReason::OtherMethod),
    ///     other => panic!("{other:?}"),
    /// }
    /// # Ok::<(), Box<dyn std::error::Error>>(())
    /// ```
    pub fn methods(mut self, methods: &[Method]) -> ResponseSettings {
        self.methods = Some(methods.to_vec());
        self
    }

    /// Converts the settings to those of the core.
    pub(super) fn core(self) -> Result<responder::ResponseSettings<Global>, BuildError> {
        let mut understood = KitVec::new(Global);
        understood
            .extend_from_slice(&self.understood)
            .map_err(|_| BuildError::OutOfMemory)?;
        Ok(responder::ResponseSettings {
            understood,
            software: self.software.map(text),
            answers_binding: self.answers_binding,
            requires_fingerprint: self.requires_fingerprint,
        })
    }
}

/// A STUN server without credentials, which answers everybody and signs nothing. It stores nothing
/// about its clients, so a flood of datagrams uses no memory, and threads can share it without a
/// lock.
///
/// # Examples
///
/// A server that answers everybody with the address that it sees:
///
/// ```no_run
/// use seatcrane_stun::endpoint::{OpenReceived, OpenServer, ResponseSettings};
/// use std::net::UdpSocket;
///
/// # fn main() -> Result<(), Box<dyn std::error::Error>> {
/// let server = OpenServer::new(ResponseSettings::new().answer_binding(true))?;
/// let socket = UdpSocket::bind("0.0.0.0:3478")?;
/// let mut buffer = [0; 2048];
/// loop {
///     let (length, from) = socket.recv_from(&mut buffer)?;
///     match server.receive(&buffer[..length], from) {
///         OpenReceived::Answer(answer) => {
///             drop(socket.send_to(answer.bytes(), answer.to()));
///         }
///         OpenReceived::Dropped(why) => eprintln!("dropped: {why}"),
///         // an indication, a response, or a request with another method than Binding
///         _ => {}
///     }
/// }
/// # }
/// ```
pub struct OpenServer {
    core: open::OpenServer<Global>,
    methods: Option<Vec<Method>>,
}

impl fmt::Debug for OpenServer {
    fn fmt(&self, f: &mut fmt::Formatter<'_>) -> fmt::Result {
        f.write_str("OpenServer { .. }")
    }
}

impl OpenServer {
    /// Builds a server.
    ///
    /// # Errors
    ///
    /// Returns the first of these errors that applies:
    ///
    /// - [`BuildError::SoftwareTooLong`]: the text of SOFTWARE has more than 763 bytes.
    /// - [`BuildError::OutOfMemory`]: an allocation failed.
    pub fn new(settings: ResponseSettings) -> Result<OpenServer, BuildError> {
        let methods = settings.methods.clone();
        let core = open::OpenServer::new(Global, settings.core()?)?;
        Ok(OpenServer { core, methods })
    }

    /// Judges a datagram, and writes the response if the server itself responds.
    ///
    /// `from` is the address that the datagram came from. The two forms of an IPv4 address,
    /// `a.b.c.d` and `::ffff:a.b.c.d`, count as the same address.
    ///
    /// - Bytes that are not a message, messages with a wrong FINGERPRINT, and requests and
    ///   indications with a method that you do not serve ([`methods`](ResponseSettings::methods))
    ///   are dropped.
    /// - A request gets a 420 if it has an attribute that is not understood, and a success if it is
    ///   a Binding request and you called `answer_binding`. All other requests are returned to you.
    ///   Signatures are not checked.
    /// - An indication with an attribute that is not understood is dropped. Other indications, and
    ///   responses, are returned to you.
    pub fn receive<'a>(&self, bytes: &'a [u8], from: SocketAddr) -> OpenReceived<'a> {
        let mut buffer = KitVec::new(Global);
        let received = self.judged(bytes, from, &mut buffer);
        let received = open_of_core(received, buffer.into_std());
        record!(bytes, from, received, || None);
        received
    }

    /// Judges a datagram, and writes a response into the buffer.
    fn judged<'a>(
        &self,
        bytes: &'a [u8],
        from: SocketAddr,
        buffer: &mut KitVec<u8>,
    ) -> Result<buffered::OpenReceivedInto<'a, Global>, DropReason> {
        if is_of_other_method(self.methods.as_deref(), bytes) {
            buffer.clear();
            return Err(DropReason::OtherMethod);
        }
        Ok(self.core.receive_into(bytes, from, buffer)?)
    }

    /// Judges a datagram like [`receive`](Self::receive), and writes the response into a buffer
    /// that you keep between datagrams, replacing its contents. The buffer is empty afterwards if
    /// there is no response. Once the buffer is large enough, a Binding request is answered without
    /// an allocation.
    ///
    /// # Examples
    ///
    /// ```no_run
    /// use seatcrane_stun::endpoint::{OpenReceived, OpenServer};
    /// use std::net::UdpSocket;
    ///
    /// fn serve(server: &OpenServer, socket: &UdpSocket) -> std::io::Result<()> {
    ///     let (mut datagram, mut buffer) = ([0; 2048], Vec::with_capacity(128));
    ///     loop {
    ///         let (length, from) = socket.recv_from(&mut datagram)?;
    ///         let received = server.receive_into(&datagram[..length], from, &mut buffer);
    ///         if let OpenReceived::Answer(answer) = received {
    ///             socket.send_to(answer.bytes(), answer.to())?;
    ///         }
    ///     }
    /// }
    /// ```
    pub fn receive_into<'a, 'b>(
        &self,
        bytes: &'a [u8],
        from: SocketAddr,
        buffer: &'b mut Vec<u8>,
    ) -> OpenReceived<'a, &'b [u8]> {
        let received = lent(buffer, |buffer| self.judged(bytes, from, buffer));
        let received = open_of_core(received, buffer.as_slice());
        record!(bytes, from, received, || None);
        received
    }
}

/// Converts an outcome of the core to the type of this module, with the bytes of the response.
fn open_of_core<B>(
    received: Result<buffered::OpenReceivedInto<'_, Global>, DropReason>,
    bytes: B,
) -> OpenReceived<'_, B> {
    received_of(received, bytes, open_request_of, Message)
}

/// Converts a request of the core to the type of this module, or returns `None` if there is no
/// memory for its reply.
fn open_request_of(request: open::OpenRequest<'_, Global>) -> Option<OpenRequest<'_>> {
    let message = Message(crate::copies::copy(request.message()));
    let reply = Reply(shared(request.into_reply())?);
    Some(OpenRequest { message, reply })
}

/// The outcome of a datagram at an [`OpenServer`]. Anybody may have sent its requests and
/// indications.
///
/// # Examples
///
/// ```
/// use seatcrane_stun::endpoint::OpenReceived;
///
/// /// Returns the response to send, if there is one now.
/// fn response(received: OpenReceived<'_>) -> Option<Vec<u8>> {
///     match received {
///         OpenReceived::Answer(answer) => Some(answer.into_bytes()),
///         OpenReceived::Request(request) => {
///             request.reply().error(400, "Bad Request").finish().ok()
///         }
///         _ => None, // an indication, a response, or a datagram that is dropped
///     }
/// }
/// ```
pub type OpenReceived<'a, B = Vec<u8>> = Received<'a, B, OpenRequest<'a>>;

/// A request to an [`OpenServer`]. Anybody may have sent it.
///
/// # Examples
///
/// ```
/// use seatcrane_stun::endpoint::OpenRequest;
///
/// fn answer(request: &OpenRequest<'_>) -> Option<Vec<u8>> {
///     request.reply().success().add_xor_mapped_address(request.from()).finish().ok()
/// }
/// ```
#[must_use = "the request waits for a response"]
#[derive(Debug)]
pub struct OpenRequest<'a> {
    message: Message<'a>,
    reply: Reply,
}

impl<'a> OpenRequest<'a> {
    /// Returns the message.
    #[must_use]
    pub fn message(&self) -> &Message<'a> {
        &self.message
    }

    /// Returns the method of the request.
    #[must_use]
    pub fn method(&self) -> Method {
        self.message.method()
    }

    /// Returns the address that the request came from. An IPv4 address is returned as `a.b.c.d`,
    /// even if it came as `::ffff:a.b.c.d`. Send the response to [`Reply::to`], which has the form
    /// that you passed to `receive`, because an IPv6 socket needs `::ffff:a.b.c.d`.
    #[must_use]
    pub fn from(&self) -> SocketAddr {
        canonical(self.reply.to())
    }

    /// Returns the [`Reply`] to the request. The reply is not signed. Clone it to respond later.
    #[must_use]
    pub fn reply(&self) -> &Reply {
        &self.reply
    }
}

/// A STUN server with short-term credentials (RFC 8489, section 9.1): each request and each
/// indication has the name of a user and is signed with the user's password. It stores nothing
/// about its clients, so a flood of datagrams uses no memory, and threads can share it without a
/// lock.
///
/// # Examples
///
/// ```
/// use seatcrane_stun::endpoint::{
///     ResponseSettings, ShortTermReceived, ShortTermServer, ShortTermUsers,
/// };
/// use seatcrane_stun::types::message::ShortTermCredentials;
/// use std::net::SocketAddr;
///
/// # fn main() -> Result<(), Box<dyn std::error::Error>> {
/// let server =
///     ShortTermServer::new(ResponseSettings::new().answer_binding(true))?;
/// let mut users = ShortTermUsers::new();
/// users.add("alice", ShortTermCredentials::new("wonderland".to_string()))?;
///
/// fn response(
///     (server, users): (&ShortTermServer, &ShortTermUsers),
///     bytes: &[u8],
///     from: SocketAddr,
/// ) -> Option<Vec<u8>> {
///     match server.receive(bytes, from, users) {
///         ShortTermReceived::Answer(answer) => Some(answer.into_bytes()),
///         ShortTermReceived::Request(request) => {
///             request.reply().success().finish().ok()
///         }
///         _ => None, // an indication, a response, or a datagram that is dropped
///     }
/// }
/// # let from = "192.0.2.1:4242".parse()?;
/// # assert_eq!(response((&server, &users), b"no message", from), None);
/// # Ok(())
/// # }
/// ```
pub struct ShortTermServer {
    core: short_term::ShortTermServer<Global>,
    methods: Option<Vec<Method>>,
}

impl fmt::Debug for ShortTermServer {
    fn fmt(&self, f: &mut fmt::Formatter<'_>) -> fmt::Result {
        f.write_str("ShortTermServer { .. }")
    }
}

impl ShortTermServer {
    /// Builds a server.
    ///
    /// # Errors
    ///
    /// Returns the first of these errors that applies:
    ///
    /// - [`BuildError::SoftwareTooLong`]: the text of SOFTWARE has more than 763 bytes.
    /// - [`BuildError::OutOfMemory`]: an allocation failed.
    pub fn new(settings: ResponseSettings) -> Result<ShortTermServer, BuildError> {
        let methods = settings.methods.clone();
        let core = short_term::ShortTermServer::new(Global, settings.core()?)?;
        Ok(ShortTermServer { core, methods })
    }

    /// Judges a datagram, and writes the response if the server itself responds.
    ///
    /// `from` is the address that the datagram came from. The two forms of an IPv4 address,
    /// `a.b.c.d` and `::ffff:a.b.c.d`, count as the same address.
    ///
    /// - Bytes that are not a message, messages with a wrong FINGERPRINT, and requests and
    ///   indications with a method that you do not serve ([`methods`](ResponseSettings::methods))
    ///   are dropped.
    /// - A request gets the response of the first of these lines that applies:
    ///   - 400: it has neither MESSAGE-INTEGRITY nor MESSAGE-INTEGRITY-SHA256, or no USERNAME
    ///     before the integrity attribute.
    ///   - 401: USERNAME is not the name of one of `users`, or the signature was not made with the
    ///     user's password.
    ///   - 420, which is signed: it has an attribute that is not understood.
    ///   - Success: it is a Binding request, and you called `answer_binding`.
    ///
    ///   All other requests are returned to you. A 400 and a 401 are not signed (RFC 8489, section
    ///   9.1.3). All other responses are signed with the same algorithm as the request.
    /// - An indication is dropped if a request with the same attributes would get a 400
    ///   ([`UnsignedIndication`](DropReason::UnsignedIndication)) or a 401
    ///   ([`UnauthenticatedIndication`](DropReason::UnauthenticatedIndication)), or if it has an
    ///   attribute that is not understood. Other indications, and responses, are returned to you.
    pub fn receive<'a>(
        &self,
        bytes: &'a [u8],
        from: SocketAddr,
        users: &'a ShortTermUsers,
    ) -> ShortTermReceived<'a> {
        let mut buffer = KitVec::new(Global);
        let received = self.judged(bytes, from, users, &mut buffer);
        let received = signed_of_core(received, buffer.into_std());
        record!(bytes, from, received, || None);
        received
    }

    /// Judges a datagram, and writes a response into the buffer.
    fn judged<'a>(
        &self,
        bytes: &'a [u8],
        from: SocketAddr,
        users: &'a ShortTermUsers,
        buffer: &mut KitVec<u8>,
    ) -> Result<buffered::ShortTermReceivedInto<'a, Global>, DropReason> {
        if is_of_other_method(self.methods.as_deref(), bytes) {
            buffer.clear();
            return Err(DropReason::OtherMethod);
        }
        Ok(self.core.receive_into(bytes, from, &users.core, buffer)?)
    }

    /// Judges a datagram like [`receive`](Self::receive), and writes the response into a buffer
    /// that you keep between datagrams, replacing its contents. The buffer is empty afterwards if
    /// there is no response.
    pub fn receive_into<'a, 'b>(
        &self,
        bytes: &'a [u8],
        from: SocketAddr,
        users: &'a ShortTermUsers,
        buffer: &'b mut Vec<u8>,
    ) -> ShortTermReceived<'a, &'b [u8]> {
        let received = lent(buffer, |buffer| self.judged(bytes, from, users, buffer));
        let received = signed_of_core(received, buffer.as_slice());
        record!(bytes, from, received, || None);
        received
    }
}

/// Converts an outcome of the core to the type of this module, with the bytes of the response.
fn signed_of_core<B>(
    received: Result<buffered::ShortTermReceivedInto<'_, Global>, DropReason>,
    bytes: B,
) -> ShortTermReceived<'_, B> {
    received_of(received, bytes, request_of, |indication| {
        indication_of(&indication)
    })
}

/// Converts an indication of the core to the type of this module.
fn indication_of<'a>(
    indication: &short_term::ShortTermIndication<'a>,
) -> ShortTermIndication<'a> {
    ShortTermIndication {
        message: Message(crate::copies::copy(indication.message())),
        user: indication.user(),
        algorithm: indication.algorithm(),
    }
}

/// The outcome of a datagram at a [`ShortTermServer`], whose requests and indications are signed by
/// its users. An indication that no user has signed is dropped as
/// [`UnsignedIndication`](DropReason::UnsignedIndication) or
/// [`UnauthenticatedIndication`](DropReason::UnauthenticatedIndication).
///
/// # Examples
///
/// ```
/// use seatcrane_stun::endpoint::ShortTermReceived;
///
/// fn log(received: &ShortTermReceived<'_>) {
///     match received {
///         ShortTermReceived::Indication(indication) => {
///             println!("an indication by {}", indication.user())
///         }
///         ShortTermReceived::Dropped(why) => println!("dropped: {why}"),
///         _ => {}
///     }
/// }
/// ```
pub type ShortTermReceived<'a, B = Vec<u8>> =
    Received<'a, B, Request<'a>, ShortTermIndication<'a>>;

/// An indication that a user has signed.
///
/// # Examples
///
/// ```
/// use seatcrane_stun::endpoint::ShortTermReceived;
///
/// fn log(received: &ShortTermReceived<'_>) {
///     if let ShortTermReceived::Indication(indication) = received {
///         println!("{} by {}", indication.user(), indication.algorithm());
///     }
/// }
/// ```
#[derive(Debug)]
pub struct ShortTermIndication<'a> {
    message: Message<'a>,
    user: &'a str,
    algorithm: IntegrityAlgorithm,
}

impl<'a> ShortTermIndication<'a> {
    /// Returns the message.
    #[must_use]
    pub fn message(&self) -> &Message<'a> {
        &self.message
    }

    /// Returns the name of the user who has signed the indication.
    #[must_use]
    pub fn user(&self) -> &'a str {
        self.user
    }

    /// Returns the algorithm of the signature.
    #[must_use]
    pub fn algorithm(&self) -> IntegrityAlgorithm {
        self.algorithm
    }
}

/// The users of a [`ShortTermServer`], by name. A table works with every [`ShortTermServer`].
///
/// To change the users of a running server, change a clone of the table, and then use the clone in
/// place of the table.
///
/// # Examples
///
/// ```
/// use seatcrane_stun::endpoint::ShortTermUsers;
/// use seatcrane_stun::types::message::ShortTermCredentials;
///
/// let mut users = ShortTermUsers::new();
/// users.add("alice", ShortTermCredentials::new("wonderland".to_string()))?;
/// assert!(users.contains("alice") && users.len() == 1);
/// # Ok::<(), seatcrane_stun::endpoint::UserError>(())
/// ```
pub struct ShortTermUsers {
    core: short_term::ShortTermUsers<Global>,
    passwords: Given<ShortTermCredentials>,
}

/// Shows how many users there are, but not their names.
impl fmt::Debug for ShortTermUsers {
    fn fmt(&self, f: &mut fmt::Formatter<'_>) -> fmt::Result {
        let mut shown = f.debug_struct("ShortTermUsers");
        shown.field("len", &self.len()).finish_non_exhaustive()
    }
}

impl Default for ShortTermUsers {
    fn default() -> ShortTermUsers {
        ShortTermUsers::new()
    }
}

impl Clone for ShortTermUsers {
    fn clone(&self) -> ShortTermUsers {
        let mut copy = ShortTermUsers::new();
        for (name, password) in self.passwords.iter() {
            let core = &mut copy.core;
            let add = || core.add(text_of(name), password.to_proved());
            granted(copy.passwords.add(name, password.clone(), add));
        }
        copy
    }
}

impl ShortTermUsers {
    /// Returns an empty table.
    #[must_use]
    pub fn new() -> ShortTermUsers {
        ShortTermUsers {
            core: short_term::ShortTermUsers::new(Global),
            passwords: Given::new(),
        }
    }

    /// Adds a user with a password. If the table already has a user with this name, the password
    /// replaces the old one.
    ///
    /// # Errors
    ///
    /// [`UserError::OutOfMemory`]: an allocation failed. The table is unchanged.
    pub fn add(
        &mut self,
        name: impl Into<String>,
        credentials: ShortTermCredentials,
    ) -> Result<(), UserError> {
        let (name, core) = (name.into(), &mut self.core);
        let proved = credentials.to_proved();
        let add = || core.add(KitString::from_str(Global, &name)?, proved);
        Ok(self.passwords.add(&name, credentials, add)?)
    }

    /// Removes a user, so that messages that name this user are refused from now on. Returns
    /// `false` if there was no user with this name.
    pub fn remove(&mut self, name: &str) -> bool {
        self.core.remove(name);
        self.passwords.remove(name)
    }

    /// Returns the number of users, in constant time.
    pub fn len(&self) -> usize {
        self.passwords.len()
    }

    /// Returns `true` if there is no user.
    pub fn is_empty(&self) -> bool {
        self.len() == 0
    }

    /// Returns `true` if there is a user with this name, in logarithmic time.
    pub fn contains(&self, name: &str) -> bool {
        self.passwords.contains(name)
    }

    /// Returns the names of the users, in the order of their bytes.
    pub fn names(&self) -> impl Iterator<Item = &str> {
        self.passwords.iter().map(|(name, _)| name)
    }
}
