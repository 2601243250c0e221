//! The transaction layer: sending requests, retransmitting them and giving up on them (RFC 8489,
//! section 6.2).
//!
//! A [`StunAgent`] stores every outstanding request together with its retransmission timer. It
//! performs no I/O: it owns no socket and reads no clock. You drive it from your own event loop, in
//! the steps of `docs/PARTS.md` in the repository. After every call that takes `&mut self`, call
//! [`StunAgent::poll_transmit`] until it returns `None`, and then [`StunAgent::poll`], because only
//! `poll_transmit` advances the timers. The page of [`auth`](crate::auth) has a whole loop.
//!
//! # Examples
//!
//! A request to a server that never answers, on a simulated clock:
//!
//! ```
//! use seatcrane_stun::Instant;
//! use seatcrane_stun::agent::{StunAgent, StunAgentPollRet};
//! use seatcrane_stun::types::TransportType;
//! use seatcrane_stun::types::message::{
//!     BINDING, Message, MessageWriteVec, TransactionId,
//! };
//! use seatcrane_stun::types::prelude::*;
//!
//! # fn main() -> Result<(), Box<dyn std::error::Error>> {
//! let (local, server) = ("192.0.2.1:4242".parse()?, "198.51.100.7:3478".parse()?);
//! let mut agent = StunAgent::builder(TransportType::Udp, local).build();
//!
//! let id = TransactionId::from(*b"any 12 bytes"); // yours must be unpredictable
//! let request =
//!     Message::builder_request_with_id(BINDING, id, MessageWriteVec::new())
//!         .finish();
//! let mut now = Instant::ZERO;
//! agent.send_request(&request, server, now)?; // send the bytes that it returns
//!
//! let mut retransmissions = 0;
//! loop {
//!     while let Some(_transmit) = agent.poll_transmit(now) {
//!         retransmissions += 1; // send `_transmit.data` to `_transmit.to`
//!     }
//!     match agent.poll(now) {
//!         // sleep, or wait for a datagram
//!         StunAgentPollRet::WaitUntil(time) => now = time,
//!         StunAgentPollRet::TransactionTimedOut(_) => break,
//!         StunAgentPollRet::TransactionCancelled(_) => {
//!             unreachable!("nobody canceled it")
//!         }
//!     }
//! }
//! assert_eq!(retransmissions, 6); // seven transmissions in all
//! assert_eq!(now.as_nanos(), 39_500_000_000); // 39.5 s after the first one
//!
//! # Ok(())
//! # }
//! ```

use crate::Instant;
use crate::copies::granted;
use crate::exported::stun_agent::agent as proved;
use crate::exported::stun_base::transport::TransportType;
use crate::exported::stun_types::message::IntegrityAlgorithm;
use crate::kit::alloc::Global;
use crate::message::Message;
use crate::stats::StunAgentStats;
use crate::trace::event;
use crate::transaction::TransactionId;
use crate::transmit::{Data, Lent};
use core::fmt;
use core::net::SocketAddr;
use core::time::Duration;

pub use crate::exported::stun_agent::agent::StunError;
pub use crate::transmit::Transmit;

/// The result of [`StunAgent::poll`].
///
/// # Examples
///
/// ```
/// use seatcrane_stun::Instant;
/// use seatcrane_stun::agent::StunAgentPollRet;
/// use std::time::Duration;
///
/// /// Returns how long a loop may wait for a datagram, or `None` to poll again at once.
/// fn wait(polled: StunAgentPollRet, now: Instant) -> Option<Duration> {
///     match polled {
///         StunAgentPollRet::WaitUntil(time) => Some(time - now),
///         StunAgentPollRet::TransactionTimedOut(id) => {
///             eprintln!("no response to {id}");
///             None
///         }
///         StunAgentPollRet::TransactionCancelled(_) => None,
///     }
/// }
/// # let polled = StunAgentPollRet::WaitUntil(Instant::from_nanos(500_000_000));
/// # assert_eq!(wait(polled, Instant::ZERO), Some(Duration::from_millis(500)));
/// ```
#[derive(Clone, Copy, Debug, PartialEq, Eq)]
pub enum StunAgentPollRet {
    /// The request with this transaction ID has ended: no response arrived in time.
    TransactionTimedOut(TransactionId),
    /// The request with this transaction ID has ended because you canceled it or its
    /// retransmissions ([`StunRequestMut::cancel`], [`StunRequestMut::cancel_retransmissions`]).
    TransactionCancelled(TransactionId),
    /// No request has ended. Poll again at this time, or earlier if you make another call first.
    WaitUntil(Instant),
}

/// Configures and builds a [`StunAgent`].
///
/// By default the agent may send to any address, uses the timeouts of RFC 8489, section 6.2.1, and
/// keeps no statistics.
///
/// # Examples
///
/// An agent that sends only to one server, gives up after 3 seconds, and keeps statistics:
///
/// ```
/// use seatcrane_stun::agent::{StunAgent, StunError};
/// use seatcrane_stun::types::TransportType;
/// use std::time::Duration;
///
/// # let local = "192.0.2.1:4242".parse().unwrap();
/// # let server = "198.51.100.7:3478".parse().unwrap();
/// # let other = "203.0.113.5:3478".parse().unwrap();
/// let second = Duration::from_secs(1);
/// let agent = StunAgent::builder(TransportType::Udp, local)
///     .remote_addr(server)
///     .request_retransmits(second, second, 3, second)
///     .stats(true)
///     .build();
///
/// assert_eq!(agent.send_data(b"media", other), Err(StunError::ProtocolViolation));
/// assert_eq!(agent.stats().unwrap().requests_sent(), 0);
/// ```
#[must_use = "an agent is made by `build`"]
#[derive(Debug)]
pub struct StunAgentBuilder(proved::StunAgentBuilder);

impl StunAgentBuilder {
    /// Restricts sending to a single remote address.
    ///
    /// Sending to any other address then fails with [`StunError::ProtocolViolation`]. Receiving is
    /// not restricted.
    pub fn remote_addr(self, address: SocketAddr) -> StunAgentBuilder {
        StunAgentBuilder(self.0.remote_addr(address))
    }

    /// Sets the retransmission timeouts.
    ///
    /// - `initial` is the wait after the first transmission (RTO in the RFC). Each further wait is
    ///   twice the wait before it.
    /// - `max` is an upper bound on those waits.
    /// - `retransmits` is the number of transmissions over UDP, the first one included (Rc in the
    ///   RFC). 0 counts as 1.
    /// - `final_wait` is how long to wait for a response after the last transmission.
    ///
    /// The default is 500 ms, no upper bound, 7 transmissions and 8 s.
    ///
    /// Over TCP a request is sent once, and the agent waits for the response as long as it would
    /// wait over UDP in total.
    ///
    /// If `initial` or `max` is zero, all transmissions are due at the same time.
    pub fn request_retransmits(
        self,
        initial: Duration,
        max: Duration,
        retransmits: u32,
        final_wait: Duration,
    ) -> StunAgentBuilder {
        StunAgentBuilder(
            self.0
                .request_retransmits(initial, max, retransmits, final_wait),
        )
    }

    /// Sets whether the agent keeps statistics. The default is `false`.
    pub fn stats(self, stats: bool) -> StunAgentBuilder {
        StunAgentBuilder(self.0.stats(stats))
    }

    /// Builds the agent.
    #[must_use]
    pub fn build(self) -> StunAgent {
        StunAgent(self.0.build())
    }
}

/// The outstanding requests of one local address, with their retransmission timers.
///
/// An agent can have any number of requests outstanding, to any number of servers or peers. The
/// [module documentation](self) shows how to drive it.
///
/// The agent also stores the source address of every message that it accepted. These addresses are
/// called *validated peers*. The list grows until you call
/// [`forget_validated_peer`](StunAgent::forget_validated_peer), so limit the number of strangers
/// whose messages you pass to the agent.
///
/// An agent does not verify signatures. Use the [authenticators](crate::auth) to find out who sent
/// a message.
pub struct StunAgent(proved::StunAgent);

impl fmt::Debug for StunAgent {
    fn fmt(&self, f: &mut fmt::Formatter<'_>) -> fmt::Result {
        f.debug_struct("StunAgent")
            .field("transport", &self.transport())
            .field("local_addr", &self.local_addr())
            .field("remote_addr", &self.remote_addr())
            .finish_non_exhaustive()
    }
}

impl StunAgent {
    /// Creates a builder for an agent that sends from `local_addr` over `transport`.
    ///
    /// # Examples
    ///
    /// ```
    /// use seatcrane_stun::agent::StunAgent;
    /// use seatcrane_stun::types::TransportType;
    /// use std::time::Duration;
    ///
    /// let local = "192.0.2.1:4242".parse().unwrap();
    /// // Three transmissions, at 0, 200 and 600 ms, and the timeout at 1600 ms.
    /// let (initial, max) = (Duration::from_millis(200), Duration::MAX);
    /// let agent = StunAgent::builder(TransportType::Udp, local)
    ///     .request_retransmits(initial, max, 3, Duration::from_secs(1))
    ///     .build();
    /// assert_eq!(agent.local_addr(), local);
    /// ```
    pub fn builder(transport: TransportType, local_addr: SocketAddr) -> StunAgentBuilder {
        StunAgentBuilder(proved::StunAgent::builder(Global, transport, local_addr))
    }

    /// Returns the transport that carries the messages.
    pub fn transport(&self) -> TransportType {
        self.0.transport()
    }

    /// Returns the address that the agent sends from.
    pub fn local_addr(&self) -> SocketAddr {
        self.0.local_addr()
    }

    /// Returns the only address that the agent may send to, or `None` if
    /// [`StunAgentBuilder::remote_addr`] did not set one.
    pub fn remote_addr(&self) -> Option<SocketAddr> {
        self.0.remote_addr()
    }

    /// Returns the statistics, or `None` if the agent keeps none.
    pub fn stats(&self) -> Option<&StunAgentStats> {
        self.0.stats()
    }

    /// Returns a mutable reference to the statistics, or `None` if the agent keeps none. Use it to
    /// reset them.
    pub fn stats_mut(&mut self) -> Option<&mut StunAgentStats> {
        self.0.stats_mut()
    }

    /// Wraps bytes that are not STUN, such as media, in a [`Transmit`].
    ///
    /// The agent stores nothing and counts nothing.
    ///
    /// # Errors
    ///
    /// Fails with [`StunError::ProtocolViolation`] if the agent has a fixed remote address and `to`
    /// is a different one.
    pub fn send_data<T: AsRef<[u8]>>(
        &self,
        bytes: T,
        to: SocketAddr,
    ) -> Result<Transmit<T>, StunError> {
        self.0.send_data(Lent(bytes), to).map(lent)
    }

    /// Wraps a response or an indication in a [`Transmit`], and counts it in the statistics.
    ///
    /// The agent does not store the message, because nothing answers it. To send a request, call
    /// [`send_request`](StunAgent::send_request). `now` is not used.
    ///
    /// # Errors
    ///
    /// Returns the first of these errors that applies. The agent is then unchanged.
    ///
    /// - [`StunError::ParseError`]: the bytes do not start with a STUN header.
    /// - [`StunError::ProtocolViolation`]: the message is a request, or the agent has a fixed
    ///   remote address and `to` is a different one.
    pub fn send<T: AsRef<[u8]>>(
        &mut self,
        message: T,
        to: SocketAddr,
        now: Instant,
    ) -> Result<Transmit<T>, StunError> {
        self.0.send(Lent(message), to, now).map(lent)
    }

    /// Stores a request, starts its retransmission timer, and returns the bytes to send now.
    ///
    /// The request stays outstanding until one of these happens:
    ///
    /// - [`handle_stun_message_with_time`](StunAgent::handle_stun_message_with_time) accepts its
    ///   response;
    /// - [`poll`](StunAgent::poll) reports that it timed out or was canceled.
    ///
    /// Until then [`poll_transmit`](StunAgent::poll_transmit) returns the same bytes again each
    /// time a retransmission is due.
    ///
    /// Each request needs a new, unpredictable transaction ID. This includes the signed request
    /// that you send after a 401 or a 438, so build that request from scratch.
    ///
    /// # Errors
    ///
    /// Returns the first of these errors that applies. The agent is then unchanged.
    ///
    /// - [`StunError::ParseError`]: the bytes do not start with a STUN header.
    /// - [`StunError::ProtocolViolation`]: the message is not a request, or the agent has a fixed
    ///   remote address and `to` is a different one.
    /// - [`StunError::AlreadyInProgress`]: a request with this transaction ID is outstanding.
    /// - [`StunError::OutOfMemory`]: the request could not be stored.
    ///
    /// # Examples
    ///
    /// ```
    /// # use seatcrane_stun::Instant;
    /// # use seatcrane_stun::agent::{StunAgent, StunError};
    /// # use seatcrane_stun::types::TransportType;
    /// # use seatcrane_stun::types::message::{BINDING, Message, MessageWriteVec, TransactionId};
    /// # use seatcrane_stun::types::prelude::*;
    /// # let local = "192.0.2.1:4242".parse().unwrap();
    /// # let server = "198.51.100.7:3478".parse().unwrap();
    /// # let id = TransactionId::from(*b"any 12 bytes");
    /// let mut agent = StunAgent::builder(TransportType::Udp, local).build();
    /// let request = Message::builder_request_with_id(BINDING, id, MessageWriteVec::new());
    /// let request = request.finish();
    ///
    /// let transmit = agent.send_request(&request, server, Instant::ZERO)?;
    /// assert_eq!((&*transmit.data, transmit.to), (&*request, server));
    /// // socket.send_to(&transmit.data, transmit.to)?;
    ///
    /// // The same transaction ID cannot be used twice at the same time.
    /// let again = agent.send_request(&request, server, Instant::ZERO);
    /// assert_eq!(again.unwrap_err(), StunError::AlreadyInProgress);
    /// # Ok::<(), StunError>(())
    /// ```
    pub fn send_request<T: AsRef<[u8]>>(
        &mut self,
        message: T,
        to: SocketAddr,
        now: Instant,
    ) -> Result<Transmit<Data<'_>>, StunError> {
        let sent = self.0.send_request(Lent(message), to, now)?;
        event!(id = crate::trace::id_in(sent.data), %to, bytes = sent.data.len(), "sent a request");
        Ok(Transmit::new(
            Data::Borrowed(sent.data),
            sent.transport,
            sent.from,
            sent.to,
        ))
    }

    /// Returns `true` if the agent has accepted a message from this address, or if
    /// [`validated_peer`](StunAgent::validated_peer) was called for it, and the address has not
    /// been forgotten since.
    pub fn is_validated_peer(&self, address: SocketAddr) -> bool {
        self.0.is_validated_peer(address)
    }

    /// Adds an address to the validated peers, as if a message from it had been accepted.
    ///
    /// This does not affect which messages the agent accepts.
    pub fn validated_peer(&mut self, address: SocketAddr) {
        granted(self.0.validated_peer(address));
    }

    /// Returns the number of validated peers, in constant time.
    pub fn validated_peer_count(&self) -> usize {
        self.0.validated_peer_count()
    }

    /// Removes an address from the validated peers.
    ///
    /// Requests to that address stay outstanding. When the next message from that address is
    /// accepted, the address is added again.
    pub fn forget_validated_peer(&mut self, address: SocketAddr) {
        self.0.forget_validated_peer(address);
    }

    /// Like [`handle_stun_message_with_time`](StunAgent::handle_stun_message_with_time), but does
    /// not measure the round-trip time.
    #[must_use = "drop a message that is not accepted"]
    pub fn handle_stun_message(&mut self, message: &Message<'_>, from: SocketAddr) -> bool {
        let is_accepted = granted(self.0.handle_stun_message(&message.0, from));
        event!(id = %message.transaction_id(), %from, is_accepted, "got a message");
        is_accepted
    }

    /// Processes a message that arrived from `from`, and returns whether the agent accepts it. Drop
    /// a message that is not accepted.
    ///
    /// - A response is accepted if it answers an outstanding request that was sent to exactly this
    ///   address. That request ends.
    /// - Any other response is not accepted, and changes nothing.
    /// - A request or an indication is always accepted. The agent does not answer it.
    ///
    /// The source of an accepted message becomes a validated peer.
    ///
    /// A round trip is measured only if the response arrives before
    /// [`poll_transmit`](StunAgent::poll_transmit) has returned the first retransmission of its
    /// request, or would have returned it if you had not stopped the retransmissions. After that it
    /// is unclear which transmission was answered.
    ///
    /// # Security
    ///
    /// Call the authenticator before this call. The agent does not verify the signature, so an
    /// attacker who can send from the server's address and knows the transaction ID could end your
    /// request with a forged response.
    ///
    /// # Examples
    ///
    /// ```
    /// # use seatcrane_stun::Instant;
    /// # use seatcrane_stun::agent::StunAgent;
    /// # use seatcrane_stun::types::TransportType;
    /// # use seatcrane_stun::types::message::{BINDING, Message, MessageWriteVec, TransactionId};
    /// # use seatcrane_stun::types::prelude::*;
    /// # let (local, server) = ("192.0.2.1:4242".parse()?, "198.51.100.7:3478".parse()?);
    /// # let stranger = "203.0.113.5:3478".parse()?;
    /// # let mut agent = StunAgent::builder(TransportType::Udp, local).build();
    /// # let id = TransactionId::from(*b"any 12 bytes");
    /// # let request = Message::builder_request_with_id(BINDING, id, MessageWriteVec::new());
    /// # let request = request.finish();
    /// # agent.send_request(&request, server, Instant::ZERO)?;
    /// # let request = Message::from_bytes(&request)?;
    /// # let mut success = Message::builder_success(&request, MessageWriteVec::new());
    /// # success.add_xor_mapped_address(local)?;
    /// # let datagram = success.finish();
    /// // `datagram` holds the server's success response to an outstanding request.
    /// let response = Message::from_bytes(&datagram)?;
    /// let now = Instant::from_nanos(20_000_000);
    ///
    /// assert!(!agent.handle_stun_message_with_time(&response, stranger, now));
    /// assert!(agent.handle_stun_message_with_time(&response, server, now));
    /// assert_eq!(response.xor_mapped_address()?, local);
    ///
    /// // The request has ended, so a duplicate of its response is not accepted.
    /// assert!(!agent.handle_stun_message_with_time(&response, server, now));
    /// # Ok::<(), Box<dyn std::error::Error>>(())
    /// ```
    #[must_use = "drop a message that is not accepted"]
    pub fn handle_stun_message_with_time(
        &mut self,
        message: &Message<'_>,
        from: SocketAddr,
        now: Instant,
    ) -> bool {
        let is_accepted = granted(self.0.handle_stun_message_with_time(&message.0, from, now));
        event!(id = %message.transaction_id(), %from, is_accepted, "got a message");
        is_accepted
    }

    /// Returns the outstanding request with this transaction ID, or `None` if there is no such
    /// request.
    pub fn request_transaction(&self, id: TransactionId) -> Option<StunRequest<'_>> {
        let request = self.0.request_transaction(id.0)?;
        let (peer_address, integrity) = (request.peer_address(), request.integrity());
        Some(StunRequest {
            agent: self,
            peer_address,
            integrity,
        })
    }

    /// Returns a handle to the outstanding request with this transaction ID, or `None` if there is
    /// no such request. Use it to cancel the request, or to change its timeouts.
    ///
    /// # Examples
    ///
    /// ```
    /// # use seatcrane_stun::Instant;
    /// # use seatcrane_stun::agent::{StunAgent, StunAgentPollRet};
    /// # use seatcrane_stun::types::TransportType;
    /// # use seatcrane_stun::types::message::{BINDING, Message, MessageWriteVec, TransactionId};
    /// # use seatcrane_stun::types::prelude::*;
    /// # let (local, server) = ("192.0.2.1:4242".parse()?, "198.51.100.7:3478".parse()?);
    /// # let now = Instant::ZERO;
    /// # let mut agent = StunAgent::builder(TransportType::Udp, local).build();
    /// # let id = TransactionId::from(*b"any 12 bytes");
    /// let request = Message::builder_request_with_id(BINDING, id, MessageWriteVec::new());
    /// agent.send_request(&request, server, now)?;
    ///
    /// if let Some(mut request) = agent.mut_request_transaction(id) {
    ///     request.cancel();
    /// }
    /// assert_eq!(agent.poll(now), StunAgentPollRet::TransactionCancelled(id));
    /// assert!(agent.mut_request_transaction(id).is_none());
    /// # Ok::<(), Box<dyn std::error::Error>>(())
    /// ```
    pub fn mut_request_transaction(&mut self, id: TransactionId) -> Option<StunRequestMut<'_>> {
        let StunRequest {
            peer_address,
            integrity,
            ..
        } = self.request_transaction(id)?;
        Some(StunRequestMut {
            agent: self,
            id,
            peer_address,
            integrity,
        })
    }

    /// Ends at most one request and returns which one, or returns the time at which to poll again.
    ///
    /// If several requests have ended, each call reports one of them, so call again at once after a
    /// call that reports a request. [`StunAgentPollRet::WaitUntil`] is never before `now` and at
    /// most one hour after it. Poll again at that time, and after every other call that takes `&mut
    /// self`.
    ///
    /// Call [`poll_transmit`](StunAgent::poll_transmit) first, until it returns `None`. See the
    /// [module documentation](self) for the whole loop.
    #[must_use = "the end of a request is returned once"]
    pub fn poll(&mut self, now: Instant) -> StunAgentPollRet {
        use proved::StunAgentPollRet as Proved;
        match self.0.poll(now) {
            Proved::TransactionTimedOut(id) => {
                event!(id = %TransactionId(id), "a request timed out");
                StunAgentPollRet::TransactionTimedOut(TransactionId(id))
            }
            Proved::TransactionCancelled(id) => {
                event!(id = %TransactionId(id), "a request was canceled");
                StunAgentPollRet::TransactionCancelled(TransactionId(id))
            }
            Proved::WaitUntil(moment) => StunAgentPollRet::WaitUntil(moment),
        }
    }

    /// Returns the next retransmission that is due, or `None` if no retransmission is due.
    ///
    /// Each call returns one request at most, so call until it returns `None`. When many requests
    /// are due at once, you may send some of them, read from your socket, and continue: no
    /// retransmission is lost.
    ///
    /// The bytes are borrowed from the agent and are not copied. The first transmission of a
    /// request comes from [`send_request`](StunAgent::send_request) and is not returned here.
    #[must_use = "the bytes are returned once"]
    pub fn poll_transmit(&mut self, now: Instant) -> Option<Transmit<&[u8]>> {
        let sent = self.0.poll_transmit(now)?;
        event!(
            id = crate::trace::id_in(sent.data),
            to = %sent.to,
            bytes = sent.data.len(),
            "sent a request again"
        );
        Some(Transmit::new(sent.data, sent.transport, sent.from, sent.to))
    }
}

/// Converts a `Transmit` of the core to one with the caller's type of bytes.
fn lent<T: AsRef<[u8]>>(sent: proved::Transmit<Lent<T>>) -> Transmit<T> {
    Transmit::new(sent.data.0, sent.transport, sent.from, sent.to)
}

/// An outstanding request, returned by [`StunAgent::request_transaction`].
///
/// # Examples
///
/// Checking whether a response may be passed to an authenticator: it must answer an outstanding
/// request, and come from the address that the request was sent to.
///
/// ```
/// use seatcrane_stun::agent::StunAgent;
/// use seatcrane_stun::types::message::Message;
/// use std::net::SocketAddr;
///
/// fn is_awaited(agent: &StunAgent, response: &Message<'_>, from: SocketAddr) -> bool {
///     let request = agent.request_transaction(response.transaction_id());
///     request.is_some_and(|request| request.peer_address() == from)
/// }
/// # use seatcrane_stun::types::TransportType;
/// # let here = "192.0.2.1:4242".parse().unwrap();
/// # let response = Message::from_bytes(b"\x01\x01\0\0\x21\x12\xa4\x42 any 12 byte").unwrap();
/// # let agent = StunAgent::builder(TransportType::Udp, here).build();
/// # assert!(!is_awaited(&agent, &response, here));
/// ```
#[derive(Debug, Clone)]
pub struct StunRequest<'a> {
    agent: &'a StunAgent,
    peer_address: SocketAddr,
    integrity: Option<IntegrityAlgorithm>,
}

impl StunRequest<'_> {
    /// Returns the address that the request was sent to.
    #[must_use]
    pub fn peer_address(&self) -> SocketAddr {
        self.peer_address
    }

    /// Returns the algorithm of the request's integrity attribute, or `None` if the request has no
    /// such attribute. If it has both integrity attributes, this is HMAC-SHA256.
    #[must_use]
    pub fn integrity(&self) -> Option<IntegrityAlgorithm> {
        self.integrity
    }

    /// Returns the agent that sent the request.
    #[must_use]
    pub fn agent(&self) -> &StunAgent {
        self.agent
    }
}

/// A mutable handle to an outstanding request, returned by [`StunAgent::mut_request_transaction`].
///
/// If the request ends while you have the handle, the calls that change the request have no effect.
/// The peer address and the algorithm can still be read.
///
/// # Examples
///
/// Changing the timeouts of a single request:
///
/// ```
/// use seatcrane_stun::agent::StunAgent;
/// use seatcrane_stun::types::message::TransactionId;
/// use std::time::Duration;
///
/// /// Lets a request wait for at most a second, with two transmissions.
/// fn hurry(agent: &mut StunAgent, id: TransactionId) {
///     if let Some(mut request) = agent.mut_request_transaction(id) {
///         request.configure_timeout(
///             Duration::from_millis(400),
///             2,
///             Duration::from_millis(600),
///         );
///     }
/// }
/// # use seatcrane_stun::types::TransportType;
/// # let here = "192.0.2.1:4242".parse().unwrap();
/// # hurry(&mut StunAgent::builder(TransportType::Udp, here).build(), [0; 12].into());
/// ```
#[derive(Debug)]
pub struct StunRequestMut<'a> {
    agent: &'a mut StunAgent,
    id: TransactionId,
    peer_address: SocketAddr,
    integrity: Option<IntegrityAlgorithm>,
}

impl StunRequestMut<'_> {
    /// Returns the address that the request was sent to.
    #[must_use]
    pub fn peer_address(&self) -> SocketAddr {
        self.peer_address
    }

    /// Returns the algorithm of the request's integrity attribute, or `None` if the request has no
    /// such attribute. If it has both integrity attributes, this is HMAC-SHA256.
    #[must_use]
    pub fn integrity(&self) -> Option<IntegrityAlgorithm> {
        self.integrity
    }

    /// Returns the agent that sent the request.
    #[must_use]
    pub fn agent(&self) -> &StunAgent {
        self.agent
    }

    /// Returns a mutable reference to the agent that sent the request. Calls on the agent may end
    /// the request.
    pub fn mut_agent(&mut self) -> &mut StunAgent {
        self.agent
    }

    /// Stops retransmitting the request, but still waits for its response.
    ///
    /// The request ends at the time at which it would otherwise have timed out, and
    /// [`StunAgent::poll`] then reports it as canceled. An ICE agent uses this when a check has
    /// become pointless but its answer is still welcome.
    #[allow(clippy::redundant_closure_for_method_calls, reason = "the path is of one lifetime")]
    pub fn cancel_retransmissions(&mut self) {
        self.change(|request| request.cancel_retransmissions());
    }

    /// Cancels the request: it is not retransmitted, and a following [`StunAgent::poll`] reports it
    /// as canceled.
    ///
    /// Until that poll the request is still outstanding: its transaction ID cannot be reused, and a
    /// response that arrives earlier is accepted.
    #[allow(clippy::redundant_closure_for_method_calls, reason = "the path is of one lifetime")]
    pub fn cancel(&mut self) {
        self.change(|request| request.cancel());
    }

    /// Replaces the timeouts of this request: the wait after the first transmission, the number of
    /// transmissions over UDP, and the wait after the last one.
    ///
    /// The new timeouts take effect as if they had been set from the start. Timeouts that have
    /// already passed still count, and the current wait still starts at the last transmission. The
    /// waits between transmissions have no upper bound, even if the builder set one: use
    /// [`configure_timeout_with_max`](StunRequestMut::configure_timeout_with_max) to set a bound.
    pub fn configure_timeout(
        &mut self,
        initial: Duration,
        retransmits: u32,
        last_retransmit: Duration,
    ) {
        self.change(|request| request.configure_timeout(initial, retransmits, last_retransmit));
    }

    /// Like [`configure_timeout`](StunRequestMut::configure_timeout), with an upper bound on the
    /// waits between transmissions.
    ///
    /// [`StunAgentBuilder::request_retransmits`] describes what waits of zero do.
    pub fn configure_timeout_with_max(
        &mut self,
        initial: Duration,
        retransmits: u32,
        last_retransmit: Duration,
        max: Duration,
    ) {
        self.change(|request| {
            request.configure_timeout_with_max(initial, retransmits, last_retransmit, max);
        });
    }

    /// Applies a change to the request. Does nothing if the request is no longer outstanding.
    fn change(&mut self, change: impl FnOnce(&mut proved::StunRequestMut<'_>)) {
        if let Some(mut request) = self.agent.0.mut_request_transaction(self.id.0) {
            change(&mut request);
        }
    }
}
