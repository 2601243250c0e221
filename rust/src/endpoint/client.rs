//! A client of one server.

use super::Body;
use super::client_outcomes::{Drops, Input, Output, RequestId, StartError, result_of};
use super::client_settings::ClientBuilder;
use super::indications::Indications;
use super::request_options::RequestOptions;
use crate::Instant;
use crate::copies::granted;
use crate::exported::stun_agent::agent::RequestRto;
use crate::exported::stun_client::credentials::Credentials;
use crate::exported::stun_client_calls::endpoint::ClientEndpoint;
use crate::exported::stun_client_calls::told::Polled;
use crate::exported::stun_client_endpoint::settings::Settings;
use crate::exported::stun_client_endpoint::told::Received;
use crate::exported::stun_types::message::Method;
use crate::kit::alloc::Global;
use crate::message::Message;
use crate::stats::StunAgentStats;
#[cfg(feature = "tracing")]
use crate::trace::event;
use crate::trace::record;
use crate::transaction::TransactionId;
use crate::types::TransportType;
use alloc::vec::Vec;
use core::fmt;
use core::net::SocketAddr;

/// A client of one server on one transport, with any number of requests at the same time.
///
/// It retransmits, answers challenges and verifies signatures. Each request ends exactly once, in
/// [`Output::Ended`]. `Client` is `Send` and `Sync`, but the calls that change it take `&mut self`.
/// So let one thread or task own the client, and send it the requests of the others, as the example
/// `many` of this crate does, or put the client into a `Mutex`.
///
/// Take every `now` from one clock that never goes back, such as [`Clock`](super::Clock). If you
/// pass an earlier time than before, no call fails, but outstanding requests are not retransmitted,
/// and do not time out, until the clock has caught up.
///
/// Each request ends at the latest at the first [`poll`](Self::poll) after its time is over. If no
/// response arrives, this is at the end of its plan, after 39.5 seconds by default. If the server
/// challenges the request, the client sends another message, with a plan of its own. It does so
/// only within the first plan of the request, and after that plan it sends nothing more for the
/// request. So a request ends after at most two plans, 79 seconds by default.
/// [`Retransmission`](super::Retransmission) sets the plan.
///
/// If an allocation fails, [`request`](Client::request) returns an error, and
/// [`receive`](Client::receive) drops the datagram with
/// [`DropReason::OutOfMemory`](super::DropReason::OutOfMemory) or forgets an earlier message of the
/// request. `poll` and `cancel` do not allocate. Only [`build`](ClientBuilder::build) aborts the
/// program if an allocation fails.
///
/// # Examples
///
/// ```no_run
/// use seatcrane_stun::endpoint::{Body, Client, Clock, Output};
/// use seatcrane_stun::types::message::BINDING;
/// use std::error::Error;
/// use std::io::ErrorKind::{Interrupted, TimedOut, WouldBlock};
/// use std::net::{SocketAddr, UdpSocket};
///
/// fn my_address(
///     server: SocketAddr,
///     seed: [u8; 32],
/// ) -> Result<SocketAddr, Box<dyn Error>> {
///     let socket =
///         UdpSocket::bind(if server.is_ipv4() { "0.0.0.0:0" } else { "[::]:0" })?;
///     // so that a closed port is reported, as an error of `recv`
///     socket.connect(server)?;
///     let mut client = Client::builder(server).build(seed)?;
///     let (clock, mut buffer) = (Clock::start(), [0; 2048]);
///     client.request(BINDING, Body::new(), clock.now())?;
///     loop {
///         match client.poll(clock.now()) {
///             // lost datagrams are retransmitted
///             Output::Transmit { bytes, .. } => drop(socket.send(bytes)),
///             Output::Ended(_, result) => {
///                 return Ok(result?.message().xor_mapped_address()?);
///             }
///             Output::Wait(until) => {
///                 socket.set_read_timeout(clock.timeout(until))?;
///                 match socket.recv(&mut buffer) {
///                     Ok(n) => {
///                         drop(client.receive(&buffer[..n], server, clock.now()))
///                     }
///                     Err(e)
///                         if matches!(
///                             e.kind(),
///                             WouldBlock | TimedOut | Interrupted
///                         ) => {}
///                     Err(e) => return Err(e.into()), // nobody serves that port
///                 }
///             }
///             _ => {}
///         }
///     }
/// }
/// ```
///
/// # Challenges, and what an attacker can forge
///
/// With long-term credentials, the client answers a challenge (a 401 or a 438) with another message
/// of the same request, which has its own transaction ID. Only one message of a request is sent at
/// a time, the *current* one. But a response that is signed for any of its messages ends the
/// request, unless the response is a challenge.
///
/// `docs/DIFFERENCES.md` in the repository has the whole rule by which a client judges responses,
/// as one table under *The client's rule*. Each [`DropReason`](super::DropReason) of a client names
/// its row. `SECURITY.md` lists what each kind of forged datagram costs. In short:
///
/// - **Too many challenges** end a request. This is a challenge that refuses the current message
///   again after the message was retransmitted (over a stream, the first refusal). It is also the
///   third 401 with the same realm but a new nonce, and any challenge after six changes of the
///   current message (the default of [`challenges`](ClientBuilder::challenges)). The request then
///   fails with [`RequestError::Unauthorized`](super::RequestError::Unauthorized) if the challenge
///   is a 401 that answers a signed message, and otherwise with
///   [`RequestError::TooManyChallenges`](super::RequestError::TooManyChallenges).
/// - **An unsigned error** other than a challenge ends no request, unless you accept unsigned
///   responses, because anybody can forge one. After an unsigned 400, 437 or 441, the client may
///   send another message of the request, because servers answer a message that is signed for a
///   forged challenge with these errors.
/// - **A weaker challenge** is dropped after a success. It asks for HMAC-SHA1 in place of
///   HMAC-SHA256, or for the user name in place of its hash. So after your server's settings have
///   become weaker, one request times out, and the next one succeeds.
/// - **One forged datagram** ends no request over UDP, unless the server's own challenges have
///   brought the request to one of the limits above, or you accept unsigned responses
///   ([`accept_unsigned`](ClientBuilder::accept_unsigned), [`RequestOptions::unsigned`]). Several
///   can end a request, and an attacker who keeps the server's responses from arriving can make it
///   time out.
/// - **No forged challenge** makes a server accept a weaker algorithm than the strongest that both
///   sides support. This assumes that the server's nonces and lists of algorithms match its current
///   settings, as those of [`Server`](super::Server) do.
///
/// # Servers that do not sign Binding responses
///
/// Many TURN servers, such as coturn, answer a Binding request without asking for credentials, and
/// sign neither that response nor a 300. A client with long-term credentials drops both as
/// [`DropReason::NotVerified`](super::DropReason::NotVerified), and the request times out. So ask
/// for your address with a request of the same client that is not signed
/// ([`request_with`](Self::request_with), [`RequestOptions::unsigned`]).
pub struct Client {
    core: ClientEndpoint<Global>,
    indications: Indications,
    server: SocketAddr,
    timeouts: RequestRto,
}

/// Shows how many requests are outstanding, but not the credentials.
impl fmt::Debug for Client {
    fn fmt(&self, f: &mut fmt::Formatter<'_>) -> fmt::Result {
        let mut shown = f.debug_struct("Client");
        shown.field("outstanding", &self.outstanding()).finish_non_exhaustive()
    }
}

impl Client {
    pub(super) fn new(
        transport: TransportType,
        server: SocketAddr,
        credentials: Credentials<Global>,
        settings: Settings<Global>,
        indications: Indications,
        seed: &[u8; 32],
    ) -> Client {
        let timeouts = settings.timeouts;
        let core = ClientEndpoint::new(
            Global,
            transport,
            server,
            credentials,
            settings,
            seed,
            true,
        );
        Client {
            core: granted(core),
            indications,
            server,
            timeouts,
        }
    }

    /// Returns a builder for a client of this server.
    pub fn builder(server: SocketAddr) -> ClientBuilder {
        ClientBuilder::new(server)
    }

    /// Starts a request. [`poll`](Self::poll) returns its bytes. The method is a [`Method`], such
    /// as [`BINDING`](crate::types::message::BINDING), or a
    /// [`TurnMethod`](crate::extra::turn::TurnMethod).
    ///
    /// # Errors
    ///
    /// Returns the first of these errors that applies, except that `OutOfMemory` may come before
    /// `TooLarge`. A call that fails changes nothing.
    ///
    /// - [`StartError::NoId`]: the seed has no transaction ID left.
    /// - [`StartError::TooLarge`]: the message would be too long.
    /// - [`StartError::OutOfMemory`]: an allocation failed.
    pub fn request(
        &mut self,
        method: impl Into<Method>,
        body: Body,
        now: Instant,
    ) -> Result<RequestId, StartError> {
        let number = self.core.request(method.into(), body.core, now)?;
        Ok(RequestId(number))
    }

    /// Starts a request like [`request`](Self::request), but with options: it can be unsigned, have
    /// a plan of its own, or be answered from an address other than the server's.
    ///
    /// # Errors
    ///
    /// Returns the first of these errors that applies, except that `OutOfMemory` may come before
    /// `TooLarge`. A call that fails changes nothing.
    ///
    /// - [`StartError::NoId`]: the seed has no transaction ID left.
    /// - [`StartError::TooLarge`]: the message would be too long.
    /// - [`StartError::OutOfMemory`]: an allocation failed.
    ///
    /// # Examples
    ///
    /// A Binding request that keeps a NAT binding alive, and ends after 3.5 s without an answer:
    ///
    /// ```
    /// use seatcrane_stun::Instant;
    /// use seatcrane_stun::endpoint::{Body, Client, RequestId, RequestOptions};
    /// use seatcrane_stun::endpoint::{Retransmission, StartError};
    /// use seatcrane_stun::types::message::BINDING;
    /// use std::time::Duration;
    ///
    /// fn keep_alive(client: &mut Client, now: Instant) -> Result<RequestId, StartError> {
    ///     let ms = Duration::from_millis;
    ///     let plan = Retransmission::new(ms(500), Duration::MAX, 3, ms(2000));
    ///     let options = RequestOptions::new().unsigned().retransmission(plan);
    ///     client.request_with(BINDING, Body::new(), &options, now)
    /// }
    /// ```
    pub fn request_with(
        &mut self,
        method: impl Into<Method>,
        body: Body,
        options: &RequestOptions,
        now: Instant,
    ) -> Result<RequestId, StartError> {
        let options = options.core(self.server, self.timeouts);
        let number = self.core.request_with(method.into(), body.core, options, now)?;
        Ok(RequestId(number))
    }

    /// Returns the bytes of an indication. Send them to the server once, because an indication is
    /// not answered. Its transaction ID is derived from the seed, like the transaction IDs of
    /// requests. It has SOFTWARE and FINGERPRINT if the client is built with them. It is signed if
    /// the client has short-term credentials. Long-term credentials cannot sign an indication (RFC
    /// 8489, section 9.2).
    ///
    /// # Errors
    ///
    /// Returns the first of these errors that applies:
    ///
    /// - [`StartError::TooLarge`]: the message would be too long.
    /// - [`StartError::OutOfMemory`]: an allocation failed.
    ///
    /// # Examples
    ///
    /// Data for a peer of a TURN session. [`send_indication`](crate::extra::turn::send_indication)
    /// writes it into a buffer of yours, without a client:
    ///
    /// ```
    /// use seatcrane_stun::endpoint::{Body, Client};
    /// use seatcrane_stun::extra::attribute::Data;
    /// use seatcrane_stun::types::message::Method;
    /// use std::net::{SocketAddr, UdpSocket};
    ///
    /// fn send(
    ///     client: &mut Client,
    ///     (socket, server): (&UdpSocket, SocketAddr),
    ///     (peer, payload): (SocketAddr, &[u8]),
    /// ) -> Result<(), Box<dyn std::error::Error>> {
    ///     let body = Body::new().add_xor_peer_address(peer)?.add(&Data::new(payload))?;
    ///     socket.send_to(&client.indication(Method::SEND, &body)?, server)?;
    ///     Ok(())
    /// }
    /// ```
    pub fn indication(
        &mut self,
        method: impl Into<Method>,
        body: &Body,
    ) -> Result<Vec<u8>, StartError> {
        Ok(self.indications.write(method.into(), body)?)
    }

    /// Processes a datagram that came from the address `from`. A response is used only if it comes
    /// from the address that the [`RequestOptions`] of its request name or, if they name no
    /// address, from the server's. If the result is [`Input::NotOurs`], offer the datagram to the
    /// next client on the socket. If it is [`Input::Consumed`], call `poll`, which returns how the
    /// request ended, or another message to send.
    pub fn receive<'a>(&mut self, bytes: &'a [u8], from: SocketAddr, now: Instant) -> Input<'a> {
        let input = match self.core.receive(bytes, from, now) {
            Received::Consumed => Input::Consumed,
            Received::Indication(message) => Input::Indication(Message(message)),
            Received::NotOurs => Input::NotOurs,
            Received::Dropped(why) => Input::Dropped(why.into()),
        };
        record!(bytes, from, input, || None);
        input
    }

    /// Returns the next thing to do. Call it until it returns [`Output::Wait`]: after each
    /// `request`, `receive` and `cancel`, and when the wait is over.
    ///
    /// It first returns new messages, then messages that are due for retransmission, then requests
    /// that have ended, and last a request whose time is over. New messages are returned in the
    /// order in which their requests were started, and so are requests that have ended. If a
    /// message is due after the first plan of its request, the request ends instead.
    pub fn poll(&mut self, now: Instant) -> Output<'_> {
        #[cfg(feature = "tracing")]
        let sent_before = self.stats().bytes_sent();
        match self.core.poll(now) {
            Polled::Transmit(number) => {
                #[cfg(feature = "tracing")]
                self.record_sent(number, sent_before);
                // `poll` returns only numbers of outstanding requests, and these have bytes.
                let bytes = self.core.bytes_of(number).unwrap_or_default();
                let (request, id) = (RequestId(number), id_of(bytes));
                Output::Transmit { bytes, request, id }
            }
            Polled::Ended(number, end) => {
                let (request, result) = (RequestId(number), result_of(end));
                #[cfg(feature = "tracing")]
                super::verdict::record_end(request, &result);
                Output::Ended(request, result)
            }
            Polled::Wait(until) => Output::Wait(until),
        }
    }

    /// Ends a request with [`RequestError::Cancelled`](super::RequestError::Cancelled), which
    /// `poll` then returns. Returns `false` if the request has ended already.
    pub fn cancel(&mut self, request: RequestId) -> bool {
        self.core.cancel(request.0)
    }

    /// Returns the transaction ID of the current message of a request, or `None` if the request is
    /// not outstanding. The ID changes when another message becomes the current one, for example
    /// because of a challenge.
    pub fn transaction_id(&self, request: RequestId) -> Option<TransactionId> {
        self.core.transaction_id(request.0).map(TransactionId)
    }

    /// Returns the outstanding request that has a message with this transaction ID, the current one
    /// or an earlier one, or `None` if there is no such request. A response with this ID is for
    /// that request.
    ///
    /// # Examples
    ///
    /// ```
    /// use seatcrane_stun::Instant;
    /// use seatcrane_stun::endpoint::{Body, Client, Output};
    /// use seatcrane_stun::types::message::BINDING;
    ///
    /// let server = "192.0.2.1:3478".parse().unwrap();
    /// let mut client = Client::builder(server).build([7; 32]).unwrap();
    /// let request = client.request(BINDING, Body::new(), Instant::ZERO).unwrap();
    /// let Output::Transmit { id, .. } = client.poll(Instant::ZERO) else { panic!() };
    /// assert_eq!(client.request_of(id), Some(request));
    /// assert_eq!(client.transaction_id(request), Some(id));
    /// ```
    pub fn request_of(&self, id: TransactionId) -> Option<RequestId> {
        self.core.request_of(id.0).map(RequestId)
    }

    /// Returns how many responses to a request were dropped, and why the last of them was dropped,
    /// or `None` if the request is not outstanding.
    pub fn dropped(&self, request: RequestId) -> Option<Drops> {
        self.core.dropped(request.0).map(Drops::from)
    }

    /// Returns the number of outstanding requests.
    pub fn outstanding(&self) -> usize {
        self.core.outstanding()
    }

    /// Returns the counters of the messages and bytes that were sent and received.
    #[expect(clippy::missing_panics_doc, reason = "`build` has them kept")]
    pub fn stats(&self) -> &StunAgentStats {
        self.core.stats().expect("the client was built with them")
    }

    /// Records the event of a message that `poll` returns. If `poll` has increased the agent's
    /// count of sent bytes, the message is a retransmission, because a first transmission is
    /// counted earlier, when the message is written.
    #[cfg(feature = "tracing")]
    fn record_sent(&self, number: u64, sent_before: u64) {
        let (request, to) = (RequestId(number), self.server);
        let sent = self.core.bytes_of(number).unwrap_or_default();
        let (id, bytes) = (crate::trace::id_in(sent), sent.len());
        if self.stats().bytes_sent() > sent_before {
            event!(id, ?request, %to, bytes, "sent a request again");
        } else {
            event!(id, ?request, %to, bytes, "sent a request");
        }
    }
}

/// Returns the transaction ID of a message.
fn id_of(message: &[u8]) -> TransactionId {
    let id = message.get(8..).and_then(<[u8]>::first_chunk);
    TransactionId::from(id.copied().unwrap_or_default())
}
