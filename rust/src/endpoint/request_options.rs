//! How a single request is sent.

use super::client_settings::Retransmission;
use crate::exported::stun_agent::agent::RequestRto;
use crate::exported::stun_client_calls::options;
use core::net::SocketAddr;

/// How a single request is sent, and which address answers it, for
/// [`Client::request_with`](super::Client::request_with). For everything that you do not set, the
/// settings of the client are used.
///
/// # Examples
///
/// TURN servers such as coturn sign their responses to Allocate, but answer Binding without asking
/// for credentials, and do not sign that answer. One client can ask for both:
///
/// ```
/// use seatcrane_stun::Instant;
/// use seatcrane_stun::endpoint::{Body, Client, RequestId, RequestOptions, StartError};
/// use seatcrane_stun::types::message::{BINDING, Method};
///
/// fn ask(client: &mut Client, now: Instant) -> Result<[RequestId; 2], StartError> {
///     let unsigned = RequestOptions::new().unsigned();
///     let address = client.request_with(BINDING, Body::new(), &unsigned, now)?;
///     let relay = client.request(Method::ALLOCATE, Body::new(), now)?;
///     Ok([address, relay])
/// }
/// ```
#[must_use]
#[derive(Clone, Copy, Debug, Default, PartialEq, Eq, Hash)]
pub struct RequestOptions {
    is_unsigned: bool,
    plan: Option<Retransmission>,
    from: Option<SocketAddr>,
}

impl RequestOptions {
    /// Creates options that change nothing: the request is sent like any other request of its
    /// client.
    pub fn new() -> RequestOptions {
        RequestOptions::default()
    }

    /// Makes the client send the request without credentials, and accept its response without a
    /// signature. No challenge is answered: a 401 ends the request as
    /// [`Refused`](super::RequestError::Refused).
    ///
    /// An attacker who can read the request, or guess its transaction ID, can forge the response.
    /// So use this only for requests whose forged response does no harm, such as a Binding request
    /// that keeps a NAT binding alive.
    pub fn unsigned(mut self) -> RequestOptions {
        self.is_unsigned = true;
        self
    }

    /// Sets when the messages of the request are sent, and when it ends.
    pub fn retransmission(mut self, plan: Retransmission) -> RequestOptions {
        self.plan = Some(plan);
        self
    }

    /// Sets the address that the response comes from, in place of the server's. The request is
    /// still sent to the server. A response from any other address, including the server's, is
    /// [`NotOurs`](super::Input::NotOurs). A server that does not know CHANGE-REQUEST answers from
    /// its own address, so the request times out: look for OTHER-ADDRESS in an earlier response
    /// before you use this.
    ///
    /// # Examples
    ///
    /// A test of a NAT (RFC 5780, section 4.4), which shows whether the NAT lets in a response that
    /// the server sends from its other address. `other` is that address, from OTHER-ADDRESS of an
    /// earlier response:
    ///
    /// ```
    /// use seatcrane_stun::Instant;
    /// use seatcrane_stun::endpoint::{Body, Client, RequestId, RequestOptions};
    /// use seatcrane_stun::extra::attribute::ChangeRequest;
    /// use seatcrane_stun::types::message::BINDING;
    /// use std::error::Error;
    /// use std::net::SocketAddr;
    ///
    /// fn ask(
    ///     client: &mut Client,
    ///     other: SocketAddr,
    ///     now: Instant,
    /// ) -> Result<RequestId, Box<dyn Error>> {
    ///     let body = Body::new().add(&ChangeRequest::new(true, true))?;
    ///     let options = RequestOptions::new().answered_from(other);
    ///     Ok(client.request_with(BINDING, body, &options, now)?)
    /// }
    /// ```
    pub fn answered_from(mut self, from: SocketAddr) -> RequestOptions {
        self.from = Some(from);
        self
    }

    /// Converts the options to those of the core, for a client that has this server and these
    /// timeouts.
    pub(super) fn core(&self, server: SocketAddr, timeouts: RequestRto) -> options::RequestOptions {
        options::RequestOptions {
            is_signed: !self.is_unsigned,
            timeouts: self.plan.map_or(timeouts, Retransmission::timeouts),
            from: self.from.unwrap_or(server),
        }
    }
}
