//! NAT behavior discovery (RFC 5780): a server with two addresses and two ports answers a request
//! from whichever of the four the request asks for. No NAT may be in front of them.
//!
//! An attacker who forges the source of a request can have its response sent to any port of that
//! host. So PADDING in a response is only as long as PADDING in the request, and not as long as an
//! MTU, which RFC 5780 specifies.

use seatcrane_stun::endpoint::Reply;
use seatcrane_stun::extra::attribute::{
    ChangeRequest, MappedAddress, OtherAddress, Padding, ResponseOrigin, ResponsePort,
};
use seatcrane_stun::types::attribute::AttributeType;
use seatcrane_stun::types::message::{Message, StunWriteError};
use std::net::SocketAddr;

/// The attributes that the server understands in addition to those of STUN.
pub const ATTRIBUTES: [AttributeType; 3] = [
    AttributeType::CHANGE_REQUEST,
    AttributeType::RESPONSE_PORT,
    AttributeType::PADDING,
];

/// A response: its code, its bytes, the address to which it is sent, and the number of the socket
/// that sends it.
pub type Response = (u16, Vec<u8>, SocketAddr, usize);

/// Responds to a Binding request that came to the socket `at` (sections 6.1 and 7). `sockets` has
/// the addresses of the four sockets. The lower bit of the number of a socket says which port the
/// socket has, and the higher bit says which IP address.
pub fn respond(
    sockets: &[SocketAddr],
    request: &Message<'_>,
    reply: &Reply,
    at: usize,
) -> Result<Response, StunWriteError> {
    let to = reply.to();
    if is_malformed(request) {
        let refusal = reply.error(400, "Bad Request").finish()?;
        return Ok((400, refusal, to, at));
    }
    let change = request.attribute::<ChangeRequest>().ok();
    let flip = |change: ChangeRequest| {
        usize::from(change.change_ip()) << 1 | usize::from(change.change_port())
    };
    let from = at ^ change.map_or(0, flip);
    let mut success = reply
        .success()
        .add_xor_mapped_address(to)
        .add(&MappedAddress::new(to))
        .add(&ResponseOrigin::new(sockets[from]))
        .add(&OtherAddress::new(sockets[at ^ 3]));
    if let Ok(padding) = request.attribute::<Padding>() {
        success = success.add(&padding);
    }
    let port = request.attribute::<ResponsePort>();
    let port = port.map_or(to.port(), |found| found.port());
    Ok((200, success.finish()?, SocketAddr::new(to.ip(), port), from))
}

/// Returns whether CHANGE-REQUEST or RESPONSE-PORT is malformed, or the request has both
/// RESPONSE-PORT and PADDING (section 7.5).
fn is_malformed(request: &Message<'_>) -> bool {
    let has = |kind| request.has_attribute(kind);
    has(AttributeType::CHANGE_REQUEST) && request.attribute::<ChangeRequest>().is_err()
        || has(AttributeType::RESPONSE_PORT)
            && (request.attribute::<ResponsePort>().is_err() || has(AttributeType::PADDING))
}
