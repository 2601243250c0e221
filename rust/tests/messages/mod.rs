//! Requests of a client, and the responses to them.
use seatcrane_stun::types::attribute::XorMappedAddress;
use seatcrane_stun::types::message::*;
use seatcrane_stun::types::prelude::*;
use std::net::SocketAddr;

pub fn id(number: u8) -> TransactionId {
    TransactionId::from([number; 12])
}

pub fn client_addr() -> SocketAddr {
    "10.0.0.1:12345".parse().unwrap()
}

pub fn request(number: u8) -> MessageWriteVec {
    Message::builder_request_with_id(BINDING, id(number), MessageWriteVec::new())
}

/// Writes the success response to a request that came from an address.
pub fn success<W: MessageWrite>(request: &Message<'_>, from: SocketAddr, writer: W) -> W {
    let mut response = Message::builder_success(request, writer);
    let address = XorMappedAddress::new(from, request.transaction_id());
    response.add_attribute(&address).unwrap();
    response
}
