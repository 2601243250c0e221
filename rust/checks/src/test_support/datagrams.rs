//! Addresses, times and messages that the tests of the agent share.
use crate::exported::stun_base::instant::Instant;
use crate::exported::stun_types::message::TransactionId;
use crate::host::Fail;
use std::net::{IpAddr, Ipv4Addr, SocketAddr};
use std::time::Duration;

pub const REQUEST: [u8; 2] = [0x00, 0x01];

pub const SUCCESS: [u8; 2] = [0x01, 0x01];

/// Returns an address in 10.0.0.0/24.
pub fn address(last: u8, port: u16) -> SocketAddr {
    SocketAddr::new(IpAddr::V4(Ipv4Addr::new(10, 0, 0, last)), port)
}

/// Returns the address of the agent in the tests.
pub fn local() -> SocketAddr {
    address(1, 12345)
}

/// Returns the address to which the agent in the tests sends.
pub fn peer() -> SocketAddr {
    address(2, 3478)
}

/// Returns the time that is this many milliseconds after `Instant::ZERO`.
pub fn at(millis: u64) -> Instant {
    Instant::ZERO + Duration::from_millis(millis)
}

/// Returns a message with this type and this ID, without attributes.
pub fn message(kind: [u8; 2], id: u8) -> [u8; 20] {
    [
        kind[0], kind[1], 0, 0, 0x21, 0x12, 0xa4, 0x42, 0, 0, 0, 0, 0, 0, 0, 0, 0, 0, 0, id,
    ]
}

/// Returns the ID with this number.
pub fn id(number: u8) -> Result<TransactionId, Fail> {
    Ok(TransactionId::from_u128(u128::from(number)).ok_or("each byte is an id")?)
}
