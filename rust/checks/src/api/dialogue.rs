//! A dialogue of a client and a server, datagram by datagram, and a socket with a simulated clock.
//!
//! The datagrams are written by hand from the tables of RFC 8489, and Python's modules `hmac` and
//! `hashlib` computed their digests. The realm is `realm`, the user is `user`, the password is
//! `pass`, and both sides support both algorithms.
use crate::exported::stun_base::instant::Instant;
use crate::exported::stun_types::message::LongTermCredentials;
use crate::host::Abort;
use crate::host::Fail;
use crate::kit::alloc::{AllocError, Global};
use crate::kit::prelude::String;
use crate::kit::prelude::Vec;
use crate::test_support::datagrams::at;
use crate::test_support::spelled::bytes_of;
use std::net::SocketAddr;

/// The first request, whose ID is made of the numbers 1, 2 and 3.
pub(crate) const REQUEST: &str = "00010000 2112a442 000000010000000200000003";

/// The answer to the first request: ERROR-CODE 401, a nonce with both security bits and sixteen
/// letters `B`, the realm and both algorithms.
pub(crate) const CHALLENGE: &str =
    "01110050 2112a442 000000010000000200000003 00090010 00000401 556e617574686f72697a6564
    0015001d 6f624d61744a6f73327741414142424242424242424242424242424242000000
    00140005 7265616c6d000000
    80020008 0002000000010000";

/// The signed request, whose ID is made of the numbers 4, 5 and 6.
pub(crate) const SIGNED_REQUEST: &str = "0001008c 2112a442 000000040000000500000006
    0015001d 6f624d61744a6f73327741414142424242424242424242424242424242000000
    00140005 7265616c6d000000
    001e0020 6a3029116b47aa98bcaa325399733dc1a23cd57e26b81bef3ff6531ce624e2da
    80020008 0002000000010000
    001d0004 00020000 001c0020 d87b172ab9c9c9deb1d0759a1d1a24116240389c45605a2bbc366b1daa79903c";

/// The answer to the signed request if its nonce has expired: ERROR-CODE 438, and a nonce with
/// sixteen letters `A`.
pub(crate) const STALE_NONCE: &str =
    "01110050 2112a442 000000040000000500000006 0009000f 00000426 5374616c65204e6f6e636500
    0015001d 6f624d61744a6f73327741414141414141414141414141414141414141000000
    00140005 7265616c6d000000
    80020008 0002000000010000";

/// The request signed with the new nonce, whose ID is made of the numbers 7, 8 and 9.
pub(crate) const RENEWED_REQUEST: &str = "0001008c 2112a442 000000070000000800000009
    0015001d 6f624d61744a6f73327741414141414141414141414141414141414141000000
    00140005 7265616c6d000000
    001e0020 6a3029116b47aa98bcaa325399733dc1a23cd57e26b81bef3ff6531ce624e2da
    80020008 0002000000010000
    001d0004 00020000 001c0020 be332b0166509c77e5404fd20eb31b7b21de938a043984e37004a2a653470a86";

/// The answer to the renewed request: XOR-MAPPED-ADDRESS 10.0.0.1:12345, signed.
pub(crate) const SUCCESS: &str =
    "01010068 2112a442 000000070000000800000009 00200008 0001112b 2b12a443
    0015001d 6f624d61744a6f73327741414141414141414141414141414141414141000000
    00140005 7265616c6d000000
    001d0004 00020000 001c0020 8d7f9f0693a1e8a0c2466571cc9b3bbf27926e270c4f3f293bfbe7927a266d0a";

/// A datagram that arrives at a given time.
pub(crate) struct Arrival {
    moment: Instant,
    from: SocketAddr,
    bytes: Vec<u8>,
}

/// Returns the datagrams of a script. Each line has the time of arrival in milliseconds, and the
/// digits of the datagram. All come from the same address.
pub(crate) fn arrivals(
    alloc: Global,
    from: SocketAddr,
    script: &[(u64, &str)],
) -> Result<Vec<Arrival>, Fail> {
    let mut arrivals = Vec::new(alloc);
    for (millis, digits) in script {
        let bytes = bytes_of(alloc, digits)?;
        arrivals.push(Arrival {
            moment: at(*millis),
            from,
            bytes,
        })?;
    }
    Ok(arrivals)
}

/// A socket at which datagrams arrive as in a script, with a simulated clock.
pub(crate) struct Socket<'a> {
    now: Instant,
    coming: &'a [Arrival],
    sent: Vec<(Instant, SocketAddr, Vec<u8>)>,
}

impl<'a> Socket<'a> {
    /// Creates a socket whose clock is at 0.
    pub(crate) fn new(alloc: Global, coming: &'a [Arrival]) -> Self {
        Socket {
            now: Instant::ZERO,
            coming,
            sent: Vec::new(alloc),
        }
    }

    /// Returns the time of its clock.
    pub(crate) fn now(&self) -> Instant {
        self.now
    }

    /// Waits for the next datagram, but not longer than until this time.
    pub(crate) fn receive(&mut self, until: Instant) -> Option<(&'a [u8], SocketAddr)> {
        match self.coming.split_first() {
            Some((first, rest)) if first.moment <= until => {
                self.coming = rest;
                self.now = self.now.max(first.moment);
                Some((first.bytes.as_slice(), first.from))
            }
            _ => {
                self.now = self.now.max(until);
                None
            }
        }
    }

    /// Sends a datagram.
    pub(crate) fn send(&mut self, bytes: &[u8], to: SocketAddr) -> Result<(), AllocError> {
        let alloc = *self.sent.allocator();
        let copy = Vec::from_slice(alloc, bytes)?;
        self.sent.push((self.now, to, copy))?;
        Ok(())
    }

    /// Checks that all datagrams of the script have arrived, and which datagrams were sent to this
    /// address: their times and their digits.
    pub(crate) fn expect_sent(
        &self,
        rt: &impl Abort,
        alloc: Global,
        to: SocketAddr,
        expected: &[(u64, &str)],
    ) -> Result<(), Fail> {
        assert!(self.coming.is_empty());
        assert_eq!(self.sent.len(), expected.len());
        for ((moment, peer, bytes), (millis, digits)) in self.sent.iter().zip(expected) {
            assert_eq!((*moment, *peer), (at(*millis), to));
            assert_eq!(bytes.as_slice(), bytes_of(alloc, digits)?.as_slice());
        }
        Ok(())
    }
}

/// Returns the user `user` with a password.
pub(crate) fn user(alloc: Global, password: &str) -> Result<LongTermCredentials, Fail> {
    Ok(LongTermCredentials::new(
        String::from_str(alloc, "user")?,
        String::from_str(alloc, password)?,
    ))
}
