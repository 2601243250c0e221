//! A session at a TURN server over UDP (RFC 8656): Allocate, CreatePermission for all peers, data
//! by indications, ChannelBind, data on the channel, and a Refresh that ends it.
//!
//!     turn_client HOST PORT NAME PASSWORD PEER PORT [PEER PORT].. [--address] [--within SECONDS]
//!
//! Each peer must send back the data that arrives, as `turnutils_peer` of coturn does. The program
//! prints what was allocated, and which data came back. With `--address` it asks for its own
//! address before and after the allocation, with an unsigned Binding request, because many servers
//! do not sign the response. It ends the allocation even after an error. The status is 0 after a
//! success, 1 after a failure, with the reason on standard error, and 2 for wrong arguments.

#[path = "client/asker.rs"]
mod asker;

use asker::{Arguments, Asker, arguments, find};
use seatcrane_stun::endpoint::{Body, Client, Credentials, RequestOptions, Response};
use seatcrane_stun::extra::attribute::*;
use seatcrane_stun::extra::turn::{ChannelData, TurnMethod};
use seatcrane_stun::types::message::*;
use seatcrane_stun::types::prelude::*;
use std::error::Error;
use std::net::SocketAddr;
use std::process::ExitCode;
use std::time::Duration;

const USAGE: &str =
    "turn_client HOST PORT NAME PASSWORD PEER PORT [PEER PORT].. [--address] [--within SECONDS]";
/// The channel of the first peer. The second peer has the next channel, and so on.
const FIRST_CHANNEL: u16 = 0x4000;
/// Data that does not come back is retransmitted after this time.
const REPEAT: Duration = Duration::from_millis(500);

type Failure = Box<dyn Error>;

struct Session {
    asker: Asker,
    peers: Vec<SocketAddr>,
    has_address: bool,
}

/// Returns data for a peer in a Send indication (RFC 8656, section 11). Indications are not signed.
fn indication(peer: SocketAddr, text: &str) -> Result<Vec<u8>, StunWriteError> {
    let mut page = Message::builder_indication(TurnMethod::Send.method(), MessageWriteVec::new());
    let id = page.transaction_id();
    page.add_attribute(&XorPeerAddress::new(peer, id))?;
    page.add_attribute(&Data::new(text.as_bytes()))?;
    Ok(page.finish())
}

/// Returns whether a datagram is a Data indication with this text from this peer.
fn is_indication(bytes: &[u8], peer: SocketAddr, text: &str) -> bool {
    let Ok(message) = Message::from_bytes(bytes) else {
        return false;
    };
    let from = message.attribute::<XorPeerAddress>();
    message.has_class(MessageClass::Indication)
        && message.has_method(TurnMethod::Data.method())
        && from.is_ok_and(|from| from.addr(message.transaction_id()) == peer)
        && message
            .attribute::<Data>()
            .is_ok_and(|data| data.data() == text.as_bytes())
}

/// Returns the bytes of a ChannelData message (RFC 8656, section 12.4).
fn on_channel(channel: u16, text: &str) -> Vec<u8> {
    let (mut bytes, data) = (Vec::new(), ChannelData::new(channel, text.as_bytes()));
    data.expect("a channel, and a short text").write(&mut bytes);
    bytes
}

impl Session {
    fn ask(&mut self, method: TurnMethod, body: Body) -> Result<Response, Failure> {
        let asked = self.asker.ask(method.method(), body);
        asked.map_err(|error| format!("{method:?}: {error}").into())
    }

    /// Asks for the address of this socket, if `--address` was given. This also keeps the binding
    /// of a NAT alive.
    fn address(&mut self) -> Result<(), Failure> {
        if self.has_address {
            let unsigned = RequestOptions::new().unsigned();
            let response = self.asker.ask_with(BINDING, Body::new(), &unsigned)?;
            println!("address {}", response.message().xor_mapped_address()?);
        }
        Ok(())
    }

    fn allocate(&mut self) -> Result<(), Failure> {
        let mut body = Body::new().add(&RequestedTransport::new(RequestedTransport::UDP))?;
        if self.peers[0].is_ipv6() {
            // The relayed address is an IPv4 address unless a family is requested.
            body = body.add(&RequestedAddressFamily::new(AddressFamily::Ipv6))?;
        }
        let response = self.ask(TurnMethod::Allocate, body)?;
        let message = response.message();
        let relayed = message.attribute::<XorRelayedAddress>();
        let lifetime = message.attribute::<Lifetime>();
        let (Ok(relayed), Ok(lifetime)) = (relayed, lifetime) else {
            return Err("Allocate: no address or no lifetime".into());
        };
        let relayed = relayed.addr(message.transaction_id());
        println!("relayed {relayed} for {} s", lifetime.seconds());
        Ok(())
    }

    /// Permits all peers with one request, because XOR-PEER-ADDRESS may repeat.
    fn permit(&mut self) -> Result<(), Failure> {
        let mut body = Body::new();
        for peer in &self.peers {
            body = body.add_xor_peer_address(*peer)?;
        }
        self.ask(TurnMethod::CreatePermission, body).map(drop)
    }

    fn bind(&mut self, channel: u16, peer: SocketAddr) -> Result<(), Failure> {
        let body = Body::new().add(&ChannelNumber::new(channel)?)?;
        let body = body.add_xor_peer_address(peer)?;
        self.ask(TurnMethod::ChannelBind, body).map(drop)
    }

    /// Sends data until it comes back, because nothing else shows whether it arrived.
    fn carry(
        &mut self,
        what: &str,
        data: &[u8],
        is_it: impl Fn(&[u8]) -> bool,
    ) -> Result<(), Failure> {
        let mut next = self.asker.now();
        while !self.asker.is_late() {
            if self.asker.now() >= next {
                self.asker.send(data);
                next += REPEAT;
            }
            if self.asker.receive(next)?.is_some_and(&is_it) {
                println!("came back: {what}");
                return Ok(());
            }
        }
        Err(format!("{what}: nothing came back").into())
    }

    fn exchange(&mut self) -> Result<(), Failure> {
        self.permit()?;
        for (channel, peer) in (FIRST_CHANNEL..).zip(self.peers.clone()) {
            let what = "by indication";
            self.carry(what, &indication(peer, what)?, |bytes| {
                is_indication(bytes, peer, what)
            })?;
            self.bind(channel, peer)?;
            let (what, sent) = ("on the channel", on_channel(channel, "on the channel"));
            self.carry(what, &sent, |bytes| bytes.starts_with(&sent))?; // padding may follow
        }
        Ok(())
    }

    fn run(&mut self) -> Result<(), Failure> {
        self.address()?;
        self.allocate()?;
        let exchanged = self.address().and_then(|()| self.exchange());
        self.asker.extend(Duration::from_secs(1));
        let ended = self.ask(TurnMethod::Refresh, Body::new().add(&Lifetime::new(0))?);
        if ended.is_ok() {
            println!("ended");
        }
        exchanged?;
        ended?;
        Ok(())
    }
}

fn session(arguments: &Arguments) -> Result<(), Failure> {
    let left = &arguments.left;
    let server = find(&left[0], &left[1])?;
    let peers = left[4..].chunks(2).map(|pair| find(&pair[0], &pair[1]));
    let user = Credentials::long_term(&*left[2], &*left[3]);
    let asker = Asker::new(
        server,
        Client::builder(server).credentials(user),
        arguments.within,
    )?;
    let peers = peers.collect::<Result<_, _>>()?;
    let has_address = arguments.has_address;
    Session { asker, peers, has_address }.run()
}

fn main() -> ExitCode {
    let is_right = |words: &Arguments| words.left.len() >= 6 && words.left.len() % 2 == 0;
    asker::run(USAGE, arguments(30.0, &["--address"]).filter(is_right), session)
}
