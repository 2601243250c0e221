//! Finds out how the NAT in front of this host treats UDP (RFC 5780, sections 4.3 and 4.4), with
//! the help of a server that has two addresses and two ports, such as `udp_server --other`.
//!
//!     nat_discovery HOST [PORT] [--within SECONDS]
//!
//! It prints the address of a socket, the address that the server sees in its place, and a
//! description of how the NAT maps addresses and what it lets in. A test without a response takes
//! the given time, by default 3 seconds. The status is 0 after a success, 1 after a failure, with
//! the reason on standard error, and 2 for wrong arguments.

#[path = "client/asker.rs"]
mod asker;

use asker::{Arguments, arguments, find};
use seatcrane_stun::endpoint::{
    Body, Client, Clock, Output, RequestError, RequestOptions, Response, Retransmission,
    random_seed,
};
use seatcrane_stun::extra::attribute::{ChangeRequest, OtherAddress};
use seatcrane_stun::extra::canonical;
use seatcrane_stun::types::message::BINDING;
use std::error::Error;
use std::net::{SocketAddr, UdpSocket};
use std::process::ExitCode;
use std::time::Duration;

/// How a NAT chooses the address that others see (RFC 4787, section 4.1).
const MAPPINGS: [&str; 4] = [
    "none: the server sees the address of the socket",
    "endpoint-independent: all hosts see the same address",
    "address-dependent: each host sees another address",
    "address and port-dependent: each port of each host sees another address",
];
/// What a NAT lets in (RFC 4787, section 5).
const FILTERINGS: [&str; 3] = [
    "endpoint-independent: any host may send",
    "address-dependent: hosts that were sent something may send",
    "address and port-dependent: ports that were sent something may send",
];

/// The contents of a response: the address that the server saw, and the server's other address, if
/// the response names one.
struct Answer {
    mapped: SocketAddr,
    other: Option<SocketAddr>,
}

impl Answer {
    fn of(response: &Response) -> Result<Answer, Box<dyn Error>> {
        let message = response.message();
        let other = message.attribute::<OtherAddress>().ok();
        Ok(Answer {
            mapped: message.xor_mapped_address()?,
            other: other.map(|found| found.addr()),
        })
    }

    /// Returns the other address of the server, whose port and IP address both differ.
    fn other(&self, server: SocketAddr) -> Result<SocketAddr, Box<dyn Error>> {
        match self.other {
            Some(other) if other.ip() != server.ip() && other.port() != server.port() => Ok(other),
            _ => Err("the server has no other address and port (OTHER-ADDRESS)".into()),
        }
    }
}

/// A socket from which tests are made, one after the other.
struct Tests {
    socket: UdpSocket,
    within: Duration,
}

impl Tests {
    /// Opens a socket at the address from which this host reaches the server.
    fn open(server: SocketAddr, within: Duration) -> Result<Tests, Box<dyn Error>> {
        let any = ["0.0.0.0:0", "[::]:0"][usize::from(server.is_ipv6())];
        let routed = UdpSocket::bind(any)?;
        routed.connect(server)?; // this sends nothing
        let socket = UdpSocket::bind((routed.local_addr()?.ip(), 0))?;
        Ok(Tests { socket, within })
    }

    /// Asks this address of the server for the address that it sees.
    fn ask(&self, to: SocketAddr) -> Result<Answer, Box<dyn Error>> {
        let answer = self.test(to, Body::new(), to)?;
        answer.ok_or_else(|| format!("no answer from {to}").into())
    }

    /// Asks the server to respond from its other address `from`, and returns `true` if that
    /// response arrives.
    fn hears(
        &self,
        server: SocketAddr,
        change: ChangeRequest,
        from: SocketAddr,
    ) -> Result<bool, Box<dyn Error>> {
        let body = Body::new().add(&change)?;
        Ok(self.test(server, body, from)?.is_some())
    }

    /// Sends a Binding request, and returns the response if one arrives from this address in time.
    /// The client ignores datagrams from other addresses.
    fn test(
        &self,
        to: SocketAddr,
        body: Body,
        from: SocketAddr,
    ) -> Result<Option<Answer>, Box<dyn Error>> {
        let part = self.within / 6; // three transmissions, at 0, 1 and 3 parts
        let plan = Retransmission::new(part, Duration::MAX, 3, 3 * part);
        let mut client = Client::builder(to).retransmission(plan).build(random_seed())?;
        let (clock, mut bytes) = (Clock::start(), [0; 4096]);
        let options = RequestOptions::new().answered_from(from);
        client.request_with(BINDING, body, &options, clock.now())?;
        loop {
            match client.poll(clock.now()) {
                Output::Transmit { bytes, .. } => drop(self.socket.send_to(bytes, to)),
                Output::Ended(_, Ok(response)) => return Answer::of(&response).map(Some),
                Output::Ended(_, Err(RequestError::TimedOut(_))) => return Ok(None),
                Output::Ended(_, Err(error)) => return Err(error.into()),
                Output::Wait(until) => {
                    self.socket.set_read_timeout(clock.timeout(until))?;
                    if let Ok((length, source)) = self.socket.recv_from(&mut bytes) {
                        let _ = client.receive(&bytes[..length], source, clock.now());
                    }
                }
                _ => {}
            }
        }
    }
}

/// Finds out the mapping (section 4.3), and returns it with the address that the server saw.
fn mapping(
    tests: &Tests,
    server: SocketAddr,
) -> Result<(SocketAddr, &'static str), Box<dyn Error>> {
    let first = tests.ask(server)?;
    if first.mapped == tests.socket.local_addr()? {
        return Ok((first.mapped, MAPPINGS[0]));
    }
    let other = first.other(server)?;
    let second = tests.ask(SocketAddr::new(other.ip(), server.port()))?;
    if second.mapped == first.mapped {
        return Ok((first.mapped, MAPPINGS[1]));
    }
    let third = tests.ask(other)?;
    let mapping = match third.mapped == second.mapped {
        true => MAPPINGS[2],
        false => MAPPINGS[3],
    };
    Ok((first.mapped, mapping))
}

/// Finds out the filtering (section 4.4). The socket must have sent nothing to the other addresses
/// of the server, because a NAT may let in everything from an address to which something was sent.
fn filtering(tests: &Tests, server: SocketAddr) -> Result<&'static str, Box<dyn Error>> {
    let other = tests.ask(server)?.other(server)?;
    if tests.hears(server, ChangeRequest::new(true, true), other)? {
        return Ok(FILTERINGS[0]);
    }
    let same_host = SocketAddr::new(server.ip(), other.port());
    match tests.hears(server, ChangeRequest::new(false, true), same_host)? {
        true => Ok(FILTERINGS[1]),
        false => Ok(FILTERINGS[2]),
    }
}

fn discover(arguments: &Arguments) -> Result<(), Box<dyn Error>> {
    let port = arguments.left.get(1).map_or("3478", String::as_str);
    // If the address is `::ffff:a.b.c.d`, it is used as `a.b.c.d`, as the server names it.
    let server = canonical(find(&arguments.left[0], port)?);
    let within = arguments.within;
    let tests = Tests::open(server, within)?;
    println!("socket     {}", tests.socket.local_addr()?);
    let (mapped, mapping) = mapping(&tests, server)?;
    println!("mapped to  {mapped}");
    println!("mapping    {mapping}");
    let filtering = filtering(&Tests::open(server, within)?, server)?;
    println!("filtering  {filtering}");
    Ok(())
}

fn main() -> ExitCode {
    let is_right = |words: &Arguments| matches!(words.left.len(), 1 | 2);
    let usage = "nat_discovery HOST [PORT] [--within SECONDS]";
    asker::run(usage, arguments(3.0, &[]).filter(is_right), discover)
}
