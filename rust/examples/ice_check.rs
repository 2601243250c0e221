//! A connectivity check of ICE in each direction (RFC 8445, section 7), both agents in one process,
//! without a socket. Both begin as the controlling agent, so the first answer is a 487, and the
//! agent that receives it takes the other role. A `StunAgent` would retransmit each check until its
//! answer arrives.

use seatcrane_stun::Instant;
use seatcrane_stun::agent::StunAgent;
use seatcrane_stun::endpoint::ice::{Check, Checker, Outcome, Received, Role};
use seatcrane_stun::types::TransportType;
use seatcrane_stun::types::message::TransactionId;
use std::error::Error;
use std::net::SocketAddr;

/// The priority of a peer-reflexive candidate (RFC 8445, section 5.1.2).
const PRIORITY: u32 = 0x6e00_01ff;

/// One agent with one pair: its own address, and the address of the peer.
struct Agent {
    name: &'static str,
    checker: Checker,
    requests: StunAgent,
    peer: SocketAddr,
    check: Option<Check>,
}

impl Agent {
    /// Starts a check, and returns its bytes, to be sent to the address of the peer.
    fn send(&mut self, nominate: bool, now: Instant) -> Result<Vec<u8>, Box<dyn Error>> {
        let id = TransactionId::generate();
        let check = self.checker.check(id, self.peer, PRIORITY, nominate)?;
        let sent = self.requests.send_request(check.bytes(), check.to(), now)?;
        let bytes = sent.data.to_vec();
        self.check = Some(check);
        Ok(bytes)
    }

    /// Reads a datagram from the peer, and returns what to send back.
    fn receive(&mut self, bytes: &[u8]) -> Option<Vec<u8>> {
        match self.checker.receive(bytes, self.peer, self.check.as_ref()) {
            Received::Check { answer, judged, .. } => {
                println!("{}: the check of the peer: {judged:?}", self.name);
                return Some(answer);
            }
            Received::Response(outcome) => {
                println!("{}: the answer to my check: {outcome:?}", self.name);
                if let Outcome::RoleConflict { .. } = outcome {
                    let [number, ..] = random_numbers();
                    self.checker.set_tie_breaker(number); // RFC 8445, section 16.1
                }
                if let Some(check) = self.check.take() {
                    if let Some(mut request) = self.requests.mut_request_transaction(check.id()) {
                        request.cancel();
                    }
                }
            }
            other => println!("{}: {other:?}", self.name),
        }
        None
    }
}

/// Returns two random numbers, taken from a random transaction ID.
fn random_numbers() -> [u64; 2] {
    let number = TransactionId::generate().as_u128();
    [number as u64, (number >> 32) as u64]
}

fn main() -> Result<(), Box<dyn Error>> {
    // Each side sends the other a name and a password through its signalling. Both are random.
    let (left, right) = (
        ("evtj", "asd88fgpdd777uzjYhagZg"),
        ("h6vY", "VOkJxbRl1RmTxUk/WvJxBt"),
    );
    let (here, there): (SocketAddr, SocketAddr) =
        ("192.0.2.1:32853".parse()?, "198.51.100.7:3478".parse()?);
    let [one, other] = random_numbers();
    let agent = |name, ours, theirs, number, from, peer| -> Result<Agent, Box<dyn Error>> {
        Ok(Agent {
            name,
            checker: Checker::new(ours, theirs, number, Role::Controlling)?,
            requests: StunAgent::builder(TransportType::Udp, from).build(),
            peer,
            check: None,
        })
    };
    let mut left_agent = agent("left", left, right, one, here, there)?;
    let mut right_agent = agent("right", right, left, other, there, here)?;
    let now = Instant::ZERO;

    for nominate in [false, true] {
        let check = left_agent.send(nominate, now)?;
        let answer = right_agent.receive(&check).ok_or("no answer")?;
        left_agent.receive(&answer);
        let check = right_agent.send(nominate, now)?;
        let answer = left_agent.receive(&check).ok_or("no answer")?;
        right_agent.receive(&answer);
    }
    let (left_role, right_role) = (left_agent.checker.role(), right_agent.checker.role());
    println!("left is {left_role:?}, and right is {right_role:?}");
    if left_role == right_role {
        return Err("both agents have one role".into());
    }
    Ok(())
}
