//! Makes one call of an agent many times, so that `bench/agent_cost.py` can count the instructions
//! of one:
//!
//! ```text
//! valgrind --tool=callgrind --callgrind-out-file=/dev/null agent_cost crate send 100000 600
//! ```
//!
//! The agent is `crate` (`StunAgent`) or `plain` (`plain_agent.rs`), and has 100,000 requests
//! outstanding, which were all sent at the same time. The call is `send`, `again` (`poll_transmit`
//! while all requests are due), `response` or, for `crate` only, `cancel` or `end` (`poll` after
//! all requests have timed out). The difference between 600 and 100 times, divided by 500, is the
//! cost of one call. All messages are made before the calls, and their number does not depend on
//! the number of calls.

mod plain_agent;

use plain_agent::PlainAgent;
use seatcrane_stun::Instant;
use seatcrane_stun::agent::{StunAgent, StunAgentPollRet};
use seatcrane_stun::types::TransportType;
use seatcrane_stun::types::message::*;
use seatcrane_stun::types::prelude::*;
use std::net::SocketAddr;
use std::time::Duration;

const MOST: usize = 1000;

/// Returns the ID of the request with this number, of which 64 bits look random.
fn id(number: usize) -> TransactionId {
    let mut bits = (number as u64 + 1).wrapping_mul(0x9E37_79B9_7F4A_7C15);
    bits ^= bits >> 30;
    bits = bits.wrapping_mul(0xBF58_476D_1CE4_E5B9);
    bits ^= bits >> 27;
    let mut id = [0x55; 12];
    id[..8].copy_from_slice(&bits.to_be_bytes());
    TransactionId::from(id)
}

fn at(millis: u64) -> Instant {
    Instant::ZERO + Duration::from_millis(millis)
}

fn local() -> SocketAddr {
    ([192, 0, 2, 2], 4242).into()
}

fn remote() -> SocketAddr {
    ([192, 0, 2, 1], 3478).into()
}

fn request(number: usize) -> Vec<u8> {
    Message::builder_request_with_id(BINDING, id(number), MessageWriteVec::new()).finish()
}

fn response(number: usize) -> Vec<u8> {
    let request = request(number);
    let request = Message::from_bytes(&request).unwrap();
    let mut response = Message::builder_success(&request, MessageWriteVec::new());
    response.add_xor_mapped_address(local()).unwrap();
    response.finish()
}

/// The messages that are sent and received in the calls that are counted.
struct Messages {
    requests: Vec<Vec<u8>>,
    responses: Vec<Vec<u8>>,
}

fn of_crate(call: &str, size: usize, times: usize, messages: &Messages) {
    let mut agent = StunAgent::builder(TransportType::Udp, local()).build();
    for number in 0..size {
        agent.send_request(request(number), remote(), at(0)).unwrap();
    }
    if call == "end" {
        for millis in [500, 1500, 3500, 7500, 15500, 31500] {
            while agent.poll_transmit(at(millis)).is_some() {}
        }
    }
    for number in 0..times {
        match call {
            "send" => {
                let bytes = &messages.requests[number][..];
                agent.send_request(bytes, remote(), at(1)).unwrap();
            }
            "again" => assert!(agent.poll_transmit(at(500)).is_some()),
            "response" => {
                let message = Message::from_bytes(&messages.responses[number]).unwrap();
                assert!(agent.handle_stun_message_with_time(&message, remote(), at(3)));
            }
            "cancel" => agent.mut_request_transaction(id(number)).unwrap().cancel(),
            _ => assert!(matches!(
                agent.poll(at(60_000)),
                StunAgentPollRet::TransactionTimedOut(_)
            )),
        }
    }
    std::mem::forget(agent);
}

fn of_plain(call: &str, size: usize, times: usize, messages: &Messages) {
    let mut agent = PlainAgent::default();
    for number in 0..size {
        agent.send_request(&request(number), remote(), at(0));
    }
    for number in 0..times {
        match call {
            "send" => agent.send_request(&messages.requests[number], remote(), at(1)),
            "again" => assert!(agent.poll_transmit(at(500)).is_some()),
            _ => {
                let message = Message::from_bytes(&messages.responses[number]).unwrap();
                assert!(agent.response(&message, remote(), at(3)).is_some());
            }
        }
    }
    std::mem::forget(agent);
}

fn main() {
    let words: Vec<String> = std::env::args().skip(1).collect();
    let [who, call, size, times] = &words[..] else {
        panic!("agent_cost WHO CALL SIZE TIMES");
    };
    let (size, times): (usize, usize) = (size.parse().unwrap(), times.parse().unwrap());
    let messages = Messages {
        requests: (size..size + MOST).map(request).collect(),
        responses: (0..MOST).map(|number| response(number * (size / MOST).max(1) % size)).collect(),
    };
    match who.as_str() {
        "crate" => of_crate(call, size, times, &messages),
        _ => of_plain(call, size, times, &messages),
    }
}
