//! Times single calls of an agent with many outstanding requests and of a server with many users
//! and addresses:
//!
//! ```text
//! growth 1000 100000
//! ```
//!
//! Each call is timed in several identical rounds, and only its least time counts, so that other
//! work of the machine has little effect. A row has the median of the calls, the time that one call
//! in a thousand exceeds, and the longest time, in nanoseconds. The plain agent uses only the maps
//! of the standard library ([plain_agent.rs](plain_agent.rs)).
//!
//! On Linux, `growth memory 100000` prints how many bytes of resident memory an outstanding
//! request, a user, and an address with a nonce take, if there are 100,000 of each.

mod plain_agent;

use plain_agent::PlainAgent;
use seatcrane_stun::Instant;
use seatcrane_stun::agent::{StunAgent, StunAgentPollRet};
use seatcrane_stun::auth::*;
use seatcrane_stun::types::TransportType;
use seatcrane_stun::types::message::*;
use seatcrane_stun::types::prelude::*;
use std::net::SocketAddr;
use std::time::Duration;

const ROUNDS: usize = 5;
/// The number of signed requests that a server is measured with.
const SIGNED: usize = 20_000;

/// The least time of each call of a kind, in nanoseconds.
struct Times {
    name: &'static str,
    least: Vec<u64>,
}

/// The rows of a table, in the order in which they are first measured.
#[derive(Default)]
struct Table(Vec<Times>);

impl Table {
    fn time<T>(&mut self, name: &'static str, i: usize, call: impl FnOnce() -> T) -> T {
        let row = match self.0.iter().position(|row| row.name == name) {
            Some(row) => row,
            None => {
                let least = Vec::new();
                self.0.push(Times { name, least });
                self.0.len() - 1
            }
        };
        let start = std::time::Instant::now();
        let answer = call();
        let time = start.elapsed().as_nanos() as u64;
        let least = &mut self.0[row].least;
        match least.get_mut(i) {
            Some(least) => *least = time.min(*least),
            None => {
                assert_eq!(i, least.len());
                least.push(time);
            }
        }
        answer
    }

    fn print(mut self, size: usize) {
        for Times { name, least } in &mut self.0 {
            least.sort_unstable();
            let at = |part: usize| least[(least.len() - 1) * part / 1000];
            println!(
                "| {name} | {size} | {} | {} | {} |",
                at(500),
                at(999),
                at(1000)
            );
        }
    }
}

/// Returns an ID or a port that looks random, and that is different for each number.
fn scattered(i: usize) -> u64 {
    (i as u64 + 1).wrapping_mul(0x9E37_79B9_7F4A_7C15)
}

fn id(i: usize) -> TransactionId {
    let mut id = [0x55; 12];
    id[..8].copy_from_slice(&scattered(i).to_be_bytes());
    TransactionId::from(id)
}

fn at(millis: u64) -> Instant {
    Instant::ZERO + Duration::from_millis(millis)
}

/// Returns a request whose ID is made from this number.
fn request(i: usize) -> Vec<u8> {
    Message::builder_request_with_id(BINDING, id(i), MessageWriteVec::new()).finish()
}

/// Returns the success response to a request.
fn success(request: &[u8], address: SocketAddr) -> Vec<u8> {
    let request = Message::from_bytes(request).unwrap();
    let mut answer = Message::builder_success(&request, MessageWriteVec::new());
    answer.add_xor_mapped_address(address).unwrap();
    answer.finish()
}

/// Returns the numbers below `size` in an order that looks random.
fn shuffled(size: usize) -> Vec<usize> {
    let mut order: Vec<usize> = (0..size).collect();
    order.sort_unstable_by_key(|i| scattered(*i).rotate_left(32));
    order
}

const REMOTE: ([u8; 4], u16) = ([192, 0, 2, 1], 3478);
const LOCAL: ([u8; 4], u16) = ([192, 0, 2, 2], 4242);

/// Returns the time at which this request is sent first; `sent_again` returns when it is
/// retransmitted.
fn first_sent(i: usize) -> Instant {
    at(i as u64 / 1000)
}

fn sent_again(i: usize) -> Instant {
    at(500 + i as u64 / 1000)
}

fn agent(size: usize, table: &mut Table) {
    let (remote, local) = (REMOTE.into(), LOCAL.into());
    let mut agent = StunAgent::builder(TransportType::Udp, local).build();
    for i in 0..size {
        let request = request(i);
        table.time("send_request while growing", i, || {
            agent.send_request(&request, remote, first_sent(i)).unwrap();
        });
    }
    let end = first_sent(size);
    for i in 0..size.min(100_000) {
        table.time("poll_transmit, none due", i, || {
            agent.poll_transmit(end).is_none()
        });
    }
    for i in 0..size.min(100_000) {
        table.time("poll_transmit, one due or more", i, || {
            agent.poll_transmit(sent_again(i)).is_some()
        });
    }
    for (i, which) in shuffled(size).into_iter().enumerate() {
        let answer = success(&request(which), local);
        let answer = Message::from_bytes(&answer).unwrap();
        table.time("response to a request", i, || {
            assert!(agent.handle_stun_message_with_time(&answer, remote, end));
        });
    }
    assert!(matches!(agent.poll(end), StunAgentPollRet::WaitUntil(_)));
}

fn plain_agent(size: usize, table: &mut Table) {
    let (remote, local) = (REMOTE.into(), LOCAL.into());
    let mut agent = PlainAgent::default();
    for i in 0..size {
        let request = request(i);
        table.time("plain agent: send_request while growing", i, || {
            agent.send_request(&request, remote, first_sent(i));
        });
    }
    for i in 0..size.min(100_000) {
        table.time("plain agent: poll_transmit, one due or more", i, || {
            assert!(agent.poll_transmit(sent_again(i)).is_some());
        });
    }
    let end = sent_again(size);
    for (i, which) in shuffled(size).into_iter().enumerate() {
        let answer = success(&request(which), local);
        let answer = Message::from_bytes(&answer).unwrap();
        table.time("plain agent: response to a request", i, || {
            assert!(agent.response(&answer, remote, end).is_some());
        });
    }
}

/// Ends all requests at once, and then sends as many again. With glibc, a call may take longer
/// because it merges the small blocks that were freed before.
fn ending_agent(size: usize, table: &mut Table) {
    let (remote, local) = (REMOTE.into(), LOCAL.into());
    let mut agent = StunAgent::builder(TransportType::Udp, local).build();
    for i in 0..size {
        agent.send_request(request(i), remote, at(0)).unwrap();
        agent.mut_request_transaction(id(i)).unwrap().cancel();
    }
    for i in 0..size {
        table.time("poll, one of all requests ends", i, || {
            let ended = agent.poll(at(0));
            assert!(matches!(ended, StunAgentPollRet::TransactionCancelled(_)));
        });
    }
    for i in 0..size {
        let request = request(i);
        table.time("send_request after all ended", i, || {
            agent.send_request(&request, remote, at(0)).unwrap();
        });
    }
}

fn credentials(i: usize) -> LongTermCredentials {
    LongTermCredentials::new(
        format!("user{:016x}", scattered(i)),
        "wonderland".to_string(),
    )
}

fn address(i: usize) -> SocketAddr {
    let number = scattered(i).to_be_bytes();
    (
        [number[0], number[1], number[2], number[3]],
        1024 + (i % 60_000) as u16,
    )
        .into()
}

/// Returns the request that the client with this number signs after it has read a challenge.
fn signed(i: usize, challenge: &[u8]) -> Vec<u8> {
    let mut client = LongTermClientAuth::new();
    client.set_credentials(credentials(i));
    client.set_supported_integrity(IntegrityAlgorithm::Sha1);
    let request = Message::builder_request_with_id(BINDING, id(i), MessageWriteVec::new());
    client.sign_outgoing_message(request).unwrap().finish();
    let challenge = Message::from_bytes(challenge).unwrap();
    client.validate_incoming_message(&challenge).unwrap();
    let request = Message::builder_request_with_id(BINDING, id(i), MessageWriteVec::new());
    client.sign_outgoing_message(request).unwrap().finish()
}

fn server(size: usize, table: &mut Table) {
    let mut server = LongTermServerAuth::new("example.org".to_string());
    server.add_supported_integrity(IntegrityAlgorithm::Sha1);
    let now = at(1_000_000);
    for i in 0..size {
        let user = credentials(i);
        table.time("add_user while growing", i, || server.add_user(user));
    }
    let words = |i: usize| std::array::from_fn(|k| scattered(i * 8 + k) as u32);
    let mut requests = Vec::new();
    for i in 0..size {
        let request = request(i);
        let request = Message::from_bytes(&request).unwrap();
        table.time("validate, a new address", i, || {
            let judged =
                server.validate_incoming_message_with_words(&request, address(i), now, words(i));
            assert!(judged.is_err());
        });
        if i % size.div_ceil(SIGNED) == 0 {
            let mut challenge = Message::builder_error(&request, MessageWriteVec::new());
            challenge.add_error_code(401, "Unauthenticated").unwrap();
            let challenge = server.sign_outgoing_message(challenge, address(i)).unwrap();
            requests.push((i, signed(i, &challenge.finish())));
        }
    }
    requests.sort_unstable_by_key(|(i, _)| scattered(*i).rotate_left(32));
    for (k, (i, request)) in requests.iter().enumerate() {
        let request = Message::from_bytes(request).unwrap();
        table.time("validate, a signed request", k, || {
            server
                .validate_incoming_message_with_words(&request, address(*i), now, words(*i))
                .unwrap();
        });
    }
    for (k, (i, request)) in requests.iter().enumerate() {
        let request = Message::from_bytes(request).unwrap();
        let mut answer = Message::builder_success(&request, MessageWriteVec::new());
        answer.add_xor_mapped_address(address(*i)).unwrap();
        table.time("sign a success", k, || {
            server
                .sign_outgoing_message(answer, address(*i))
                .unwrap()
                .finish()
        });
    }
    table.time("forget_expired, all are kept", 0, || {
        server.forget_expired(now)
    });
    let mut next = None;
    for i in 0..size.div_ceil(256) {
        table.time("forget_expired_within 256, all are kept", i, || {
            next = server.forget_expired_within(now, next, 256);
        });
    }
    let late = now + Duration::from_secs(100_000);
    table.time("forget_expired, all go but clients", 0, || {
        server.forget_expired(late)
    });
}

/// Returns the resident memory of this process, in bytes.
fn resident() -> usize {
    let statm = std::fs::read_to_string("/proc/self/statm").expect("Linux");
    let pages = statm.split(' ').nth(1).unwrap();
    4096 * pages.parse::<usize>().unwrap()
}

fn memory(size: usize) {
    let before = resident();
    let remote: SocketAddr = ([192, 0, 2, 1], 3478).into();
    let mut agent = StunAgent::builder(TransportType::Udp, remote).build();
    for i in 0..size {
        agent.send_request(request(i), remote, at(0)).unwrap();
    }
    let sent = resident();
    let mut server = LongTermServerAuth::new("example.org".to_string());
    for i in 0..size {
        server.add_user(credentials(i));
    }
    let added = resident();
    for i in 0..size {
        let page = request(i);
        let request = Message::from_bytes(&page).unwrap();
        let words = std::array::from_fn(|k| scattered(i * 8 + k) as u32);
        let judged =
            server.validate_incoming_message_with_words(&request, address(i), at(0), words);
        assert!(judged.is_err());
    }
    let challenged = resident();
    println!("| Resident bytes | of {size} |\n|---|---|");
    println!(
        "| an outstanding request of 20 bytes | {} |",
        (sent - before) / size
    );
    println!("| a user | {} |", (added - sent) / size);
    println!(
        "| an address with a nonce | {} |",
        (challenged - added) / size
    );
    assert!(agent.poll_transmit(at(0)).is_none());
}

fn main() {
    let arguments: Vec<String> = std::env::args().skip(1).collect();
    let size = |text: &String| {
        text.parse()
            .expect("a number of requests, or of users and addresses")
    };
    if arguments.len() == 2 && arguments[0] == "memory" {
        return memory(size(&arguments[1]));
    }
    println!("| Call | of | median | one in 1,000 | longest |\n|---|---|---|---|---|");
    for size in arguments.iter().map(size) {
        let mut table = Table::default();
        for _ in 0..ROUNDS {
            agent(size, &mut table);
            plain_agent(size, &mut table);
        }
        (0..ROUNDS).for_each(|_| ending_agent(size, &mut table));
        (0..ROUNDS).for_each(|_| server(size, &mut table));
        table.print(size);
    }
}
