//! A flood of datagrams with forged source addresses, and clients that are served meanwhile. This
//! test is alone in its process.
//!
//! `FLOOD` is the number of forged datagrams, 20,000 unless set:
//!
//! ```text
//! FLOOD=1000000 cargo test --release --test endpoint_flood -- --nocapture
//! ```

use seatcrane_stun::auth::{LongTermClientAuth, LongTermClientValidation};
use seatcrane_stun::endpoint::{Answer, LongTerm, Received, Refusal, Server, UnixTime, Users};
use seatcrane_stun::types::message::*;
use seatcrane_stun::types::prelude::*;
use std::collections::BTreeMap;
use std::net::{IpAddr, Ipv4Addr, SocketAddr};

const BOTH: [IntegrityAlgorithm; 2] = [IntegrityAlgorithm::Sha1, IntegrityAlgorithm::Sha256];
/// The time that a datagram travels, in milliseconds: half of a round trip.
const WAY: u64 = 300;
/// The number of clients of each kind.
const CLIENTS: u32 = 200;
/// The flooded address: half of the forged datagrams have it as their source.
const FLOODED: IpAddr = IpAddr::V4(Ipv4Addr::new(203, 0, 113, 5));

/// Returns the resident memory of this process in kB.
fn resident() -> usize {
    let status = std::fs::read_to_string("/proc/self/status").unwrap_or_default();
    let line = status.lines().find(|line| line.starts_with("VmRSS"));
    line.map_or(0, |line| {
        line.split_whitespace().nth(1).unwrap().parse().unwrap()
    })
}

/// Returns the wall-clock time at a simulated time in milliseconds. A new period of nonces begins
/// during the test.
fn wall(milliseconds: u64) -> UnixTime {
    UnixTime::from_secs(3600 * 400_000 - 5 + milliseconds / 1000)
}

fn alice() -> LongTermCredentials {
    LongTermCredentials::new("alice".to_string(), "wonderland".to_string())
}

fn answer(received: Received<'_>) -> Answer {
    match received {
        Received::Answer(answer) => answer,
        other => panic!("no answer: {other:?}"),
    }
}

/// A client, its address, and the codes of its answers.
struct Client {
    auth: LongTermClientAuth,
    at: SocketAddr,
    codes: Vec<u16>,
}

impl Client {
    fn new(number: u32, ip: IpAddr) -> Client {
        let mut auth = LongTermClientAuth::new();
        auth.add_supported_integrity(BOTH[1]);
        auth.set_credentials(alice());
        Client {
            auth,
            at: SocketAddr::new(ip, 10_000 + number as u16),
            codes: Vec::new(),
        }
    }

    fn request(&mut self) -> Vec<u8> {
        let id = TransactionId::from([self.codes.len() as u8; 12]);
        let page = Message::builder_request_with_id(BINDING, id, MessageWriteVec::new());
        self.auth.sign_outgoing_message(page).unwrap().finish()
    }

    /// Reads an answer, and returns whether another request must be sent.
    fn read(&mut self, answer: &Answer) -> bool {
        assert_eq!(answer.to(), self.at);
        self.codes.push(answer.refusal().map_or(200, Refusal::code));
        let response = Message::from_bytes(answer.bytes()).unwrap();
        match self.auth.validate_incoming_message(&response).unwrap() {
            LongTermClientValidation::ResendRequest(_) => true,
            LongTermClientValidation::Validated(by) => {
                assert_eq!(by, BOTH[1]);
                let seen = response.xor_mapped_address().unwrap();
                assert_eq!((seen, self.codes.last()), (self.at, Some(&200)));
                false
            }
        }
    }
}

/// A datagram that arrives at a simulated time: at the server, or back at a client.
enum Packet {
    Request(usize, Vec<u8>),
    Answer(usize, Answer),
}

struct Net {
    server: Server,
    users: Users,
    clients: Vec<Client>,
    packets: BTreeMap<(u64, u64), Packet>,
    sent: u64,
}

impl Net {
    fn put(&mut self, at: u64, packet: Packet) {
        self.sent += 1;
        self.packets.insert((at, self.sent), packet);
    }

    fn ask(&mut self, client: usize, now: u64) {
        let bytes = self.clients[client].request();
        self.put(now + WAY, Packet::Request(client, bytes));
    }

    /// Delivers the datagrams that arrive until this time.
    fn deliver(&mut self, until: u64) {
        while let Some(first) = self.packets.first_entry() {
            let now = first.key().0;
            if now > until {
                return;
            }
            match first.remove() {
                Packet::Request(client, bytes) => {
                    let from = self.clients[client].at;
                    let answer = answer(self.server.receive(&bytes, from, wall(now), &self.users));
                    self.put(now + WAY, Packet::Answer(client, answer));
                }
                Packet::Answer(client, answer) => {
                    if self.clients[client].read(&answer) {
                        self.ask(client, now);
                    }
                }
            }
        }
    }

    fn forged(&mut self, bytes: &[u8], from: SocketAddr, now: u64) {
        let answer = answer(self.server.receive(bytes, from, wall(now), &self.users));
        assert_eq!(answer.refusal(), Some(Refusal::Unauthenticated));
    }
}

/// Returns how many of these clients got these codes and then a success.
fn served(clients: &[Client], before: &[u16]) -> usize {
    let wanted = [before, &[200]].concat();
    let is_served = |client: &&Client| client.codes == wanted;
    clients.iter().filter(is_served).count()
}

/// 10,000 forged datagrams arrive each second: every second one is from the flooded address, from
/// all its ports in turn, and each other one is from an address of its own. Spread over the flood,
/// 200 new clients and 200 new clients behind the flooded address make requests. So do as many
/// clients of each kind that were validated before, and that sign with the nonce that they got
/// then.
#[test]
fn a_flood_takes_no_memory_and_shuts_nobody_out() {
    let count: u64 = std::env::var("FLOOD").map_or(20_000, |text| text.parse().unwrap());
    let (end, clients) = (count / 10, CLIENTS as usize);
    let long_term = LongTerm::new("example.org", [1; 32]).algorithms(&BOTH);
    let server = Server::builder(long_term).answer_binding(true).build().unwrap();
    let mut users = server.users();
    users.add(alice()).unwrap();
    let mut net = Net {
        server,
        users,
        clients: Vec::new(),
        packets: BTreeMap::new(),
        sent: 0,
    };
    for kind in 0..4 {
        for number in 0..CLIENTS {
            let ip = match kind % 2 {
                0 => IpAddr::V4((0xC612_0000 + number).into()), // 198.18.0.0/15
                _ => FLOODED,
            };
            let client = Client::new(kind * CLIENTS + number, ip);
            net.clients.push(client);
        }
    }
    (0..2 * clients).for_each(|old| net.ask(old, 0));
    net.deliver(u64::MAX);
    assert_eq!(served(&net.clients[..2 * clients], &[401]), 2 * clients);
    net.clients
        .iter_mut()
        .for_each(|client| client.codes.clear());

    let id = TransactionId::from([7; 12]);
    let bytes = Message::builder_request_with_id(BINDING, id, MessageWriteVec::new()).finish();
    let (mut before, mut asked) = (0, 0);
    for i in 0..count {
        let now = i / 10;
        let from = match i % 2 {
            0 => SocketAddr::new(FLOODED, (i / 2) as u16),
            _ => SocketAddr::from(((i as u32).to_be_bytes(), 1 + (i % 65535) as u16)),
        };
        net.forged(&bytes, from, now);
        while asked < 4 * clients && asked as u64 * end <= now * 4 * CLIENTS as u64 {
            // One client of each kind in turn.
            net.ask(asked % 4 * clients + asked / 4, now);
            asked += 1;
        }
        net.deliver(now);
        if i == 1000 {
            before = resident();
        }
    }
    net.deliver(u64::MAX);
    let after = resident();
    let [old, old_behind, new, new_behind] = [(0, &[][..]), (1, &[]), (2, &[401]), (3, &[401])]
        .map(|(kind, codes)| served(&net.clients[kind * clients..][..clients], codes));
    println!(
        "{count} forged sources: served {old} of {CLIENTS} old clients, {new} of {CLIENTS} new; \
         behind the flooded address {old_behind} and {new_behind} of {CLIENTS}; \
         resident {before} kB after 1000 datagrams, {after} kB at the end"
    );
    assert_eq!([old, old_behind, new, new_behind], [clients; 4]);
    assert!(after < before + 1024, "{after} kB, {before} kB before");
}
