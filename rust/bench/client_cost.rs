//! Makes 1,000 Binding requests and reads their responses, several times over, so that
//! `bench/endpoint.py` can count the instructions of one:
//!
//! ```text
//! valgrind --tool=callgrind --callgrind-out-file=/dev/null client_cost endpoint signed 3
//! ```
//!
//! The difference between 3 and 1 times, divided by 2,000, is the cost of one request and its
//! response. The client is `endpoint` (`endpoint::Client`), or `calls`: the calls of `agent` and
//! `auth` that it makes, in a row. `calls` derives the transaction IDs as the endpoint does: the
//! n-th is the first 96 bits of HMAC-SHA1(seed, n). `counted` makes the same calls with consecutive
//! IDs. These cost nothing, but a program must not use them, because an attacker can guess them.
//! With `signed` the client has long-term credentials, with `unsigned` none. An `endpoint::Server`,
//! or an `endpoint::OpenServer` for `unsigned`, makes the responses in advance.

use seatcrane_stun::Instant;
use seatcrane_stun::agent::{StunAgent, StunAgentPollRet};
use seatcrane_stun::auth::{LongTermClientAuth, LongTermClientValidation};
use seatcrane_stun::endpoint::*;
use seatcrane_stun::extra::{Fingerprint, check_fingerprint, has_unknown};
use seatcrane_stun::types::{STUN, TransportType};
use seatcrane_stun::types::attribute::*;
use seatcrane_stun::types::message::*;
use seatcrane_stun::types::prelude::*;
use std::hint::black_box;
use std::net::SocketAddr;

const REQUESTS: u32 = 1000;

/// Returns the response to a request.
type Peer<'a> = dyn FnMut(&[u8]) -> Vec<u8> + 'a;

fn server_address() -> SocketAddr {
    ([192, 0, 2, 1], 3478).into()
}

/// Makes the requests with an `endpoint::Client`, each after the request before it has ended.
fn by_endpoint(is_signed: bool, peer: &mut Peer<'_>) {
    let (server, now) = (server_address(), Instant::ZERO);
    let mut client = Client::builder(server);
    if is_signed {
        client = client.credentials(Credentials::long_term("alice", "wonderland"));
    }
    let mut client = client.build([7; 32]).unwrap();
    for _ in 0..REQUESTS {
        client.request(BINDING, Body::new(), now).unwrap();
        loop {
            let response = match client.poll(now) {
                Output::Transmit { bytes, .. } => peer(bytes),
                Output::Ended(_, result) => {
                    black_box(result.unwrap().message().xor_mapped_address().unwrap());
                    continue;
                }
                _ => break,
            };
            let _ = client.receive(&response, server, now);
        }
    }
}

/// The agent and the authenticator of a client that has no endpoint.
struct Calls {
    agent: StunAgent,
    auth: LongTermClientAuth,
    // Without a seed, the IDs are consecutive numbers.
    seed: Option<PreparedKey>,
    next_id: u64,
}

impl Calls {
    fn new(is_signed: bool, has_seed: bool) -> Calls {
        let agent = StunAgent::builder(TransportType::Udp, ([192, 0, 2, 2], 4000).into());
        let mut auth = LongTermClientAuth::new();
        if is_signed {
            let (name, password) = ("alice".to_string(), "wonderland".to_string());
            auth.set_credentials(LongTermCredentials::new(name, password));
            auth.add_supported_integrity(IntegrityAlgorithm::Sha256);
        }
        Calls {
            agent: agent.remote_addr(server_address()).stats(true).build(),
            auth,
            seed: has_seed.then(|| {
                PreparedKey::new(IntegrityKey::new(&[7; 32]), IntegrityAlgorithm::Sha1)
            }),
            next_id: 0,
        }
    }

    fn new_id(&mut self) -> TransactionId {
        self.next_id += 1;
        let Some(seed) = &self.seed else {
            return TransactionId::from_u128(self.next_id.into()).unwrap();
        };
        let digest = seed.hmac_sha1(&[&self.next_id.to_be_bytes()]);
        TransactionId::from(<[u8; 12]>::try_from(&digest[..12]).unwrap())
    }

    /// Sends one request, and returns its response.
    fn response(&mut self, peer: &mut Peer<'_>, now: Instant) -> Vec<u8> {
        let id = self.new_id();
        let page = Message::builder_request_with_id(BINDING, id, MessageWriteVec::new());
        let bytes = self.auth.sign_outgoing_message(page).unwrap().finish();
        let sent = self.agent.send_request(bytes, server_address(), now);
        peer(sent.unwrap().data.as_ref())
    }

    /// Reads a response. Returns `false` if the request must be sent again.
    fn read(&mut self, response: &[u8], is_signed: bool, now: Instant) -> bool {
        let message = Message::from_bytes(response).unwrap();
        assert_ne!(check_fingerprint(&message), Fingerprint::Wrong);
        let verdict = is_signed.then(|| self.auth.validate_incoming_message(&message).unwrap());
        assert!(self.agent.handle_stun_message_with_time(&message, server_address(), now));
        if let Some(LongTermClientValidation::ResendRequest(_)) = verdict {
            return false;
        }
        assert!(!has_unknown(&message, STUN));
        black_box(message.attribute::<XorMappedAddress>().unwrap());
        true
    }
}

fn by_calls(is_signed: bool, has_seed: bool, peer: &mut Peer<'_>) {
    let (mut client, now) = (Calls::new(is_signed, has_seed), Instant::ZERO);
    for _ in 0..REQUESTS {
        loop {
            let response = client.response(peer, now);
            if client.read(&response, is_signed, now) {
                break;
            }
        }
        assert!(client.agent.poll_transmit(now).is_none());
        assert!(matches!(client.agent.poll(now), StunAgentPollRet::WaitUntil(_)));
    }
}

fn main() {
    let words: Vec<String> = std::env::args().skip(1).collect();
    let [kind, credentials, times] = &words[..] else {
        panic!("usage: client_cost endpoint|calls|counted signed|unsigned TIMES");
    };
    let is_signed = credentials == "signed";
    let run = |peer: &mut Peer<'_>| match kind.as_str() {
        "calls" => by_calls(is_signed, true, peer),
        "counted" => by_calls(is_signed, false, peer),
        _ => by_endpoint(is_signed, peer),
    };
    let settings = LongTerm::new("example.org", [9; 32]);
    let server = Server::builder(settings).answer_binding(true).build().unwrap();
    let mut users = server.users();
    let alice = LongTermCredentials::new("alice".to_string(), "wonderland".to_string());
    users.add(alice).unwrap();
    let open = OpenServer::new(ResponseSettings::new().answer_binding(true)).unwrap();
    let (from, mut responses) = (SocketAddr::from(([192, 0, 2, 2], 4000)), Vec::new());
    run(&mut |bytes| {
        let now = UnixTime::from_secs(7200);
        let answer = if is_signed {
            match server.receive(bytes, from, now, &users) {
                Received::Answer(answer) => answer.bytes().to_vec(),
                other => panic!("{other:?}"),
            }
        } else {
            match open.receive(bytes, from) {
                OpenReceived::Answer(answer) => answer.bytes().to_vec(),
                other => panic!("{other:?}"),
            }
        };
        responses.push(answer.clone());
        answer
    });
    for _ in 0..times.parse::<u32>().expect("a number") {
        let mut next = responses.iter();
        run(&mut |_| next.next().expect("as many as before").clone());
    }
}
