//! Tests of the events that endpoints record with the feature `tracing`: one for each datagram that
//! is judged, with its source, its transaction ID and the verdict, one for each request that ends,
//! and no secret.
#![cfg(feature = "tracing")]
use seatcrane_stun::Instant;
use seatcrane_stun::endpoint::ice::{Check, Checker, Role};
use seatcrane_stun::endpoint::*;
use seatcrane_stun::types::attribute::*;
use seatcrane_stun::types::message::IntegrityAlgorithm::Sha1;
use seatcrane_stun::types::message::*;
use seatcrane_stun::types::prelude::*;
use std::net::SocketAddr;
use traced::Lines;
use tracing::subscriber;

mod traced;

const SECRET: [u8; 32] = [0x5e; 32];
const HERE: &str = "192.0.2.1:1";
const THERE: &str = "192.0.2.2:2";

fn here() -> SocketAddr {
    HERE.parse().unwrap()
}

fn now() -> UnixTime {
    UnixTime::from_secs(1_000_000)
}

fn there() -> SocketAddr {
    THERE.parse().unwrap()
}

/// The subscriber of the process. All tests share it, so they run as one test.
struct Trace(Lines);

impl Trace {
    /// Returns what a call returns, and the events that it recorded.
    fn events<T>(&self, call: impl FnOnce() -> T) -> (T, Vec<String>) {
        self.0.0.lock().unwrap().clear();
        let returned = call();
        let events = self.0.0.lock().unwrap().clone();
        for secret in ["wonderland", "password", "5e5e", "94, 94", "77, 77"] {
            let is_told = events.iter().any(|event| event.contains(secret));
            assert!(!is_told, "a secret is recorded: {events:?}");
        }
        (returned, events)
    }

    /// Checks that a call judges these bytes, which came from `from`, and records the verdict in
    /// one event.
    fn judges<T>(&self, wanted: &str, bytes: &[u8], from: &str, call: impl FnOnce() -> T) -> T {
        let (returned, events) = self.events(call);
        let id = MessageHeader::from_bytes(bytes).map_or(String::new(), |header| {
            format!(" id={}", header.transaction_id())
        });
        assert_eq!(
            events,
            [format!("message=received{id} from={from} {wanted}")]
        );
        returned
    }

    /// Returns the bytes that a client sends, and checks that one event records them.
    fn sent(&self, client: &mut Client, again: &str, request: u64) -> Vec<u8> {
        self.sent_at(client, Instant::ZERO, again, request)
    }

    /// Like `sent`, but the client sends at this time.
    fn sent_at(&self, client: &mut Client, now: Instant, again: &str, request: u64) -> Vec<u8> {
        let (bytes, events) = self.events(|| match client.poll(now) {
            Output::Transmit { bytes, .. } => bytes.to_vec(),
            other => panic!("{other:?}"),
        });
        let (id, length) = (id_of(&bytes), bytes.len());
        let sent = format!(
            "message=sent a request{again} id={id} request=RequestId({request}) to={THERE} \
             bytes={length}"
        );
        assert_eq!(events, [sent]);
        bytes
    }

    /// Checks that a request of the client ends in this way, and that one event records it.
    fn ends(&self, client: &mut Client, now: Instant, request: u64, wanted: &str) {
        let (_, events) = self.events(|| match client.poll(now) {
            Output::Ended(..) => {}
            other => panic!("{other:?}"),
        });
        let ended = format!("message=a request ended request=RequestId({request}) {wanted}");
        assert_eq!(events, [ended]);
    }
}

fn id_of(bytes: &[u8]) -> TransactionId {
    MessageHeader::from_bytes(bytes).unwrap().transaction_id()
}

fn server() -> (Server, Users) {
    let server = Server::builder(LongTerm::new("example.org", SECRET).algorithms(&[Sha1]))
        .answer_binding(true)
        .build()
        .unwrap();
    let mut users = server.users();
    let alice = LongTermCredentials::new("alice".to_string(), "wonderland".to_string());
    users.add(alice).unwrap();
    (server, users)
}

fn client(password: &str) -> Client {
    Client::builder(there())
        .credentials(Credentials::long_term("alice", password))
        .build([77; 32])
        .unwrap()
}

fn indication() -> Vec<u8> {
    Message::builder_indication_with_id(BINDING, [3; 12].into(), MessageWriteVec::new()).finish()
}

fn binding() -> Vec<u8> {
    Message::builder_request_with_id(BINDING, [4; 12].into(), MessageWriteVec::new()).finish()
}

/// Returns a signed request, with an attribute that the server does not understand if `unknown` is
/// true.
fn signed(server: &Server, method: Method, unknown: bool) -> Vec<u8> {
    let mut page = Message::builder_request_with_id(method, [5; 12].into(), MessageWriteVec::new());
    if unknown {
        let kind = AttributeType(0x7777);
        page.add_attribute(&RawAttribute::new(kind, b"")).unwrap();
    }
    let nonce = server.nonce_for(here(), now());
    page.add_attribute(&Username::new("alice").unwrap())
        .unwrap();
    page.add_attribute(&Realm::new("example.org").unwrap())
        .unwrap();
    page.add_attribute(&Nonce::new(&nonce).unwrap()).unwrap();
    let key = long_term_key(Sha1, "alice", "example.org", "wonderland");
    page.add_message_integrity_with_key(key.as_bytes(), Sha1)
        .unwrap();
    page.finish()
}

/// Each call of a server that judges a datagram records it once, with the same verdict.
fn servers_record_each_datagram(trace: &Trace) {
    let (server, users) = server();
    let allocate = Method::new(3).unwrap();
    let later = UnixTime::from_secs(2_000_000);
    let answer = Message::builder_success(
        &Message::from_bytes(&binding()).unwrap(),
        MessageWriteVec::new(),
    );
    let cases = [
        (
            binding(),
            now(),
            "verdict=\"refused\" code=401 reason=\"NoSignature\"",
        ),
        (
            signed(&server, BINDING, false),
            now(),
            "verdict=\"answered\"",
        ),
        (
            signed(&server, allocate, false),
            now(),
            "verdict=\"accepted\"",
        ),
        (
            signed(&server, BINDING, true),
            now(),
            "verdict=\"refused\" code=420 reason=\"UnknownAttribute\"",
        ),
        (
            signed(&server, BINDING, false),
            later,
            "verdict=\"refused\" code=438 reason=\"StaleNonce\"",
        ),
        (indication(), now(), "verdict=\"indication\""),
        (answer.finish(), now(), "verdict=\"response\""),
        (
            vec![1, 2, 3],
            now(),
            "verdict=\"dropped\" reason=\"NotStun\"",
        ),
    ];
    let alice = LongTermCredentials::new("alice".to_string(), "wonderland".to_string());
    let alice = server.user(alice);
    for (bytes, at, wanted) in &cases {
        let judged = (bytes.as_slice(), HERE);
        _ = trace.judges(wanted, judged.0, judged.1, || {
            server.receive(bytes, here(), *at, &users)
        });
        _ = trace.judges(wanted, judged.0, judged.1, || {
            server.receive_for(bytes, here(), *at, Some(&alice))
        });
        let look_up = "verdict=\"look-up\"";
        let needs_user = ["answered", "accepted", "UnknownAttribute"];
        if !needs_user.iter().any(|one| wanted.contains(one)) {
            _ = trace.judges(wanted, judged.0, judged.1, || {
                server.identify(bytes, here(), *at)
            });
            continue;
        }
        let identified = trace.judges(look_up, judged.0, judged.1, || {
            server.identify(bytes, here(), *at)
        });
        let Identified::Lookup(lookup) = identified else {
            panic!("{identified:?}");
        };
        _ = trace.judges(wanted, judged.0, judged.1, || {
            server.resume(lookup, Some(&alice))
        });
        let Identified::Lookup(lookup) = server.identify(bytes, here(), *at) else {
            panic!("it was looked up before");
        };
        let wrong = "verdict=\"refused\" code=401 reason=\"WrongCredentials\"";
        _ = trace.judges(wrong, judged.0, judged.1, || server.resume(lookup, None));
    }
}

fn servers_without_a_realm_record_each_datagram(trace: &Trace) {
    let settings = ResponseSettings::new().answer_binding(true);
    let open = OpenServer::new(settings.clone()).unwrap();
    let short = ShortTermServer::new(settings).unwrap();
    let users = ShortTermUsers::new();
    for (bytes, at_open, at_short) in [
        (
            binding(),
            "verdict=\"answered\"",
            "verdict=\"refused\" code=400 reason=\"Bad Request\"",
        ),
        (
            indication(),
            "verdict=\"indication\"",
            "verdict=\"dropped\" reason=\"UnsignedIndication\"",
        ),
        (
            vec![0; 20],
            "verdict=\"dropped\" reason=\"NotStun\"",
            "verdict=\"dropped\" reason=\"NotStun\"",
        ),
    ] {
        _ = trace.judges(at_open, &bytes, HERE, || open.receive(&bytes, here()));
        _ = trace.judges(at_short, &bytes, HERE, || {
            short.receive(&bytes, here(), &users)
        });
    }
}

/// Returns a forged response, and a challenge that cannot be answered.
fn forged(request: &[u8]) -> [Vec<u8>; 2] {
    let request = Message::from_bytes(request).unwrap();
    let mut success = Message::builder_success(&request, MessageWriteVec::new());
    success.add_xor_mapped_address(here()).unwrap();
    let mut challenge = Message::builder_error(&request, MessageWriteVec::new());
    challenge.add_error_code(401, "").unwrap();
    challenge.add_attribute(&Realm::new("x").unwrap()).unwrap();
    [success.finish(), challenge.finish()]
}

/// Makes a client with this password send a request to a server, while an attacker forges
/// responses. Returns when the client has no more to send. The server refuses a wrong password
/// twice: the first refusal is dropped, and the message is retransmitted by its timer.
fn client_asks(trace: &Trace, client: &mut Client, request: u64) {
    let (server, users) = server();
    let (mut at, mut again, mut is_signed) = (Instant::ZERO, "", false);
    client.request(BINDING, Body::new(), at).unwrap();
    while client.outstanding() > 0 {
        let bytes = trace.sent_at(client, at, again, request);
        let [success, challenge] = forged(&bytes);
        _ = trace.judges(
            "verdict=\"dropped\" reason=\"NotVerified\"",
            &success,
            THERE,
            || client.receive(&success, there(), at),
        );
        _ = trace.judges(
            "verdict=\"dropped\" code=401 reason=\"UnanswerableChallenge\"",
            &challenge,
            THERE,
            || client.receive(&challenge, there(), at),
        );
        _ = trace.judges("verdict=\"not ours\"", &success, HERE, || {
            client.receive(&success, here(), at)
        });
        let Received::Answer(answer) = server.receive(&bytes, here(), now(), &users) else {
            panic!("no answer");
        };
        let is_first_refusal = is_signed && again.is_empty();
        let wanted = match answer.refusal() {
            Some(_) if is_first_refusal => "verdict=\"dropped\" code=401 reason=\"Refused\"".into(),
            Some(refusal) => format!("verdict=\"accepted\" code={}", refusal.code()),
            None => "verdict=\"accepted\"".into(),
        };
        _ = trace.judges(&wanted, answer.bytes(), THERE, || {
            client.receive(answer.bytes(), there(), at)
        });
        if answer.refusal().is_none() {
            return;
        }
        if is_first_refusal {
            (at, again) = (Instant::from_nanos(500_000_000), " again");
        }
        is_signed = true;
    }
}

/// However a request ends, its end is recorded once.
fn clients_record_each_end(trace: &Trace) {
    let mut alice = client("wonderland");
    client_asks(trace, &mut alice, 0);
    trace.ends(&mut alice, Instant::ZERO, 0, "result=\"success\"");
    let keeps_open = indication();
    _ = trace.judges("verdict=\"indication\"", &keeps_open, THERE, || {
        alice.receive(&keeps_open, there(), Instant::ZERO)
    });
    let request = alice.request(BINDING, Body::new(), Instant::ZERO).unwrap();
    trace.sent(&mut alice, "", 1);
    assert!(alice.cancel(request));
    trace.ends(&mut alice, Instant::ZERO, 1, "result=cancelled");

    let mut mallory = client("another password");
    client_asks(trace, &mut mallory, 0);
    trace.ends(
        &mut mallory,
        Instant::ZERO,
        0,
        "result=the server refuses the credentials",
    );

    let mut anybody = Client::builder(there()).build([77; 32]).unwrap();
    anybody
        .request(BINDING, Body::new(), Instant::ZERO)
        .unwrap();
    let bytes = trace.sent(&mut anybody, "", 0);
    let request = Message::from_bytes(&bytes).unwrap();
    let refusal = Message::bad_request(&request, MessageWriteVec::new()).finish();
    _ = trace.judges("verdict=\"accepted\" code=400", &refusal, THERE, || {
        anybody.receive(&refusal, there(), Instant::ZERO)
    });
    trace.ends(
        &mut anybody,
        Instant::ZERO,
        0,
        "result=refused 400 Bad Request",
    );
    anybody
        .request(BINDING, Body::new(), Instant::ZERO)
        .unwrap();
    trace.sent(&mut anybody, "", 1);
    let (mut now, mut again) = (Instant::ZERO, 0);
    let (_, events) = trace.events(|| {
        loop {
            match anybody.poll(now) {
                Output::Wait(until) => now = until.unwrap(),
                Output::Transmit { .. } => again += 1,
                Output::Ended(..) => break,
                other => panic!("{other:?}"),
            }
        }
    });
    assert!(again > 0 && events.len() == again + 1, "{events:?}");
    let timed_out = "message=a request ended request=RequestId(1) result=no answer in time";
    assert_eq!(events[again], timed_out);
}

fn agents_of_ice_record_each_datagram(trace: &Trace) {
    let left = ("left", "left-password-of-22-chars");
    let right = ("right", "right-password-of-22-chars");
    let mut a = Checker::new(left, right, 5, Role::Controlling).unwrap();
    let mut b = Checker::new(right, left, 6, Role::Controlled).unwrap();
    let written = |checker: &Checker, number: u8| -> Check {
        let id = TransactionId::from([number; 12]);
        let (check, events) = trace.events(|| checker.check(id, there(), 1, true).unwrap());
        let nominates = checker.role() == Role::Controlling;
        let wanted = format!("message=wrote a check id={id} to={THERE} nominates={nominates}");
        assert_eq!(events, [wanted]);
        check
    };
    let check = written(&a, 1);
    let judged = trace.judges("verdict=\"accepted\"", check.bytes(), HERE, || {
        b.receive(check.bytes(), here(), None)
    });
    let ice::Received::Check { answer, .. } = judged else {
        panic!("{judged:?}");
    };
    _ = trace.judges(
        "verdict=\"dropped\" reason=\"NotAsked\"",
        &answer,
        THERE,
        || a.receive(&answer, there(), None),
    );
    _ = trace.judges("verdict=\"valid\"", &answer, THERE, || {
        a.receive(&answer, there(), Some(&check))
    });
    _ = trace.judges(
        "verdict=\"failed\" reason=\"OtherPath\"",
        &answer,
        HERE,
        || a.receive(&answer, here(), Some(&check)),
    );
    let stranger = Checker::new(
        left,
        ("right", "of-22-chars-a-password"),
        5,
        Role::Controlling,
    );
    let check = written(&stranger.unwrap(), 2);
    let refused = "verdict=\"refused\" code=401 reason=\"Unauthenticated\"";
    _ = trace.judges(refused, check.bytes(), HERE, || {
        b.receive(check.bytes(), here(), None)
    });
    let mut rival = Checker::new(right, left, 4, Role::Controlling).unwrap();
    let check = written(&rival, 3);
    let refused = "verdict=\"refused\" code=487 reason=\"RoleConflict\"";
    let judged = trace.judges(refused, check.bytes(), HERE, || {
        a.receive(check.bytes(), here(), None)
    });
    let ice::Received::Check { answer, .. } = judged else {
        panic!("{judged:?}");
    };
    let failed = "verdict=\"failed\" code=487 reason=\"RoleConflict\"";
    _ = trace.judges(failed, &answer, THERE, || {
        rival.receive(&answer, there(), Some(&check))
    });
}

#[test]
fn each_datagram_and_each_end_is_recorded_once() {
    let lines = Lines::default();
    subscriber::set_global_default(lines.clone()).unwrap();
    let trace = Trace(lines);
    servers_record_each_datagram(&trace);
    servers_without_a_realm_record_each_datagram(&trace);
    clients_record_each_end(&trace);
    agents_of_ice_record_each_datagram(&trace);
}
