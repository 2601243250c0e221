//! Tests of responses and answers that are written into a buffer of the caller: they are the same
//! as those of `receive`, and need no memory in addition to the buffer.

use seatcrane_stun::auth::LongTermClientAuth;
use seatcrane_stun::endpoint::ice::{Checker, Role};
use seatcrane_stun::endpoint::*;
use seatcrane_stun::types::attribute::*;
use seatcrane_stun::types::message::*;
use seatcrane_stun::types::prelude::*;
use std::alloc::{GlobalAlloc, Layout, System};
use std::cell::Cell;
use std::fmt::Debug;
use std::net::SocketAddr;

/// The system's allocator, with a count of the blocks that each thread requests.
struct Counting;

thread_local! {
    static BLOCKS: Cell<usize> = const { Cell::new(0) };
}

// SAFETY: each call is passed on to the system's allocator.
unsafe impl GlobalAlloc for Counting {
    unsafe fn alloc(&self, layout: Layout) -> *mut u8 {
        BLOCKS.set(BLOCKS.get() + 1);
        unsafe { System.alloc(layout) }
    }

    unsafe fn dealloc(&self, block: *mut u8, layout: Layout) {
        unsafe { System.dealloc(block, layout) }
    }

    unsafe fn realloc(&self, block: *mut u8, layout: Layout, length: usize) -> *mut u8 {
        BLOCKS.set(BLOCKS.get() + 1);
        unsafe { System.realloc(block, layout, length) }
    }
}

#[global_allocator]
static MEMORY: Counting = Counting;

/// Returns how many blocks a call requests, including those that grow.
fn blocks_of<T>(call: impl FnOnce() -> T) -> (usize, T) {
    let before = BLOCKS.get();
    let result = call();
    (BLOCKS.get() - before, result)
}

fn now() -> UnixTime {
    UnixTime::from_secs(7200)
}

fn from() -> SocketAddr {
    "192.0.2.1:4242".parse().unwrap()
}

fn request(method: u16) -> MessageWriteVec {
    let (method, id) = (Method::new(method).unwrap(), TransactionId::from([7; 12]));
    Message::builder_request_with_id(method, id, MessageWriteVec::new())
}

fn with(mut page: MessageWriteVec, kind: u16) -> MessageWriteVec {
    let odd = RawAttribute::new(AttributeType(kind), b"odd");
    page.add_attribute(&odd).unwrap();
    page
}

fn indication(kind: u16) -> Vec<u8> {
    let id = TransactionId::from([8; 12]);
    let page = Message::builder_indication_with_id(BINDING, id, MessageWriteVec::new());
    with(page, kind).finish()
}

/// Returns a buffer that was used for other datagrams.
fn used() -> Vec<u8> {
    let mut buffer = Vec::with_capacity(512);
    buffer.extend_from_slice(&[0xaa; 100]);
    buffer
}

/// Returns the outcome of a datagram as text to compare, with the bytes of its response.
macro_rules! seen {
    ($received:expr, $kind:ident) => {
        match $received {
            $kind::Answer(answer) => (
                format!("{} {:?}", answer.to(), answer.refusal()),
                answer.bytes().to_vec(),
            ),
            other => (described(&other), Vec::new()),
        }
    };
}

/// Returns the text of an outcome without the answer, which is the same for both calls.
fn described(received: &impl Debug) -> String {
    format!("{received:?}")
}

/// Returns a server with long-term credentials, its table of one user, and datagrams of each kind.
fn long_term() -> (Server, Users, Vec<Vec<u8>>) {
    let settings = ResponseSettings::new().answer_binding(true).software("tested");
    let server = Server::new(LongTerm::new("example.org", [1; 32]), settings).unwrap();
    let alice = || LongTermCredentials::new("alice".to_string(), "wonderland".to_string());
    let mut users = server.users();
    users.add(alice()).unwrap();
    let mut client = LongTermClientAuth::new();
    client.add_supported_integrity(IntegrityAlgorithm::Sha256);
    client.set_credentials(alice());
    let unsigned = client.sign_outgoing_message(request(1)).unwrap().finish();
    let Received::Answer(challenge) = server.receive(&unsigned, from(), now(), &users) else {
        panic!("no challenge");
    };
    let challenge = Message::from_bytes(challenge.bytes()).unwrap();
    client.validate_incoming_message(&challenge).unwrap();
    let mut sign = |page: MessageWriteVec| client.sign_outgoing_message(page).unwrap().finish();
    let mut datagrams = vec![
        sign(request(1)),
        sign(with(request(1), 0x7fff)),
        sign(request(3)),
    ];
    let mut forged = datagrams[0].clone();
    *forged.last_mut().unwrap() ^= 1;
    datagrams.extend([unsigned, forged, indication(0x8fff), indication(0x7fff)]);
    datagrams.push(b"no message".to_vec());
    (server, users, datagrams)
}

#[test]
fn a_server_writes_the_responses_of_receive() {
    let (server, users, datagrams) = long_term();
    let user = server.user(LongTermCredentials::new("alice".into(), "wonderland".into()));
    let (mut answers, mut buffer) = (0, used());
    for (bytes, at) in datagrams.iter().flat_map(|bytes| [(bytes, 0), (bytes, 7200)]) {
        let now = UnixTime::from_secs(7200 + at);
        let wanted = seen!(server.receive(bytes, from(), now, &users), Received);
        let got = server.receive_into(bytes, from(), now, &users, &mut buffer);
        assert_eq!(seen!(got, Received), wanted);
        assert_eq!(buffer, wanted.1, "the buffer has the response, or nothing");
        answers += usize::from(!buffer.is_empty());
        let wanted = seen!(server.receive_for(bytes, from(), now, Some(&user)), Received);
        let got = server.receive_for_into(bytes, from(), now, Some(&user), &mut buffer);
        assert_eq!(seen!(got, Received), wanted);
        assert_eq!(buffer, wanted.1);
    }
    assert_eq!(answers, 9);
}

#[test]
fn a_server_allocates_for_a_nonce_alone() {
    let (server, users, datagrams) = long_term();
    let mut buffer = Vec::with_capacity(512);
    let mut blocks = |bytes: &[u8]| {
        let call = || drop(server.receive_into(bytes, from(), now(), &users, &mut buffer));
        blocks_of(call).0
    };
    let [binding, unknown, _, unsigned, forged, ..] = &datagrams[..] else {
        panic!("not so many")
    };
    assert_eq!(blocks(binding), 1, "success");
    assert_eq!(blocks(unknown), 1, "420");
    assert_eq!(blocks(unsigned), 1, "401");
    assert_eq!(blocks(forged), 1, "401");
    for dropped in &datagrams[5..] {
        assert_eq!(blocks(dropped), 0);
    }
}

/// Pseudo-random numbers, the same in each run.
struct Random(u64);

impl Random {
    fn below(&mut self, limit: usize) -> usize {
        self.0 ^= self.0 << 13;
        self.0 ^= self.0 >> 7;
        self.0 ^= self.0 << 17;
        (self.0 % limit as u64) as usize
    }
}

/// Returns a batch of up to 20 of these datagrams, some of them damaged, and some from another
/// address.
fn batch_of(datagrams: &[Vec<u8>], random: &mut Random) -> Vec<(Vec<u8>, SocketAddr)> {
    let mut one = || {
        let mut bytes = datagrams[random.below(datagrams.len())].clone();
        if random.below(3) == 0 {
            let at = random.below(bytes.len());
            bytes[at] ^= 1 << random.below(8);
        }
        let port = 4242 + u16::from(random.below(4) == 0);
        (bytes, SocketAddr::new(from().ip(), port))
    };
    let batch: Vec<_> = (0..20).map(|_| one()).collect();
    let length = random.below(batch.len() + 1);
    batch.into_iter().take(length).collect()
}

#[test]
fn a_batch_is_received_like_its_datagrams_one_by_one() {
    let (server, users, datagrams) = long_term();
    let (mut random, mut answers, mut number) = (Random(0x9e37_79b9), Answers::new(), 0);
    for _ in 0..300 {
        let batch = batch_of(&datagrams, &mut random);
        let now = UnixTime::from_secs(7200 + 3600 * random.below(3) as u64);
        let wanted = batch.iter().map(|(bytes, from)| {
            seen!(server.receive(bytes, *from, now, &users), Received)
        });
        let wanted: Vec<_> = wanted.collect();
        let given = batch.iter().map(|(bytes, from)| (&bytes[..], *from));
        let received = server.receive_many(given, now, &users, &mut answers);
        let (received, mut end): (Vec<_>, _) = (received.collect(), 0);
        let got = received.into_iter().map(|one| match one {
            Received::Answer(answer) => {
                assert_eq!(answer.range().start, end, "the responses follow one another");
                end = answer.range().end;
                number += 1;
                (
                    format!("{} {:?}", answer.to(), answer.refusal()),
                    answers.bytes()[answer.range()].to_vec(),
                )
            }
            other => (described(&other), Vec::new()),
        });
        assert_eq!(got.collect::<Vec<_>>(), wanted);
        assert_eq!(answers.bytes().len(), end);
    }
    assert!(number > 1000, "{number} responses");
}

#[test]
fn a_batch_allocates_for_nonces_alone() {
    let (server, users, datagrams) = long_term();
    let answered = [0, 1, 3, 4, 7]; // and one that is dropped
    let batch = || answered.iter().map(|at| (&datagrams[*at][..], from()));
    let mut answers = Answers::new();
    let mut receive = || {
        server
            .receive_many(batch(), now(), &users, &mut answers)
            .filter(|received| matches!(received, Received::Answer(_)))
            .count()
    };
    assert_eq!(receive(), 4); // the buffer grows
    assert_eq!(blocks_of(receive), (4, 4));
}

#[test]
fn a_server_without_credentials_allocates_nothing() {
    let settings = || ResponseSettings::new().answer_binding(true).software("tested");
    let server = OpenServer::new(settings()).unwrap();
    let mut buffer = used();
    for bytes in [
        request(1).finish(),
        with(request(1), 0x7fff).finish(),
        request(3).finish(),
        indication(0x8fff),
        indication(0x7fff),
        b"no message".to_vec(),
    ] {
        let wanted = seen!(server.receive(&bytes, from()), OpenReceived);
        let (blocks, got) = blocks_of(|| server.receive_into(&bytes, from(), &mut buffer));
        let is_answer = matches!(got, OpenReceived::Answer(_));
        assert_eq!(seen!(got, OpenReceived), wanted);
        assert_eq!(buffer, wanted.1);
        assert!(!is_answer || blocks == 0, "{blocks} blocks for {wanted:?}");
    }
}

#[test]
fn a_server_with_short_term_credentials_writes_the_responses_of_receive() {
    let settings = ResponseSettings::new().answer_binding(true);
    let server = ShortTermServer::new(settings).unwrap();
    let password = || ShortTermCredentials::new("wonderland".to_string());
    let mut users = ShortTermUsers::new();
    users.add("alice", password()).unwrap();
    let signed = |mut page: MessageWriteVec| {
        page.add_attribute(&Username::new("alice").unwrap()).unwrap();
        page.add_message_integrity(&password().into(), IntegrityAlgorithm::Sha1)
            .unwrap();
        page.finish()
    };
    let mut buffer = used();
    for bytes in [
        signed(request(1)),
        signed(with(request(1), 0x7fff)),
        signed(request(3)),
        request(1).finish(),
        indication(0x8fff),
        b"no message".to_vec(),
    ] {
        let wanted = seen!(server.receive(&bytes, from(), &users), ShortTermReceived);
        let (blocks, got) =
            blocks_of(|| server.receive_into(&bytes, from(), &users, &mut buffer));
        let is_answer = matches!(got, ShortTermReceived::Answer(_));
        assert_eq!(seen!(got, ShortTermReceived), wanted);
        assert_eq!(buffer, wanted.1);
        assert!(!is_answer || blocks == 0, "{blocks} blocks for {wanted:?}");
    }
}

#[test]
fn an_agent_judges_and_answers_a_check_without_an_allocation() {
    let (left, right) = (
        ("evtj", "asd88fgpdd777uzjYhagZg"),
        ("h6vY", "VOkJxbRl1RmTxUk/WvJxBt"),
    );
    let other = ("evtj", "another-password-of-22");
    let agent = |ours, theirs, tie, role| Checker::new(ours, theirs, tie, role).unwrap();
    let sender = agent(left, right, 7, Role::Controlling);
    let rival = agent(left, right, 9, Role::Controlled);
    let forger = agent(left, ("h6vY", other.1), 7, Role::Controlling);
    let id = TransactionId::from([7; 12]);
    let to = "198.51.100.7:3478".parse().unwrap();
    let check = |of: &Checker| of.check(id, to, 77, true).unwrap();
    let mut buffer = used();
    for bytes in [
        check(&sender).bytes().to_vec(),
        check(&rival).bytes().to_vec(),
        check(&forger).bytes().to_vec(),
        Checker::keepalive(id),
        b"no message".to_vec(),
    ] {
        let mut one = agent(right, left, 8, Role::Controlled);
        let mut two = agent(right, left, 8, Role::Controlled);
        let wanted = one.receive(&bytes, from(), None);
        let (blocks, got) = blocks_of(|| two.receive_into(&bytes, from(), None, &mut buffer));
        assert_eq!(blocks, 0);
        assert_eq!(two.role(), one.role());
        match (got, wanted) {
            (
                ice::Received::Check { answer, judged, .. },
                ice::Received::Check {
                    answer: bytes,
                    judged: verdict,
                    ..
                },
            ) => {
                assert_eq!(answer, bytes);
                assert_eq!(judged, verdict);
            }
            (got, wanted) => {
                assert_eq!(described(&got), described(&wanted));
                assert!(buffer.is_empty());
            }
        }
    }
    let asked = check(&sender);
    let mut peer = agent(right, left, 8, Role::Controlled);
    let ice::Received::Check { answer, .. } = peer.receive(asked.bytes(), from(), None) else {
        panic!("no check");
    };
    let mut sender = agent(left, right, 7, Role::Controlling);
    let (blocks, received) =
        blocks_of(|| sender.receive_into(&answer, to, Some(&asked), &mut buffer));
    assert_eq!(blocks, 0);
    assert_eq!(
        described(&received),
        described(&ice::Received::<Vec<u8>>::Response(ice::Outcome::Valid { mapped: from() }))
    );
}
