//! A server that runs out of memory drops the datagram, and loses nothing. This test is alone in
//! its process.

mod limited;

use limited::within;
use seatcrane_stun::Instant;
use seatcrane_stun::auth::LongTermClientAuth;
use seatcrane_stun::endpoint::*;
use seatcrane_stun::types::attribute::*;
use seatcrane_stun::types::message::*;
use seatcrane_stun::types::prelude::*;
use std::net::SocketAddr;

fn alice() -> LongTermCredentials {
    LongTermCredentials::new("alice".to_string(), "wonderland".to_string())
}

fn request(client: &mut LongTermClientAuth, method: u16, kind: u16) -> Vec<u8> {
    let (method, id) = (Method::new(method).unwrap(), TransactionId::from([7; 12]));
    let mut page = Message::builder_request_with_id(method, id, MessageWriteVec::new());
    page.add_attribute(&RawAttribute::new(AttributeType(kind), b"odd"))
        .unwrap();
    client.sign_outgoing_message(page).unwrap().finish()
}

/// Returns the outcome of a datagram as bytes to compare, after answering an accepted request.
fn bytes_of(received: Received<'_>) -> Result<Vec<u8>, DropReason> {
    match received {
        Received::Answer(answer) => Ok(answer.into_bytes()),
        Received::Request(request) => Ok(request.reply().error(508, "Full").finish().unwrap()),
        Received::Dropped(why) => Err(why),
        other => panic!("{other:?}"),
    }
}

#[test]
fn where_memory_ends_a_datagram_is_dropped() {
    let from: SocketAddr = "192.0.2.1:4242".parse().unwrap();
    let (now, later) = (UnixTime::from_secs(7200), UnixTime::from_secs(14400));
    let long_term = LongTerm::new("example.org", [1; 32]).previous_secret([2; 32]);
    let builder = Server::builder(long_term)
        .answer_binding(true)
        .software("tested");
    let server = builder.build().unwrap();
    let mut users = server.users();
    users.add(alice()).unwrap();
    let mut client = LongTermClientAuth::new();
    client.add_supported_integrity(IntegrityAlgorithm::Sha256);
    client.set_credentials(alice());
    let unsigned = request(&mut client, 1, 0x8fff);
    let challenge = bytes_of(server.receive(&unsigned, from, now, &users)).unwrap();
    let challenge = Message::from_bytes(&challenge).unwrap();
    client.validate_incoming_message(&challenge).unwrap();
    let [binding, unknown, allocate] =
        [(1, 0x8fff), (1, 0x7fff), (3, 0x8fff)].map(|(m, kind)| request(&mut client, m, kind));
    for (bytes, now, code) in [
        (&unsigned, now, Some(401)),
        (&binding, now, None),
        (&binding, later, Some(438)),
        (&unknown, now, Some(420)),
        (&allocate, now, Some(508)),
    ] {
        let wanted = bytes_of(server.receive(bytes, from, now, &users)).unwrap();
        assert_eq!(
            Message::from_bytes(&wanted).unwrap().error_code().ok(),
            code
        );
        let mut blocks = 0;
        loop {
            let received = within(blocks, || server.receive(bytes, from, now, &users));
            match bytes_of(received) {
                Err(why) => assert_eq!(why, DropReason::OutOfMemory),
                Ok(answer) => {
                    assert_eq!(answer, wanted, "{code:?} with {blocks} blocks");
                    break;
                }
            }
            blocks += 1;
        }
        assert!((1..30).contains(&blocks), "{blocks} blocks");
    }
}

#[test]
fn where_memory_ends_the_users_stay_as_they_were() {
    let server = Server::builder(LongTerm::new("example.org", [1; 32]))
        .build()
        .unwrap();
    let mut users = server.users();
    let mut blocks = 0;
    loop {
        let alice = alice();
        match within(blocks, || users.add(alice)) {
            Err(why) => assert_eq!((why, users.len()), (UserError::OutOfMemory, 0)),
            Ok(()) => break,
        }
        blocks += 1;
    }
    assert!(blocks > 0 && users.contains("alice"));
}

/// Starts a request of a client and passes it the response, each with at most this many blocks of
/// memory. Returns whether each of the two calls succeeded.
fn asked_within(blocks: usize, response: &dyn Fn(&[u8]) -> Vec<u8>) -> (bool, bool) {
    let (server, now) = (SocketAddr::from(([192, 0, 2, 1], 3478)), Instant::ZERO);
    let mut client = Client::builder(server).build([7; 32]).unwrap();
    let started = within(blocks, || client.request(BINDING, Body::new(), now));
    if let Err(error) = started {
        assert_eq!(error, StartError::OutOfMemory);
        assert_eq!(client.outstanding(), 0);
        assert!(matches!(within(0, || client.poll(now)), Output::Wait(None)));
        return (false, false);
    }
    let answer = match within(0, || client.poll(now)) {
        Output::Transmit { bytes, .. } => response(bytes),
        other => panic!("{other:?}"),
    };
    match within(blocks, || client.receive(&answer, server, now)) {
        Input::Consumed => match within(0, || client.poll(now)) {
            Output::Ended(_, _) => (true, true),
            other => panic!("{other:?}"),
        },
        Input::Dropped(DropReason::OutOfMemory) => {
            assert_eq!(client.outstanding(), 1);
            assert!(matches!(client.receive(&answer, server, now), Input::Consumed));
            (true, false)
        }
        other => panic!("{other:?}"),
    }
}

#[test]
fn where_memory_ends_a_client_loses_nothing() {
    let from: SocketAddr = "192.0.2.2:4242".parse().unwrap();
    let open = OpenServer::new(ResponseSettings::new().answer_binding(true)).unwrap();
    let success = |bytes: &[u8]| match open.receive(bytes, from) {
        OpenReceived::Answer(answer) => answer.into_bytes(),
        other => panic!("{other:?}"),
    };
    let redirected = |bytes: &[u8]| {
        let request = Message::from_bytes(bytes).unwrap();
        let mut page = Message::builder_error(&request, MessageWriteVec::new());
        page.add_attribute(&ErrorCode::builder(300).build().unwrap()).unwrap();
        page.add_attribute(&AlternateDomain::new("other.example.org").unwrap()).unwrap();
        page.finish()
    };
    for response in [&success as &dyn Fn(&[u8]) -> Vec<u8>, &redirected] {
        let mut went = Vec::new();
        while went.last() != Some(&(true, true)) {
            assert!(went.len() < 40, "{went:?}");
            went.push(asked_within(went.len(), response));
        }
        assert!(went.contains(&(false, false)), "{went:?}");
    }
}
