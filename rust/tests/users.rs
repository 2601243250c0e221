//! Tests of calls that read and copy tables of users, and of look-ups that outlive their datagram.

mod pair;

use pair::at;
use seatcrane_stun::auth::{Feature, LongTermClientAuth, NamedUser, StoredKeys};
use seatcrane_stun::endpoint::*;
use seatcrane_stun::types::message::IntegrityAlgorithm::{Sha1, Sha256};
use seatcrane_stun::types::message::*;
use seatcrane_stun::types::prelude::*;

const FROM: &str = "192.0.2.1:4242";

fn now() -> UnixTime {
    UnixTime::from_secs(7200)
}

fn user(name: &str, password: &str) -> LongTermCredentials {
    LongTermCredentials::new(name.to_string(), password.to_string())
}

fn server(algorithms: &[IntegrityAlgorithm]) -> Server {
    let long_term = LongTerm::new("example.org", [1; 32]).algorithms(algorithms);
    Server::builder(long_term).answer_binding(true).build().unwrap()
}

/// Returns a Binding request of a user, signed with the strongest algorithm of the server.
fn request(server: &Server, credentials: &LongTermCredentials, feature: Feature) -> Vec<u8> {
    let mut client = LongTermClientAuth::new();
    client.add_supported_integrity(Sha256);
    client.set_anonymous_username(feature);
    client.set_credentials(credentials.clone());
    let mut last = Vec::new();
    for _ in 0..2 {
        let id = TransactionId::from([7; 12]);
        let page = Message::builder_request_with_id(BINDING, id, MessageWriteVec::new());
        last = client.sign_outgoing_message(page).unwrap().finish();
        let Received::Answer(answer) = server.receive(&last, at(FROM), now(), &server.users())
        else {
            panic!("no challenge")
        };
        let challenge = Message::from_bytes(answer.bytes()).unwrap();
        let _ = client.validate_incoming_message(&challenge);
    }
    last
}

/// Returns the bytes of the answer to a request, and whether it is a success.
fn answered(received: Received<'_>) -> (Vec<u8>, bool) {
    let Received::Answer(answer) = received else {
        panic!("no answer: {received:?}")
    };
    let is_success = answer.refusal().is_none();
    (answer.into_bytes(), is_success)
}

#[test]
fn a_table_says_whom_it_has() {
    let server = server(&[Sha1, Sha256]);
    let mut users = server.users();
    assert_eq!(
        (server.realm(), users.realm()),
        ("example.org", "example.org")
    );
    assert!(users.is_empty() && users.names().next().is_none());
    for name in ["carol", "alice", "bob", "alice"] {
        users.add(user(name, "wonderland")).unwrap();
    }
    let keys = StoredKeys::new().with_sha256([7; 32]);
    users.add_with_keys("dave", keys).unwrap();
    assert!(users.names().eq(["alice", "bob", "carol", "dave"]));
    assert_eq!(
        (users.len(), users.contains("bob"), users.contains("bo")),
        (4, true, false)
    );
    assert!(users.remove("bob") && !users.remove("bob"));
    assert!(users.names().eq(["alice", "carol", "dave"]));
    assert_eq!(format!("{users:?}"), "Users { len: 3, .. }");
}

#[test]
fn a_copy_judges_as_its_original_and_changes_alone() {
    for algorithms in [&[Sha1][..], &[Sha256], &[Sha1, Sha256]] {
        for feature in [Feature::Auto, Feature::Disabled] {
            let server = server(algorithms);
            let alice = user("alice", "wonderland");
            let request = request(&server, &alice, feature);
            let judged = |users: &Users| answered(server.receive(&request, at(FROM), now(), users));
            let mut users = server.users();
            users.add(user("alice", "before")).unwrap();
            assert!(!judged(&users).1);
            users.add(alice).unwrap();
            let mut copy = users.clone();
            assert!(judged(&users).1);
            assert_eq!(judged(&copy), judged(&users));
            copy.add(user("bob", "builder")).unwrap();
            copy.add(user("alice", "after")).unwrap();
            assert!(!judged(&copy).1 && judged(&users).1);
            copy.remove("alice");
            assert!(copy.names().eq(["bob"]) && users.names().eq(["alice"]));
            assert!(!judged(&copy.clone()).1 && judged(&users).1);
        }
    }
}

#[test]
fn a_look_up_outlives_its_datagram() {
    let server = server(&[Sha1, Sha256]);
    let alice = user("alice", "wonderland");
    for feature in [Feature::Auto, Feature::Disabled] {
        let mut buffer = request(&server, &alice, feature);
        let by_user = server.user(alice.clone());
        let judged = answered(server.receive_for(&buffer, at(FROM), now(), Some(&by_user)));
        let Identified::Lookup(lookup) = server.identify(&buffer, at(FROM), now()) else {
            panic!("no look-up")
        };
        let (who, id) = (format!("{:?}", lookup.user_id()), lookup.transaction_id());
        let owned = lookup.into_owned();
        buffer.fill(0xff); // the next datagram
        assert_eq!(format!("{:?}", owned.user_id()), who);
        assert_eq!(
            feature == Feature::Disabled,
            owned.user_id() == NamedUser::ByName("alice")
        );
        assert_eq!(
            (owned.transaction_id(), owned.from(), owned.arrived()),
            (id, at(FROM), now())
        );
        let shared = by_user.clone();
        let resumed = answered(server.resume(&owned, Some(&shared)));
        assert_eq!((&resumed, resumed.1), (&judged, true));
        assert!(!answered(server.resume(&owned, None)).1);
        assert_eq!(
            answered(server.resume(owned.as_lookup(), Some(&by_user))),
            judged
        );
    }
}

#[test]
fn short_term_users() {
    let mut users = ShortTermUsers::new();
    for name in ["bob", "alice"] {
        users
            .add(name, ShortTermCredentials::new("wonderland".to_string()))
            .unwrap();
    }
    let mut copy = users.clone();
    assert!(copy.remove("bob") && !copy.remove("bob"));
    assert!(users.names().eq(["alice", "bob"]) && copy.names().eq(["alice"]));
    assert_eq!(
        (users.len(), users.contains("bob"), copy.contains("bob")),
        (2, true, false)
    );

    let server = ShortTermServer::new(ResponseSettings::new().answer_binding(true)).unwrap();
    let credentials = Credentials::short_term("alice", "wonderland", Sha256);
    let mut client = Client::builder(at(FROM))
        .credentials(credentials)
        .build([7; 32])
        .unwrap();
    let start = seatcrane_stun::Instant::ZERO;
    client.request(BINDING, Body::new(), start).unwrap();
    let Output::Transmit { bytes, .. } = client.poll(start) else {
        panic!("nothing to send")
    };
    for (users, is_success) in [
        (&users, true),
        (&copy, true),
        (&ShortTermUsers::new(), false),
    ] {
        let ShortTermReceived::Answer(answer) = server.receive(bytes, at(FROM), users) else {
            panic!("no answer")
        };
        assert_eq!(answer.refusal().is_none(), is_success);
    }
}
