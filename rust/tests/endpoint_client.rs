//! Tests of a client as one value.

mod pair;

use pair::*;
use seatcrane_stun::endpoint::*;
use seatcrane_stun::extra::attribute::{AlternateServer, Lifetime, Software, XorPeerAddress};
use seatcrane_stun::extra::{Fingerprint, check_fingerprint, finish_with_fingerprint};
use seatcrane_stun::types::attribute::*;
use seatcrane_stun::types::message::*;
use seatcrane_stun::types::prelude::*;
use std::collections::{HashSet, VecDeque};
use std::time::Duration;

const HERE: &str = "10.0.0.1:1000";

/// Returns the bytes of a transmission, if `poll` returns one.
fn sent(client: &mut Client, now: u64) -> Option<Vec<u8>> {
    match client.poll(ms(now)) {
        Output::Transmit { bytes, .. } => Some(bytes.to_vec()),
        _ => None,
    }
}

fn ended(client: &mut Client, now: u64) -> Option<Result<Response, RequestError>> {
    match client.poll(ms(now)) {
        Output::Ended(_, result) => Some(result),
        _ => None,
    }
}

#[test]
fn a_client_is_challenged_once_and_served() {
    for algorithms in [&[SHA1][..], &[SHA256], &BOTH] {
        let service = Service::new(1, algorithms);
        let mut client = client(1, "wonderland", &BOTH);
        for (now, codes) in [(0, &[401, 200][..]), (1000, &[200])] {
            binding(&mut client, ms(now));
            let (told, ended) = exchange(&mut client, &service, at(HERE), ms(now));
            assert_eq!(
                (&*told, signed_by(&ended)),
                (codes, algorithms.last().copied())
            );
            let [(_, Ok(response))] = &ended[..] else {
                panic!("{ended:?}");
            };
            assert_eq!(response.message().xor_mapped_address(), Ok(at(HERE)));
        }
        assert_eq!(client.poll(ms(1000)), Output::Wait(None));
    }
}

/// 20 and 1,000 requests are started at once, before the first challenge, and all of them succeed.
#[test]
fn all_of_many_first_requests_are_served() {
    for many in [20, 1000] {
        for algorithms in [&[SHA1][..], &BOTH] {
            let service = Service::new(1, algorithms);
            let mut client = client(2, "wonderland", &BOTH);
            let asked: HashSet<RequestId> =
                (0..many).map(|_| binding(&mut client, ms(0))).collect();
            assert_eq!(client.outstanding(), many);
            // All requests are sent, before any answer comes back.
            let (mut wire, mut served, mut datagrams) = (VecDeque::new(), HashSet::new(), 0);
            loop {
                match client.poll(ms(0)) {
                    Output::Transmit { bytes, .. } => {
                        datagrams += 1;
                        wire.push_back(bytes.to_vec());
                    }
                    Output::Ended(request, result) => {
                        assert_eq!(result.unwrap().signed_by(), algorithms.last().copied());
                        assert!(served.insert(request), "it ended twice");
                    }
                    _ => match wire.pop_front() {
                        Some(bytes) => {
                            let answer = service.answer(&bytes, at(HERE), ms(0));
                            let _ = client.receive(answer.bytes(), at(SERVER), ms(0));
                        }
                        None => break,
                    },
                }
            }
            assert_eq!((served.len(), datagrams), (many, 2 * many));
            assert_eq!(served, asked);
        }
    }
}

#[test]
fn a_restart_a_new_address_and_the_end_of_a_nonce_cost_one_request() {
    let service = Service::new(1, &BOTH);
    let mut client = client(3, "wonderland", &BOTH);
    let mut codes = |service: &Service, from, now| {
        binding(&mut client, ms(now));
        let (codes, ended) = exchange(&mut client, service, at(from), ms(now));
        assert_eq!(signed_by(&ended), Some(SHA256));
        codes
    };
    assert_eq!(codes(&service, HERE, 0), [401, 200]);
    assert_eq!(codes(&Service::new(1, &BOTH), HERE, 1), [200]);
    assert_eq!(codes(&service, "10.0.0.1:1001", 2), [438, 200]);
    assert_eq!(
        codes(&Service::new(2, &BOTH), "10.0.0.1:1001", 3),
        [438, 200]
    );
    assert_eq!(
        codes(&Service::new(2, &BOTH), "10.0.0.1:1001", 4_000_000),
        [438, 200]
    );
}

#[test]
fn a_wrong_password_costs_three_datagrams() {
    let service = Service::new(1, &BOTH);
    let mut client = client(4, "wrong", &BOTH);
    let request = binding(&mut client, ms(0));
    let (codes, ended) = exchange(&mut client, &service, at(HERE), ms(0));
    assert_eq!(codes, [401, 401]);
    assert!(ended.is_empty());
    let dropped = client.dropped(request).unwrap();
    assert_eq!(dropped.last(), Some(DropReason::Refused));
    let (codes, ended) = exchange(&mut client, &service, at(HERE), ms(500));
    assert_eq!(codes, [401]);
    assert!(matches!(&ended[..], [(_, Err(RequestError::Unauthorized))]));
    assert_eq!(client.outstanding(), 0);
}

#[test]
fn requests_are_sent_again_and_time_out() {
    let mut client = client(5, "wonderland", &BOTH);
    let request = binding(&mut client, ms(0));
    let first = sent(&mut client, 0).unwrap();
    for at in [500, 1500, 3500, 7500, 15500, 31500] {
        assert_eq!(client.poll(ms(at - 1)), Output::Wait(Some(ms(at))));
        assert_eq!(sent(&mut client, at).unwrap(), first);
    }
    assert_eq!(client.poll(ms(31500)), Output::Wait(Some(ms(39500))));
    let Some(Err(RequestError::TimedOut(drops))) = ended(&mut client, 39500) else {
        panic!("no timeout");
    };
    assert_eq!((drops.count(), client.dropped(request)), (0, None));
    assert_eq!(client.poll(ms(39500)), Output::Wait(None));
}

/// Damaged, forged and foreign datagrams end no request, and the error of a timeout says what was
/// dropped.
#[test]
fn what_is_not_to_be_believed_is_dropped_and_counted() {
    let service = Service::new(1, &BOTH);
    let mut client = client(6, "wonderland", &BOTH);
    binding(&mut client, ms(0));
    exchange(&mut client, &service, at(HERE), ms(0));
    let request = binding(&mut client, ms(1));
    let bytes = sent(&mut client, 1).unwrap();
    let answer = service.answer(&bytes, at(HERE), ms(1)).into_bytes();
    let message = Message::from_bytes(&bytes).unwrap();
    let mut forged = Message::builder_success(&message, MessageWriteVec::new());
    forged.add_xor_mapped_address(at("1.2.3.4:5")).unwrap();
    let mut error = Message::builder_error(&message, MessageWriteVec::new());
    error.add_error_code(420, "").unwrap();
    let mut wrong =
        finish_with_fingerprint(Message::builder_success(&message, MessageWriteVec::new()))
            .unwrap();
    *wrong.last_mut().unwrap() ^= 1;
    let mut damaged = answer.clone();
    damaged[30] ^= 1;
    let mut challenge = Message::builder_error(&message, MessageWriteVec::new());
    challenge.add_error_code(401, "").unwrap();
    let mut weaker = Message::builder_error(&message, MessageWriteVec::new());
    weaker.add_error_code(438, "").unwrap();
    weaker
        .add_attribute(&Realm::new("example.org").unwrap())
        .unwrap();
    weaker.add_attribute(&Nonce::new("x").unwrap()).unwrap();
    let dropped = [
        (forged.finish(), DropReason::NotVerified),
        (wrong, DropReason::WrongFingerprint),
        (damaged, DropReason::NotVerified),
        (challenge.finish(), DropReason::UnanswerableChallenge),
        (weaker.finish(), DropReason::WeakerChallenge),
        (error.finish(), DropReason::NotVerified),
    ];
    for (count, (bytes, why)) in dropped.into_iter().enumerate() {
        let input = client.receive(&bytes, at(SERVER), ms(2));
        assert!(
            matches!(input, Input::Dropped(one) if one == why),
            "{input:?}, not {why:?}"
        );
        let drops = client.dropped(request).unwrap();
        assert_eq!((drops.count(), drops.last()), (count as u32 + 1, Some(why)));
    }
    let elsewhere = client.receive(&answer, at("192.0.2.2:3478"), ms(2));
    assert!(matches!(elsewhere, Input::NotOurs));
    assert!(matches!(
        client.receive(b"none", at(SERVER), ms(2)),
        Input::NotOurs
    ));
    assert!(matches!(
        client.receive(&bytes, at(SERVER), ms(2)),
        Input::NotOurs
    ));
    assert_eq!(client.poll(ms(2)), Output::Wait(Some(ms(501))));
    let text = RequestError::TimedOut(client.dropped(request).unwrap()).to_string();
    assert_eq!(
        text,
        "no answer in time; 6 dropped, the last because it is not signed as its request is (error 420)"
    );
    // The genuine answer is accepted, once.
    assert!(matches!(
        client.receive(&answer, at(SERVER), ms(3)),
        Input::Consumed
    ));
    assert!(matches!(
        client.receive(&answer, at(SERVER), ms(3)),
        Input::NotOurs
    ));
    assert!(ended(&mut client, 3).unwrap().is_ok());
}

#[test]
fn with_credentials_an_unsigned_answer_is_accepted_only_if_you_say_so() {
    for accepts in [false, true] {
        let builder = Client::builder(at(SERVER)).credentials(Credentials::long_term("a", "b"));
        let builder = if accepts {
            builder.accept_unsigned(true)
        } else {
            builder
        };
        let mut client = builder.build([1; 32]).unwrap();
        binding(&mut client, ms(0));
        let bytes = sent(&mut client, 0).unwrap();
        let request = Message::from_bytes(&bytes).unwrap();
        let answer = Message::builder_success(&request, MessageWriteVec::new()).finish();
        let _ = client.receive(&answer, at(SERVER), ms(0));
        let result = ended(&mut client, 0);
        assert_eq!(result.is_some(), accepts);
        assert!(result.is_none_or(|result| result.unwrap().signed_by().is_none()));
    }
}

#[test]
fn each_request_ends_once_also_if_it_is_cancelled() {
    let mut client = client(7, "wonderland", &BOTH);
    let (one, other) = (binding(&mut client, ms(0)), binding(&mut client, ms(0)));
    assert!(client.cancel(one) && !client.cancel(one));
    assert!(sent(&mut client, 0).is_some(), "the other is sent");
    assert_eq!(
        client.poll(ms(0)),
        Output::Ended(one, Err(RequestError::Cancelled))
    );
    assert_eq!(client.poll(ms(0)), Output::Wait(Some(ms(500))));
    assert!(client.cancel(other));
    assert_eq!(
        client.poll(ms(0)),
        Output::Ended(other, Err(RequestError::Cancelled))
    );
    assert_eq!(client.poll(ms(100_000)), Output::Wait(None));
}

#[test]
fn short_term_credentials_sign_each_request() {
    let alice = Credentials::short_term("alice", "password", SHA256);
    let mut client = Client::builder(at(SERVER))
        .credentials(alice)
        .build([1; 32])
        .unwrap();
    binding(&mut client, ms(0));
    let bytes = sent(&mut client, 0).unwrap();
    let request = Message::from_bytes(&bytes).unwrap();
    let key = b"password";
    assert_eq!(request.validate_integrity_with_key(key), Ok(SHA256));
    assert_eq!(request.attribute::<Username>().unwrap().username(), "alice");
    let answer = Message::builder_success(&request, MessageWriteVec::new()).finish();
    let input = client.receive(&answer, at(SERVER), ms(0));
    assert!(matches!(input, Input::Dropped(DropReason::NotVerified)));
    let mut answer = Message::builder_success(&request, MessageWriteVec::new());
    answer.add_message_integrity_with_key(key, SHA256).unwrap();
    let _ = client.receive(&answer.finish(), at(SERVER), ms(0));
    assert_eq!(
        ended(&mut client, 0).unwrap().unwrap().signed_by(),
        Some(SHA256)
    );
}

/// The response must be signed by the algorithm of the request (RFC 8489, section 9.1.4).
#[test]
fn short_term_responses_by_another_algorithm_are_dropped() {
    let alice = Credentials::short_term("alice", "password", SHA256);
    let mut client = Client::builder(at(SERVER))
        .credentials(alice)
        .build([1; 32])
        .unwrap();
    binding(&mut client, ms(0));
    let bytes = sent(&mut client, 0).unwrap();
    let request = Message::from_bytes(&bytes).unwrap();
    let mut answer = Message::builder_success(&request, MessageWriteVec::new());
    answer
        .add_message_integrity_with_key(b"password", SHA1)
        .unwrap();
    let answer = answer.finish();
    let input = client.receive(&answer, at(SERVER), ms(0));
    assert!(matches!(input, Input::Dropped(DropReason::NotVerified)));
    assert!(ended(&mut client, 0).is_none());
}

#[test]
fn errors_say_what_the_server_said() {
    let mut client = Client::builder(at(SERVER)).build([1; 32]).unwrap();
    let mut tell = |write: &dyn Fn(&mut MessageWriteVec)| {
        binding(&mut client, ms(0));
        let bytes = sent(&mut client, 0).unwrap();
        let request = Message::from_bytes(&bytes).unwrap();
        let mut answer = Message::builder_error(&request, MessageWriteVec::new());
        write(&mut answer);
        let _ = client.receive(&answer.finish(), at(SERVER), ms(0));
        ended(&mut client, 0).unwrap().unwrap_err()
    };
    let refused = tell(&|page| page.add_error_code(500, "").unwrap());
    let RequestError::Refused(error) = &refused else {
        panic!("{refused:?}");
    };
    assert_eq!((error.code(), error.signed_by()), (500, None));
    let other = at("192.0.2.9:3478");
    let redirected = tell(&|page| {
        page.add_error_code(300, "").unwrap();
        page.add_attribute(&AlternateServer::new(other)).unwrap();
    });
    let RequestError::Redirected(to) = &redirected else {
        panic!("{redirected:?}");
    };
    assert_eq!((to.server(), to.domain()), (Some(other), None));
    assert_eq!(tell(&|_| {}), RequestError::MalformedResponse);
    let unknown = AttributeType(0x7777);
    let not_understood = tell(&|page| {
        page.add_error_code(500, "").unwrap();
        page.add_attribute(&RawAttribute::new(unknown, b"odd"))
            .unwrap();
    });
    assert_eq!(not_understood, RequestError::NotUnderstood(unknown));
}

#[test]
fn a_body_is_written_again_under_each_id() {
    let service = Service::new(1, &BOTH);
    let peers = [at("192.0.2.7:5000"), at("[2001:db8::7]:5001")];
    let body = Body::new()
        .add(&Lifetime::new(600))
        .unwrap()
        .add_xor_peer_address(peers[0])
        .unwrap()
        .add_xor_peer_address(peers[1])
        .unwrap();
    let mut client = Client::builder(at(SERVER))
        .credentials(Credentials::long_term("alice", "wonderland"))
        .software("tested")
        .fingerprint(true)
        .build([3; 32])
        .unwrap();
    client
        .request(Method::new(8).unwrap(), body, ms(0))
        .unwrap();
    for _ in 0..2 {
        let bytes = sent(&mut client, 0).unwrap();
        let message = Message::from_bytes(&bytes).unwrap();
        let found: Vec<_> = message
            .iter_attributes()
            .filter_map(|(_, raw)| XorPeerAddress::from_raw(raw).ok())
            .map(|peer| peer.addr(message.transaction_id()))
            .collect();
        assert_eq!(found, peers);
        assert_eq!(message.attribute::<Lifetime>().unwrap().seconds(), 600);
        assert_eq!(
            message.attribute::<Software>().unwrap().software(),
            "tested"
        );
        assert_eq!(check_fingerprint(&message), Fingerprint::Right);
        let received = service
            .server
            .receive(&bytes, at(HERE), wall(ms(0)), &service.users);
        match received {
            Received::Answer(answer) => {
                let _ = client.receive(answer.bytes(), at(SERVER), ms(0));
            }
            other => panic!("{other:?}"),
        }
    }
}

/// Each transaction ID of a request leads to the request, until it ends.
#[test]
fn the_bytes_to_send_name_their_request() {
    let service = Service::new(1, &BOTH);
    let mut client = client(1, "wonderland", &BOTH);
    let other = binding(&mut client, ms(0));
    let request = binding(&mut client, ms(0));
    let sent = |client: &mut Client| match client.poll(ms(0)) {
        Output::Transmit { bytes, request, id } => (bytes.to_vec(), request, id),
        other => panic!("{other:?}"),
    };
    let (_, first, of_other) = sent(&mut client);
    assert_eq!(first, other);
    let mut ids = vec![];
    for _ in 0..2 {
        let (bytes, named, id) = sent(&mut client);
        assert_eq!(named, request);
        assert_eq!(Message::from_bytes(&bytes).unwrap().transaction_id(), id);
        assert_eq!(client.transaction_id(request), Some(id));
        assert_eq!(client.request_of(of_other), Some(other));
        ids.push(id);
        // The earlier message belongs to the request too.
        assert!(ids.iter().all(|id| client.request_of(*id) == Some(request)));
        let received = service
            .server
            .receive(&bytes, at(HERE), wall(ms(0)), &service.users);
        match received {
            Received::Answer(answer) => {
                let _ = client.receive(answer.bytes(), at(SERVER), ms(0));
            }
            other => panic!("{other:?}"),
        }
    }
    assert_ne!(ids[0], ids[1]);
    for id in ids {
        assert_eq!(client.request_of(id), None);
    }
    assert_eq!(client.transaction_id(request), None);
    assert_eq!(client.transaction_id(other), Some(of_other));
}

#[test]
fn a_body_refuses_what_the_client_writes() {
    for kind in [
        AttributeType::MESSAGE_INTEGRITY,
        AttributeType::NONCE,
        AttributeType::USERNAME,
        AttributeType::FINGERPRINT,
        AttributeType::XOR_MAPPED_ADDRESS,
        AttributeType(0x0012),
    ] {
        let added = Body::new().add(&RawAttribute::new(kind, &[0; 20]));
        assert_eq!(added.unwrap_err().reason(), BodyError::NotAllowed, "{kind:?}");
    }
    let long = RawAttribute::new(AttributeType(0x8023), &[0; 59_000]);
    let body = || Body::new().add(&long).unwrap();
    let added = body().add(&RawAttribute::new(AttributeType(0x8023), &[0; 1000]));
    assert_eq!(added.unwrap_err().reason(), BodyError::TooLarge);
    let service = Service::new(1, &BOTH);
    let mut client = client(8, "wonderland", &BOTH);
    client.request(BINDING, body(), ms(0)).unwrap();
    let (codes, ended) = exchange(&mut client, &service, at(HERE), ms(0));
    assert_eq!((codes, signed_by(&ended)), (vec![401, 200], Some(SHA256)));
}

#[test]
fn bad_settings_are_refused() {
    let build = |builder: ClientBuilder| builder.build([1; 32]).err();
    let long = Credentials::long_term("n".repeat(514), "");
    let client = || Client::builder(at(SERVER));
    assert_eq!(build(client()), None);
    assert_eq!(
        build(client().credentials(long)),
        Some(ClientBuildError::NameTooLong)
    );
    let software = client().software("s".repeat(764));
    assert_eq!(build(software), Some(ClientBuildError::SoftwareTooLong));
    assert_eq!(
        build(client().algorithms(&[])),
        Some(ClientBuildError::NoAlgorithm)
    );
}

#[test]
fn both_spellings_of_the_server_are_one() {
    let mut client = Client::builder(at("[::ffff:192.0.2.1]:3478"))
        .build([1; 32])
        .unwrap();
    binding(&mut client, ms(0));
    let bytes = sent(&mut client, 0).unwrap();
    let request = Message::from_bytes(&bytes).unwrap();
    let answer = Message::builder_success(&request, MessageWriteVec::new()).finish();
    assert!(matches!(
        client.receive(&answer, at(SERVER), ms(0)),
        Input::Consumed
    ));
    assert!(ended(&mut client, 0).unwrap().is_ok());
}

/// Returns the bytes of an unsigned success response to a request.
fn success(request: &[u8]) -> Vec<u8> {
    let request = Message::from_bytes(request).unwrap();
    Message::builder_success(&request, MessageWriteVec::new()).finish()
}

/// One client of a TURN server asks for its address with an unsigned request, and sends a signed
/// request at the same time.
#[test]
fn options_hold_for_one_request() {
    let mut client = client(5, "wonderland", &BOTH);
    let service = Service::new(1, &BOTH);
    let unsigned = RequestOptions::new().unsigned();
    let address = client.request_with(BINDING, Body::new(), &unsigned, ms(0)).unwrap();
    let bytes = sent(&mut client, 0).unwrap();
    binding(&mut client, ms(0));
    let (codes, ended_one) = exchange(&mut client, &service, at(HERE), ms(10));
    assert_eq!((&*codes, signed_by(&ended_one)), (&[401, 200][..], Some(SHA256)));

    assert!(matches!(client.receive(&success(&bytes), at(SERVER), ms(30)), Input::Consumed));
    let Output::Ended(request, Ok(response)) = client.poll(ms(30)) else { panic!() };
    assert_eq!((request, response.signed_by()), (address, None));
    assert_eq!(response.round_trip(), Some(Duration::from_millis(30)));

    // A challenge is then an error like any other.
    client.request_with(BINDING, Body::new(), &unsigned, ms(40)).unwrap();
    let bytes = sent(&mut client, 40).unwrap();
    let challenge = service.answer(&bytes, at(HERE), ms(47));
    assert!(matches!(client.receive(challenge.bytes(), at(SERVER), ms(47)), Input::Consumed));
    let Some(Err(RequestError::Refused(refused))) = ended(&mut client, 47) else { panic!() };
    assert_eq!((refused.code(), refused.signed_by()), (401, None));
    assert_eq!(refused.round_trip(), Some(Duration::from_millis(7)));
}

#[test]
fn a_request_has_its_own_plan_and_its_own_address() {
    let other = at("192.0.2.2:3479");
    let fifth = Duration::from_millis(200);
    let plan = Retransmission::new(fifth, Duration::MAX, 2, fifth);
    let options = RequestOptions::new().unsigned().retransmission(plan).answered_from(other);
    let mut client = client(6, "wonderland", &BOTH);
    let first = client.request_with(BINDING, Body::new(), &options, ms(0)).unwrap();
    let bytes = sent(&mut client, 0).unwrap();
    let second = binding(&mut client, ms(0));
    assert!(sent(&mut client, 0).is_some());
    assert!(sent(&mut client, 199).is_none() && sent(&mut client, 200) == Some(bytes.clone()));
    for wrong in [SERVER, "192.0.2.2:3478"] {
        let answer = success(&bytes);
        assert!(matches!(client.receive(&answer, at(wrong), ms(210)), Input::NotOurs));
    }
    assert!(matches!(client.receive(&success(&bytes), other, ms(210)), Input::Consumed));
    let Output::Ended(request, Ok(response)) = client.poll(ms(210)) else { panic!() };
    // The message was sent twice, and nobody knows which of the two the server has answered.
    assert_eq!((request, response.round_trip()), (first, None));

    let late = client.request_with(BINDING, Body::new(), &options, ms(1000)).unwrap();
    // The other request is due again too.
    assert!(sent(&mut client, 1000).is_some() && sent(&mut client, 1000).is_some());
    assert!(sent(&mut client, 1200).is_some());
    assert_eq!(client.poll(ms(1400)), Output::Ended(late, Err(RequestError::TimedOut(Drops::default()))));
    assert_eq!(client.poll(ms(1400)), Output::Wait(Some(ms(2000))));
    assert!(client.transaction_id(second).is_some());
}

#[test]
fn a_stream_is_sent_once() {
    let mut client = Client::builder(at(SERVER))
        .transport(Transport::Stream)
        .build([1; 32])
        .unwrap();
    binding(&mut client, ms(0));
    assert!(sent(&mut client, 0).is_some());
    assert_eq!(client.poll(ms(0)), Output::Wait(Some(ms(39500))));
    let plan = Retransmission::new(
        Duration::from_secs(1),
        Duration::from_secs(1),
        2,
        Duration::from_secs(1),
    );
    let mut client = Client::builder(at(SERVER))
        .retransmission(plan)
        .build([1; 32])
        .unwrap();
    binding(&mut client, ms(0));
    assert!(sent(&mut client, 0).is_some() && sent(&mut client, 1000).is_some());
    assert!(matches!(
        ended(&mut client, 2000),
        Some(Err(RequestError::TimedOut(_)))
    ));
}

#[test]
fn everything_can_be_shared_among_threads_and_shows_no_secret() {
    fn kept<T: Send + Sync + 'static>() {}
    kept::<Client>();
    kept::<ClientBuilder>();
    kept::<Credentials>();
    kept::<Body>();
    kept::<RequestOptions>();
    kept::<Response>();
    kept::<RequestError>();
    kept::<Output<'static>>();
    kept::<Input<'static>>();
    kept::<FrameBuffer>();
    let builder = Client::builder(at(SERVER)).credentials(Credentials::short_term(
        "alice",
        "wonderland",
        SHA1,
    ));
    let shown = format!(
        "{builder:?} {:?}",
        builder.clone().build([171; 32]).unwrap()
    );
    assert!(
        !shown.contains("wonderland") && !shown.contains("171"),
        "{shown}"
    );
}
