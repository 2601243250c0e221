//! The tests of an agent in the crate `stun-proto`, written anew with the calls of that crate: no
//! transaction ID and no time is passed where that crate takes none.
#![cfg(all(feature = "std", feature = "rand"))]

use core::net::SocketAddr;
use core::time::Duration;
use seatcrane_stun as stun_proto;
use stun_proto::Instant;
use stun_proto::agent::{StunAgent, StunAgentPollRet, StunError, Transmit};
use stun_proto::auth::ShortTermAuth;
use stun_proto::stats::StunAgentStats;
use stun_proto::types::TransportType;
use stun_proto::types::attribute::*;
use stun_proto::types::data::Data;
use stun_proto::types::message::*;
use stun_proto::types::prelude::*;

const START: Instant = Instant::ZERO;

fn here() -> SocketAddr {
    "10.0.0.1:12345".parse().unwrap()
}

fn there() -> SocketAddr {
    "10.0.0.2:3478".parse().unwrap()
}

fn agent() -> StunAgent {
    StunAgent::builder(TransportType::Udp, here()).build()
}

fn counting() -> StunAgent {
    StunAgent::builder(TransportType::Udp, here())
        .stats(true)
        .build()
}

fn request() -> (TransactionId, Vec<u8>) {
    let request = Message::builder_request(BINDING, MessageWriteVec::new());
    (request.transaction_id(), request.finish())
}

fn success(request: &[u8]) -> Vec<u8> {
    let request = Message::from_bytes(request).unwrap();
    let mut response = Message::builder_success(&request, MessageWriteVec::new());
    let address = XorMappedAddress::new(here(), request.transaction_id());
    response.add_attribute(&address).unwrap();
    response.finish()
}

/// Sends a request, and returns its ID and its bytes.
fn asked(agent: &mut StunAgent, now: Instant) -> (TransactionId, Vec<u8>) {
    let (id, bytes) = request();
    let sent = agent
        .send_request(bytes, there(), now)
        .unwrap()
        .into_owned();
    (id, sent.data.to_vec())
}

fn takes(agent: &mut StunAgent, message: &[u8], now: Instant) -> bool {
    let message = Message::from_bytes(message).unwrap();
    agent.handle_stun_message_with_time(&message, there(), now)
}

fn is_gone(agent: &mut StunAgent, id: TransactionId) -> bool {
    agent.request_transaction(id).is_none() && agent.mut_request_transaction(id).is_none()
}

fn wait(agent: &mut StunAgent, now: Instant) -> Instant {
    match agent.poll(now) {
        StunAgentPollRet::WaitUntil(until) => until,
        ended => panic!("{ended:?}"),
    }
}

/// Polls until a request ends, and returns how it ended, and when.
fn end_of(agent: &mut StunAgent, mut now: Instant) -> (StunAgentPollRet, Instant) {
    loop {
        let _ = agent.poll_transmit(now);
        match agent.poll(now) {
            StunAgentPollRet::WaitUntil(until) => now = until,
            ended => return (ended, now),
        }
    }
}

#[test]
fn stats_default() {
    let stats = StunAgentStats::default();
    assert_eq!((stats.requests_sent(), stats.requests_received()), (0, 0));
    assert_eq!((stats.responses_sent(), stats.responses_received()), (0, 0));
    assert_eq!(
        (stats.indications_sent(), stats.indications_received()),
        (0, 0)
    );
    assert_eq!(
        (
            stats.transactions_timed_out(),
            stats.transactions_cancelled()
        ),
        (0, 0)
    );
    assert_eq!(
        (
            stats.outstanding_requests(),
            stats.bytes_sent(),
            stats.bytes_received()
        ),
        (0, 0, 0)
    );
    assert_eq!(
        (
            stats.rtt_count(),
            stats.rtt_min(),
            stats.rtt_max(),
            stats.rtt_average()
        ),
        (0, None, None, None)
    );
}

/// The original tests private counters; this test uses an agent that keeps statistics.
#[test]
fn stats_counters() {
    let mut agent = counting();
    let (first, bytes) = asked(&mut agent, START);
    asked(&mut agent, START);
    assert_eq!(agent.stats().unwrap().outstanding_requests(), 2);
    agent.mut_request_transaction(first).unwrap().cancel();
    assert_eq!(
        agent.poll(START),
        StunAgentPollRet::TransactionCancelled(first)
    );
    assert_eq!(agent.stats().unwrap().outstanding_requests(), 1);
    assert!(matches!(
        end_of(&mut agent, START).0,
        StunAgentPollRet::TransactionTimedOut(_)
    ));
    assert!(takes(&mut agent, &bytes, START));
    agent.send(success(&bytes), there(), START).unwrap();
    let stats = agent.stats().unwrap();
    assert_eq!(
        (
            stats.requests_sent(),
            stats.requests_received(),
            stats.responses_sent()
        ),
        (2, 1, 1)
    );
    assert_eq!(
        (
            stats.transactions_timed_out(),
            stats.transactions_cancelled()
        ),
        (1, 1)
    );
    assert_eq!(
        (stats.outstanding_requests(), stats.bytes_sent()),
        (0, 20 * 8 + 32)
    );
    agent.stats_mut().unwrap().reset();
    assert_eq!(agent.stats(), Some(&StunAgentStats::default()));
}

/// The original tests private counters; this test uses an agent that keeps statistics.
#[test]
fn stats_rtt() {
    let mut agent = counting();
    for nanos in [10, 100] {
        let (_, bytes) = asked(&mut agent, START);
        assert!(takes(
            &mut agent,
            &success(&bytes),
            START + Duration::from_nanos(nanos)
        ));
    }
    let stats = agent.stats().unwrap();
    let [least, most, average] = [10, 100, 55].map(|nanos| Some(Duration::from_nanos(nanos)));
    assert_eq!((stats.rtt_count(), stats.rtt_average()), (2, average));
    assert_eq!((stats.rtt_min(), stats.rtt_max()), (least, most));
}

#[test]
fn agent_getters_setters() {
    let agent = StunAgent::builder(TransportType::Udp, here())
        .remote_addr(there())
        .build();
    assert_eq!(agent.transport(), TransportType::Udp);
    assert_eq!(
        (agent.local_addr(), agent.remote_addr()),
        (here(), Some(there()))
    );
}

#[test]
fn request_and_tcp_request() {
    for transport in [TransportType::Udp, TransportType::Tcp] {
        let mut agent = StunAgent::builder(transport, here())
            .remote_addr(there())
            .build();
        let (id, bytes) = request();
        let sent = agent
            .send_request(bytes.clone(), there(), START)
            .unwrap()
            .into_owned();
        assert_eq!(
            (sent.transport, sent.from, sent.to),
            (transport, here(), there())
        );
        assert_eq!(sent.data.as_ref(), bytes);
        assert_eq!(agent.request_transaction(id).unwrap().integrity(), None);
        let request = Message::from_bytes(&sent.data).unwrap();
        assert_eq!(request.transaction_id(), id);
        let response = Message::builder_error(&request, MessageWriteVec::new()).finish();
        assert!(takes(&mut agent, &response, START));
        assert!(is_gone(&mut agent, id));
        assert_eq!(wait(&mut agent, START), START + Duration::from_secs(3600));
    }
}

#[test]
fn indication_with_invalid_response() {
    let mut agent = StunAgent::builder(TransportType::Udp, here())
        .remote_addr(there())
        .build();
    let id = TransactionId::generate();
    let written = |class| {
        let message_type = MessageType::from_class_method(class, BINDING);
        Message::builder(message_type, id, MessageWriteVec::new()).finish()
    };
    let sent = agent
        .send(written(MessageClass::Indication), there(), START)
        .unwrap();
    assert_eq!(
        (sent.transport, sent.from, sent.to),
        (TransportType::Udp, here(), there())
    );
    assert!(Message::from_bytes(&sent.data).is_ok());
    assert!(is_gone(&mut agent, id));
    assert!(!takes(&mut agent, &written(MessageClass::Error), START));
}

#[test]
fn request_with_credentials_and_with_incorrect_ones() {
    let (mut agent, mut auth) = (agent(), ShortTermAuth::new());
    let right = ShortTermCredentials::new(String::from("local_password"));
    let wrong = ShortTermCredentials::new(String::from("wrong_password"));
    auth.set_credentials(right.clone(), IntegrityAlgorithm::Sha1);
    let mut request = Message::builder_request(BINDING, MessageWriteVec::new());
    let id = request.transaction_id();
    request
        .add_message_integrity(&right.clone().into(), IntegrityAlgorithm::Sha1)
        .unwrap();
    agent
        .send_request(request.finish(), there(), START)
        .unwrap();
    assert!(!agent.is_validated_peer(there()));
    let answer = |credentials: ShortTermCredentials| {
        let success = MessageType::from_class_method(MessageClass::Success, BINDING);
        let mut response = Message::builder(success, id, MessageWriteVec::new());
        response
            .add_attribute(&XorMappedAddress::new(here(), id))
            .unwrap();
        response
            .add_message_integrity(&credentials.into(), IntegrityAlgorithm::Sha1)
            .unwrap();
        response.finish()
    };
    let forged = answer(wrong);
    let verdict = auth.validate_incoming_message(&Message::from_bytes(&forged).unwrap());
    assert_eq!(verdict, Err(ValidateError::IntegrityFailed));
    let signed = answer(right);
    let response = Message::from_bytes(&signed).unwrap();
    assert_eq!(
        auth.validate_incoming_message(&response),
        Ok(Some(IntegrityAlgorithm::Sha1))
    );
    let outstanding = agent
        .request_transaction(response.transaction_id())
        .unwrap();
    assert_eq!(outstanding.integrity(), Some(IntegrityAlgorithm::Sha1));
    // The agent checks no signature.
    assert!(takes(&mut agent, &forged, START));
    assert!(!takes(&mut agent, &signed, START));
    assert!(is_gone(&mut agent, id) && agent.is_validated_peer(there()));
}

#[test]
fn request_without_credentials_and_duplicate_response_ignored() {
    let mut agent = agent();
    let (id, bytes) = asked(&mut agent, START);
    let response = success(&bytes);
    assert!(!agent.is_validated_peer(there()));
    assert!(takes(&mut agent, &response, START));
    assert!(is_gone(&mut agent, id) && agent.is_validated_peer(there()));
    assert!(!takes(&mut agent, &response, START));
}

#[test]
fn request_unanswered() {
    let mut agent = agent();
    let (id, _) = asked(&mut agent, START);
    let (ended, now) = end_of(&mut agent, START);
    assert_eq!(
        (ended, now - START),
        (
            StunAgentPollRet::TransactionTimedOut(id),
            Duration::from_millis(39500)
        )
    );
    assert!(is_gone(&mut agent, id) && !agent.is_validated_peer(there()));
}

#[test]
fn request_custom_timeout_and_no_retransmit() {
    let seconds = Duration::from_secs;
    let mut agent = agent();
    let (id, _) = asked(&mut agent, START);
    let mut request = agent.mut_request_transaction(id).unwrap();
    request.configure_timeout_with_max(seconds(1), 4, seconds(10), seconds(2));
    let mut now = START;
    for waited in [1, 2, 2] {
        let until = wait(&mut agent, now);
        assert_eq!(until - now, seconds(waited));
        now = until;
        assert_eq!(wait(&mut agent, now), now);
        assert!(agent.poll_transmit(now).is_some());
    }
    assert_eq!(wait(&mut agent, now) - now, seconds(10));
    assert_eq!(
        agent.poll(now + seconds(10)),
        StunAgentPollRet::TransactionTimedOut(id)
    );
    assert!(is_gone(&mut agent, id));

    let (id, _) = asked(&mut agent, now);
    agent
        .mut_request_transaction(id)
        .unwrap()
        .configure_timeout(seconds(1), 0, seconds(10));
    assert_eq!(wait(&mut agent, now) - now, seconds(10));
    assert_eq!(
        agent.poll(now + seconds(10)),
        StunAgentPollRet::TransactionTimedOut(id)
    );
}

/// The original tests a private table of timeouts; this test checks the times at which an agent
/// polls.
#[test]
fn request_retransmits_and_tcp_custom_timeout() {
    let (milli, second) = (Duration::from_millis(1), Duration::from_secs(1));
    for (transport, transmissions, waits) in [
        (TransportType::Udp, 0, vec![second]),
        (TransportType::Udp, 1, vec![second]),
        (TransportType::Udp, 2, vec![milli, second]),
        (TransportType::Tcp, 0, vec![second]),
        (TransportType::Tcp, 1, vec![second]),
        (TransportType::Tcp, 2, vec![second + milli]),
    ] {
        let builder = StunAgent::builder(transport, here());
        let mut agent = builder
            .request_retransmits(milli, Duration::MAX, transmissions, second)
            .build();
        asked(&mut agent, START);
        let mut now = START;
        for (passed, waited) in waits.iter().enumerate() {
            assert_eq!(wait(&mut agent, now) - now, *waited);
            now += *waited;
            assert_eq!(agent.poll_transmit(now).is_some(), passed + 1 < waits.len());
        }
        assert!(matches!(
            agent.poll(now),
            StunAgentPollRet::TransactionTimedOut(_)
        ));
    }
    let builder = StunAgent::builder(TransportType::Tcp, here());
    let mut agent = builder
        .request_retransmits(second, 2 * second, 4, 3 * second)
        .build();
    asked(&mut agent, START);
    assert_eq!(wait(&mut agent, START) - START, (1 + 2 + 2 + 3) * second);
}

#[test]
fn request_cancel_and_cancel_send() {
    for is_to_wait in [false, true] {
        let mut agent = agent();
        let (id, _) = asked(&mut agent, START);
        let mut request = agent.mut_request_transaction(id).unwrap();
        assert_eq!(
            (request.integrity(), request.peer_address()),
            (None, there())
        );
        assert_eq!(
            request.agent().local_addr(),
            request.mut_agent().local_addr()
        );
        if is_to_wait {
            request.cancel_retransmissions()
        } else {
            request.cancel()
        }
        let (ended, now) = end_of(&mut agent, START);
        assert_eq!(ended, StunAgentPollRet::TransactionCancelled(id));
        assert_eq!(now - START > Duration::from_secs(20), is_to_wait);
        assert!(is_gone(&mut agent, id) && !agent.is_validated_peer(there()));
    }
}

#[test]
fn request_duplicate() {
    let mut agent = agent();
    let (id, bytes) = asked(&mut agent, START);
    let again = agent.send_request(bytes.clone(), there(), START);
    assert!(matches!(again, Err(StunError::AlreadyInProgress)));
    assert_eq!(
        agent.request_transaction(id).unwrap().peer_address(),
        there()
    );
    assert!(takes(&mut agent, &success(&bytes), START));
    assert!(agent.is_validated_peer(there()));
}

#[test]
fn incoming_request() {
    let mut agent = agent();
    let (_, bytes) = request();
    assert!(takes(&mut agent, &bytes, START));
    agent.validated_peer(there());
    assert!(agent.is_validated_peer(there()));
}

#[test]
fn transmit_into_owned_and_display() {
    let lent = Transmit::new(
        Data::from([16, 32].as_slice()),
        TransportType::Udp,
        here(),
        there(),
    );
    let text = "Transmit(UDP: 10.0.0.1:12345 -> 10.0.0.2:3478 of 2 bytes)";
    assert_eq!(lent.to_string(), text);
    let owned: Transmit<Data<'static>> = lent.into_owned();
    assert_eq!(owned.to_string(), text);
    assert_eq!(owned.data, Data::Owned(vec![16, 32]));
}

#[test]
fn stats_send_receive_request() {
    let mut agent = counting();
    assert_eq!(agent.stats().unwrap().requests_sent(), 0);
    let (_, bytes) = asked(&mut agent, START);
    let response = success(&bytes);
    let came = START + Duration::from_millis(10);
    assert!(agent.poll_transmit(came).is_none());
    assert!(takes(&mut agent, &response, came));
    let stats = agent.stats().unwrap();
    assert_eq!(
        (stats.requests_sent(), stats.bytes_sent()),
        (1, bytes.len() as u64)
    );
    assert_eq!(
        (stats.responses_received(), stats.bytes_received()),
        (1, response.len() as u64)
    );
    assert_eq!(
        (stats.rtt_count(), stats.rtt_average()),
        (1, Some(came - START))
    );
    assert!(takes(&mut agent, &bytes, START));
    agent
        .send(&Message::from_bytes(&response).unwrap(), there(), START)
        .unwrap();
    let stats = agent.stats().unwrap();
    let both = (bytes.len() + response.len()) as u64;
    assert_eq!(
        (
            stats.responses_sent(),
            stats.bytes_sent(),
            stats.bytes_received()
        ),
        (1, both, both)
    );
}

#[test]
fn stats_disabled_by_default() {
    assert!(agent().stats().is_none());
}

#[test]
fn stats_timeout_and_cancel() {
    let mut agent = counting();
    asked(&mut agent, START);
    let (_, now) = end_of(&mut agent, START);
    assert_eq!(agent.stats().unwrap().transactions_timed_out(), 1);
    let (id, _) = asked(&mut agent, now);
    agent.mut_request_transaction(id).unwrap().cancel();
    assert_eq!(agent.poll(now), StunAgentPollRet::TransactionCancelled(id));
    assert_eq!(agent.stats().unwrap().transactions_cancelled(), 1);
}

#[test]
fn stats_rtt_only_no_retransmit() {
    let milli = Duration::from_millis(1);
    let builder = StunAgent::builder(TransportType::Udp, here()).stats(true);
    let mut agent = builder
        .request_retransmits(milli, Duration::MAX, 2, milli)
        .build();
    let (_, bytes) = asked(&mut agent, START);
    assert!(agent.poll_transmit(START + milli).is_some());
    assert!(takes(&mut agent, &success(&bytes), START + 11 * milli));
    let stats = agent.stats().unwrap();
    assert_eq!((stats.responses_received(), stats.rtt_count()), (1, 0));
}

#[test]
fn stats_error_response() {
    let mut agent = counting();
    let (_, bytes) = asked(&mut agent, START);
    let request = Message::from_bytes(&bytes).unwrap();
    let mut response = Message::builder_error(&request, MessageWriteVec::new());
    response
        .add_attribute(&ErrorCode::builder(ErrorCode::BAD_REQUEST).build().unwrap())
        .unwrap();
    let response = response.finish();
    assert!(takes(&mut agent, &response, START));
    let stats = agent.stats().unwrap();
    assert_eq!(
        (stats.responses_received(), stats.bytes_received()),
        (1, response.len() as u64)
    );
}

#[test]
fn stats_send_receive_indication() {
    let mut agent = counting();
    let indication = Message::builder_indication(BINDING, MessageWriteVec::new()).finish();
    agent.send(indication.clone(), there(), START).unwrap();
    assert!(takes(&mut agent, &indication, START));
    let stats = agent.stats().unwrap();
    assert_eq!(
        (stats.indications_sent(), stats.indications_received()),
        (1, 1)
    );
    assert_eq!((stats.bytes_sent(), stats.bytes_received()), (20, 20));
}

#[test]
fn request_removal_from_mut_agent() {
    let mut agent = agent();
    let (id, bytes) = asked(&mut agent, START);
    let response = success(&bytes);
    let mut request = agent.mut_request_transaction(id).unwrap();
    assert!(takes(request.mut_agent(), &response, START));
    assert_eq!(
        (request.integrity(), request.peer_address()),
        (None, there())
    );
    request.cancel_retransmissions();
    request.cancel();
    request.configure_timeout(Duration::from_secs(1), 3, Duration::from_secs(2));
    assert!(request.agent().request_transaction(id).is_none());
    assert!(request.mut_agent().mut_request_transaction(id).is_none());
}
