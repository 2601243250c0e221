//! Tests of an agent: when requests are retransmitted and when they end, whose responses are
//! accepted, and what is counted.
use seatcrane_stun::Instant;
use seatcrane_stun::agent::{StunAgent, StunAgentPollRet, StunError};
use seatcrane_stun::stats::StunAgentStats;
use seatcrane_stun::types::TransportType;
use seatcrane_stun::types::data::Data;
use seatcrane_stun::types::message::*;
use seatcrane_stun::types::prelude::*;
use std::net::SocketAddr;
use std::time::Duration;

fn at(millis: u64) -> Instant {
    Instant::ZERO + Duration::from_millis(millis)
}

fn local() -> SocketAddr {
    "127.0.0.1:2000".parse().unwrap()
}

fn remote() -> SocketAddr {
    "127.0.0.1:1000".parse().unwrap()
}

fn agent_of(transport: TransportType) -> StunAgent {
    StunAgent::builder(transport, local())
        .remote_addr(remote())
        .stats(true)
        .build()
}

/// Returns a request whose ID begins with a number, and that ID.
fn request(number: u8) -> (Vec<u8>, TransactionId) {
    let mut id = [0x55; 12];
    id[0] = number;
    let id = TransactionId::from(id);
    (
        Message::builder_request_with_id(BINDING, id, MessageWriteVec::new()).finish(),
        id,
    )
}

fn success(request: &[u8]) -> Vec<u8> {
    let mut response = Message::builder_success(
        &Message::from_bytes(request).unwrap(),
        MessageWriteVec::new(),
    );
    response.add_xor_mapped_address(local()).unwrap();
    response.finish()
}

fn is_taken(agent: &mut StunAgent, message: &[u8], from: SocketAddr, now: Instant) -> bool {
    agent.handle_stun_message_with_time(&Message::from_bytes(message).unwrap(), from, now)
}

fn wait(agent: &mut StunAgent, now: Instant) -> Instant {
    match agent.poll(now) {
        StunAgentPollRet::WaitUntil(until) => until,
        ended => panic!("{ended:?} at {now:?}"),
    }
}

#[test]
fn an_unanswered_request_is_sent_seven_times() {
    let mut agent = agent_of(TransportType::Udp);
    let (bytes, id) = request(1);
    let transmit = agent.send_request(&bytes, remote(), at(0)).unwrap();
    assert_eq!(
        (transmit.from, transmit.to, &transmit.data),
        (local(), remote(), &Data::from(&bytes[..]))
    );
    assert_eq!(
        transmit.to_string(),
        "Transmit(UDP: 127.0.0.1:2000 -> 127.0.0.1:1000 of 20 bytes)"
    );
    let mut now = at(0);
    for due in [500, 1500, 3500, 7500, 15500, 31500] {
        assert!(agent.poll_transmit(now).is_none());
        now = wait(&mut agent, now);
        assert_eq!(now, at(due));
        assert_eq!(
            wait(&mut agent, now),
            now,
            "what is due is sent before there is waiting"
        );
        let again = agent.poll_transmit(now).unwrap();
        assert_eq!(
            (again.data, again.from, again.to),
            (&bytes[..], local(), remote())
        );
    }
    now = wait(&mut agent, now);
    assert_eq!(now, at(39500));
    assert!(agent.poll_transmit(now).is_none());
    assert!(agent.request_transaction(id).is_some());
    assert_eq!(agent.poll(now), StunAgentPollRet::TransactionTimedOut(id));
    assert!(agent.request_transaction(id).is_none());
    assert!(agent.mut_request_transaction(id).is_none());
    assert_eq!(wait(&mut agent, now), now + Duration::from_secs(3600));
    let stats = agent.stats().unwrap();
    assert_eq!(
        (
            stats.requests_sent(),
            stats.bytes_sent(),
            stats.transactions_timed_out()
        ),
        (1, 140, 1)
    );
}

#[test]
fn a_request_of_its_own_time_outs() {
    let mut agent = agent_of(TransportType::Udp);
    let (bytes, id) = request(1);
    agent.send_request(bytes, remote(), at(0)).unwrap();
    let seconds = Duration::from_secs;
    agent
        .mut_request_transaction(id)
        .unwrap()
        .configure_timeout_with_max(seconds(1), 4, seconds(10), seconds(2));
    let mut now = at(0);
    for waited in [1, 2, 2] {
        let until = wait(&mut agent, now);
        assert_eq!(until - now, seconds(waited));
        now = until;
        assert!(agent.poll_transmit(now).is_some());
    }
    assert_eq!(wait(&mut agent, now) - now, seconds(10));
    assert_eq!(
        agent.poll(now + seconds(10)),
        StunAgentPollRet::TransactionTimedOut(id)
    );
}

#[test]
fn no_retransmissions_and_tcp() {
    let seconds = Duration::from_secs;
    let mut agent = agent_of(TransportType::Udp);
    let (bytes, id) = request(1);
    agent.send_request(&bytes, remote(), at(0)).unwrap();
    agent
        .mut_request_transaction(id)
        .unwrap()
        .configure_timeout(seconds(1), 0, seconds(10));
    assert_eq!(wait(&mut agent, at(0)), at(10000));
    assert_eq!(
        agent.poll(at(10000)),
        StunAgentPollRet::TransactionTimedOut(id)
    );

    let mut agent = StunAgent::builder(TransportType::Tcp, local())
        .request_retransmits(seconds(1), seconds(2), 4, seconds(3))
        .build();
    agent.send_request(&bytes, remote(), at(0)).unwrap();
    assert_eq!(wait(&mut agent, at(0)), at(8000));
    assert!(agent.poll_transmit(at(7999)).is_none());
    assert_eq!(
        agent.poll(at(8000)),
        StunAgentPollRet::TransactionTimedOut(id)
    );

    let mut agent = agent_of(TransportType::Tcp);
    let transmit = agent.send_request(&bytes, remote(), at(0)).unwrap();
    assert_eq!(transmit.transport, TransportType::Tcp);
    assert_eq!(wait(&mut agent, at(0)), at(39500));
}

#[test]
fn a_cancelled_request_ends_at_once() {
    let mut agent = agent_of(TransportType::Udp);
    let (bytes, id) = request(1);
    agent.send_request(bytes, remote(), at(0)).unwrap();
    let mut asked = agent.mut_request_transaction(id).unwrap();
    assert_eq!(asked.peer_address(), remote());
    assert_eq!(asked.agent().local_addr(), local());
    asked.cancel();
    assert!(agent.poll_transmit(at(500)).is_none());
    assert_eq!(
        agent.poll(at(0)),
        StunAgentPollRet::TransactionCancelled(id)
    );
    assert!(agent.request_transaction(id).is_none());
    assert_eq!(agent.stats().unwrap().transactions_cancelled(), 1);
}

#[test]
fn a_silenced_request_waits_for_its_response() {
    let mut agent = agent_of(TransportType::Udp);
    let (bytes, id) = request(1);
    agent.send_request(&bytes, remote(), at(0)).unwrap();
    agent
        .mut_request_transaction(id)
        .unwrap()
        .cancel_retransmissions();
    let mut now = at(0);
    while let StunAgentPollRet::WaitUntil(until) = agent.poll(now) {
        assert!(until > now, "no busy waits");
        now = until;
        assert!(agent.poll_transmit(now).is_none());
    }
    assert_eq!(now, at(39500));
    assert!(!is_taken(&mut agent, &success(&bytes), remote(), now));

    agent.send_request(&bytes, remote(), now).unwrap();
    agent
        .mut_request_transaction(id)
        .unwrap()
        .cancel_retransmissions();
    assert!(is_taken(
        &mut agent,
        &success(&bytes),
        remote(),
        now + Duration::from_secs(35)
    ));
}

#[test]
fn a_response_is_taken_once_and_from_the_address_asked() {
    let mut agent = agent_of(TransportType::Udp);
    let (bytes, id) = request(1);
    let response = success(&bytes);
    assert!(
        !is_taken(&mut agent, &response, remote(), at(0)),
        "nothing was asked"
    );
    agent.send_request(&bytes, remote(), at(0)).unwrap();
    assert!(
        !is_taken(&mut agent, &response, local(), at(1)),
        "another address answers"
    );
    assert_eq!(
        agent.request_transaction(id).unwrap().peer_address(),
        remote()
    );
    assert!(is_taken(&mut agent, &response, remote(), at(2)));
    assert!(agent.request_transaction(id).is_none());
    assert!(
        !is_taken(&mut agent, &response, remote(), at(3)),
        "it is answered already"
    );
    assert!(
        is_taken(&mut agent, &bytes, local(), at(4)),
        "a request comes from anybody"
    );
}

#[test]
fn addresses_are_validated_by_their_messages_or_by_name() {
    let mut agent = agent_of(TransportType::Udp);
    let (bytes, _) = request(1);
    let response = success(&bytes);
    agent.send_request(&bytes, remote(), at(0)).unwrap();
    assert!(!agent.is_validated_peer(remote()), "nothing came yet");
    assert!(!is_taken(&mut agent, &response, local(), at(1)));
    assert!(
        !agent.is_validated_peer(local()),
        "its response was not taken"
    );
    assert!(is_taken(&mut agent, &response, remote(), at(2)));
    assert!(agent.is_validated_peer(remote()));
    let there: SocketAddr = "[2001:db8::1]:3478".parse().unwrap();
    assert!(is_taken(&mut agent, &bytes, there, at(3)));
    assert!(agent.is_validated_peer(there));
    let before = agent.stats().cloned();
    for _ in 0..2 {
        agent.validated_peer(local());
        assert!(agent.is_validated_peer(local()));
    }
    assert_eq!(agent.stats().cloned(), before);
    let other_port = SocketAddr::new(local().ip(), 2001);
    assert!(!agent.is_validated_peer(other_port));
    assert!(
        !agent_of(TransportType::Udp).is_validated_peer(local()),
        "agents share nothing"
    );
    assert_eq!(agent.validated_peer_count(), 3);
    for left in [2, 2] {
        agent.forget_validated_peer(there);
        assert!(!agent.is_validated_peer(there), "it is forgotten");
        assert_eq!(agent.validated_peer_count(), left);
    }
    assert!(agent.is_validated_peer(remote()) && agent.is_validated_peer(local()));
}

#[test]
fn what_is_refused_leaves_the_agent() {
    let mut agent = agent_of(TransportType::Udp);
    let (bytes, id) = request(1);
    agent.send_request(&bytes, remote(), at(0)).unwrap();
    let before = agent.stats().cloned();
    assert_eq!(
        agent.send_request(&bytes, remote(), at(9)),
        Err(StunError::AlreadyInProgress)
    );
    let (other, other_id) = request(2);
    assert_eq!(
        agent.send_request(&other, local(), at(9)),
        Err(StunError::ProtocolViolation)
    );
    assert_eq!(
        agent.send_request(success(&other), remote(), at(9)),
        Err(StunError::ProtocolViolation)
    );
    assert_eq!(
        agent.send(&other, remote(), at(9)),
        Err(StunError::ProtocolViolation)
    );
    assert_eq!(
        agent.send_data(b"data", local()),
        Err(StunError::ProtocolViolation)
    );
    let cut = StunError::ParseError(StunParseError::Truncated);
    assert_eq!(agent.send_request(&other[..19], remote(), at(9)), Err(cut));
    assert_eq!(cut.to_string(), "the bytes end too early");
    assert_eq!(agent.send_data(b"data", remote()).unwrap().data, b"data");
    assert!(agent.request_transaction(other_id).is_none());
    assert_eq!(agent.stats().cloned(), before);
    assert_eq!(wait(&mut agent, at(0)), at(500));
    assert!(agent.request_transaction(id).is_some());
}

#[test]
fn the_request_may_end_while_it_is_borrowed() {
    let mut agent = agent_of(TransportType::Udp);
    let (bytes, id) = request(1);
    let response = success(&bytes);
    agent.send_request(&bytes, remote(), at(0)).unwrap();
    let mut asked = agent.mut_request_transaction(id).unwrap();
    assert!(is_taken(asked.mut_agent(), &response, remote(), at(1)));
    assert_eq!(asked.peer_address(), remote());
    asked.cancel();
    asked.cancel_retransmissions();
    asked.configure_timeout(Duration::from_secs(1), 1, Duration::from_secs(1));
    assert!(agent.request_transaction(id).is_none());
    assert_eq!(agent.stats().unwrap().transactions_cancelled(), 0);
}

#[test]
fn statistics_count_each_kind() {
    let mut agent = agent_of(TransportType::Udp);
    assert_eq!(agent.stats(), Some(&StunAgentStats::default()));
    let (first, _) = request(1);
    let (second, _) = request(2);
    for (bytes, sent, millis) in [(&first, 0, 10), (&second, 20, 100)] {
        agent.send_request(bytes, remote(), at(sent)).unwrap();
        assert!(is_taken(
            &mut agent,
            &success(bytes),
            remote(),
            at(sent + millis)
        ));
    }
    let stats = agent.stats().unwrap();
    assert_eq!((stats.requests_sent(), stats.bytes_sent()), (2, 40));
    assert_eq!(
        (stats.responses_received(), stats.bytes_received()),
        (2, 64)
    );
    assert_eq!(stats.rtt_count(), 2);
    assert_eq!(stats.rtt_min(), Some(Duration::from_millis(10)));
    assert_eq!(stats.rtt_max(), Some(Duration::from_millis(100)));
    assert_eq!(stats.rtt_average(), Some(Duration::from_millis(55)));

    let indication = Message::builder_indication_with_id(
        BINDING,
        TransactionId::from([9; 12]),
        MessageWriteVec::new(),
    )
    .finish();
    agent.send(&indication, remote(), at(200)).unwrap();
    agent.send(success(&first), remote(), at(200)).unwrap();
    assert!(is_taken(&mut agent, &indication, remote(), at(200)));
    assert!(is_taken(&mut agent, &first, remote(), at(200)));
    let stats = agent.stats().unwrap();
    assert_eq!((stats.indications_sent(), stats.responses_sent()), (1, 1));
    assert_eq!(
        (stats.indications_received(), stats.requests_received()),
        (1, 1)
    );
    assert_eq!(
        (stats.bytes_sent(), stats.bytes_received()),
        (40 + 20 + 32, 64 + 20 + 20)
    );
    assert_eq!(
        (
            stats.transactions_timed_out(),
            stats.transactions_cancelled()
        ),
        (0, 0)
    );
    let plain = StunAgent::builder(TransportType::Udp, local()).build();
    assert_eq!(plain.stats(), None);
}

#[test]
fn a_round_trip_is_of_a_request_that_was_sent_once() {
    let mut agent = agent_of(TransportType::Udp);
    let (bytes, _) = request(1);
    agent.send_request(&bytes, remote(), at(0)).unwrap();
    assert!(agent.poll_transmit(at(500)).is_some());
    assert!(is_taken(&mut agent, &success(&bytes), remote(), at(510)));
    let stats = agent.stats().unwrap();
    assert_eq!(
        (
            stats.responses_received(),
            stats.rtt_count(),
            stats.rtt_min()
        ),
        (1, 0, None)
    );
}

#[test]
fn two_agents_share_nothing() {
    let (mut one, mut two) = (agent_of(TransportType::Udp), agent_of(TransportType::Udp));
    let (bytes, id) = request(1);
    one.send_request(&bytes, remote(), at(0)).unwrap();
    assert!(two.request_transaction(id).is_none());
    assert!(!is_taken(&mut two, &success(&bytes), remote(), at(1)));
    two.send_request(&bytes, remote(), at(100)).unwrap();
    assert!(is_taken(&mut one, &success(&bytes), remote(), at(200)));
    assert_eq!(wait(&mut two, at(200)), at(600));
    drop(one);
    assert!(two.poll_transmit(at(600)).is_some());
}

#[test]
fn requests_of_many_lengths_and_families() {
    let there: SocketAddr = "[2001:db8::1]:3478".parse().unwrap();
    let mut agent = StunAgent::builder(TransportType::Udp, "[::]:1".parse().unwrap()).build();
    let mut sent = Vec::new();
    for number in 0..4 {
        let mut request = Message::builder_request_with_id(
            BINDING,
            TransactionId::from([number; 12]),
            MessageWriteVec::new(),
        );
        let text = vec![b'a'; 200 * usize::from(3 - number)];
        request
            .add_attribute(&RawAttribute::new(AttributeType::SOFTWARE, &text))
            .unwrap();
        let bytes = request.finish();
        agent.send_request(&bytes, there, at(0)).unwrap();
        sent.push(bytes);
    }
    for bytes in &sent {
        let again = agent.poll_transmit(at(500)).unwrap();
        assert_eq!((again.data, again.to), (&bytes[..], there));
    }
    assert!(agent.poll_transmit(at(500)).is_none());
}
