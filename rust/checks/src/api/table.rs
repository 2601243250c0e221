//! Compares a table of requests with an agent on which the same calls are made.

use crate::api::run;
use crate::exported::stun_agent::agent::{RequestRto, StunAgent, StunAgentPollRet, StunError};
use crate::exported::stun_agent::table::Table;
use crate::exported::stun_base::transport::TransportType;
use crate::exported::stun_types::message::{Message, TransactionId};
use crate::host::{Abort, Fail};
use crate::kit::alloc::{Allocator, Global};
use crate::kit::prelude::Vec;
use crate::refusing::RefusingAllocator;
use crate::test_support::datagrams::{REQUEST, SUCCESS, at, local, message, peer};
use std::time::Duration;

/// Returns the ID with this number.
fn id(number: u8) -> TransactionId {
    TransactionId::from_u128(u128::from(number)).expect("each byte is an id")
}

/// Sends the request with this number, and stores a value with it.
fn send<A: Allocator + Copy, D>(
    table: &mut Table<A, D>,
    alloc: A,
    number: u8,
    datum: D,
    millis: u64,
) -> Result<(), StunError> {
    let bytes = Vec::from_slice(alloc, &message(REQUEST, number))?;
    table.send(
        alloc,
        id(number),
        bytes,
        RequestRto::default(),
        datum,
        at(millis),
    )
}

/// Polls both for requests to retransmit, until neither returns one.
fn transmitted(agent: &mut StunAgent, table: &mut Table<Global, u8>, millis: u64) {
    loop {
        let sent = agent
            .poll_transmit(at(millis))
            .map(|sent| sent.data.to_vec());
        let id = table.poll_transmit(at(millis));
        let bytes = id.and_then(|id| table.bytes_of(id)).map(<[u8]>::to_vec);
        assert_eq!(bytes, sent);
        if id.is_none() {
            break;
        }
    }
}

/// Polls both once, and returns whether a request has ended.
fn ended(agent: &mut StunAgent, table: &mut Table<Global, u8>, millis: u64) -> bool {
    match (agent.poll(at(millis)), table.poll(at(millis))) {
        (StunAgentPollRet::TransactionTimedOut(id), Ok((ended, datum))) => {
            assert_eq!((ended, ended.as_u128()), (id, u128::from(datum)));
            true
        }
        (StunAgentPollRet::WaitUntil(one), Err(other)) => {
            assert_eq!(one, other);
            false
        }
        (one, other) => panic!("{one:?} and {other:?}"),
    }
}

#[test]
fn a_table_does_what_an_agent_does() {
    run(|rt| {
        let mut agent = StunAgent::builder(rt.alloc(), TransportType::Udp, local())
            .stats(true)
            .build();
        let mut table = Table::new(TransportType::Udp, peer(), true);
        let (mut word, mut millis) = (1_u64, 0);
        for _ in 0..20_000 {
            word = word.wrapping_mul(6_364_136_223_846_793_005).wrapping_add(1);
            let number = (word >> 40) as u8;
            match (word >> 60) % 3 {
                0 => {
                    let sent = agent.send_request(message(REQUEST, number), peer(), at(millis));
                    let sent = sent.map(|_| ());
                    assert_eq!(send(&mut table, rt.alloc(), number, number, millis), sent);
                }
                1 => {
                    let bytes = message(SUCCESS, number);
                    let response = Message::from_bytes(&bytes)?;
                    let now = at(millis);
                    let taken = agent.handle_stun_message_with_time(&response, peer(), now)?;
                    let answered = table.answer(id(number), bytes.len(), Some(now));
                    assert_eq!(answered.is_some(), taken);
                }
                _ => millis += (word >> 50) % 400,
            }
            transmitted(&mut agent, &mut table, millis);
            while ended(&mut agent, &mut table, millis) {}
            assert_eq!(agent.next_awaited(), table.next_awaited());
        }
        assert_eq!(agent.stats(), table.stats());
        Ok(())
    });
}

#[test]
fn a_datum_is_that_of_its_request() {
    run(|rt| {
        let mut table = Table::new(TransportType::Udp, peer(), true);
        for number in 0..=255 {
            send(&mut table, rt.alloc(), number, u32::from(number), 0)?;
        }
        for number in 0..=255 {
            let before = table.replace_datum(id(number), u32::from(number) + 1000);
            assert_eq!(before, Some(u32::from(number)));
        }
        for number in 0..=255 {
            assert_eq!(table.datum(id(number)), Some(&(u32::from(number) + 1000)));
            let (bytes, datum) = table.cancel(id(number)).ok_or("it is outstanding")?;
            assert_eq!(bytes.as_slice(), message(REQUEST, number));
            assert_eq!(datum, u32::from(number) + 1000);
            assert!(!table.has(id(number)));
        }
        assert_eq!(table.replace_datum(id(7), 7), None);
        let stats = table.stats().ok_or("it counts")?;
        assert_eq!(stats.transactions_cancelled(), 256);
        Ok(())
    });
}

#[test]
fn a_table_allocates_only_to_send() {
    let heap = RefusingAllocator::new();
    let mut table: Table<&RefusingAllocator, u8> = Table::new(TransportType::Udp, peer(), false);
    for number in 0..8 {
        send(&mut table, &heap, number, number, 0).expect("there is memory");
    }
    for refused in 1..=3 {
        heap.refuse(refused);
        let sent = send(&mut table, &heap, 200, 200, 0);
        if heap.met_none() {
            assert_eq!(sent, Ok(()));
        } else {
            assert_eq!(sent, Err(StunError::OutOfMemory));
            assert!(!table.has(id(200)));
        }
    }
    heap.refuse(1);
    assert_eq!(table.replace_datum(id(0), 9), Some(0));
    assert!(table.answer(id(0), 20, None).is_some());
    assert!(table.cancel(id(1)).is_some());
    while table.poll_transmit(at(500)).is_some() {}
    while table.poll_transmit(at(1_000_000)).is_some() {}
    while table.poll(at(2_000_000)).is_ok() {}
    assert!(heap.met_none());
}

#[test]
fn a_plan_is_cut() {
    let plan = RequestRto::default();
    for (millis, transmissions, last) in [
        (39_500, 7, 8_000),
        (39_499, 7, 7_999),
        (31_501, 7, 1),
        (31_500, 6, 16_000),
        (501, 2, 1),
        (500, 1, 500),
        (0, 1, 0),
    ] {
        let cut = plan.within(Duration::from_millis(millis));
        assert_eq!((cut.initial, cut.max), (plan.initial, plan.max));
        assert_eq!(cut.retransmits, transmissions);
        assert_eq!(cut.last_retransmit, Duration::from_millis(last));
    }
    let often = RequestRto {
        max: Duration::from_millis(1_000),
        retransmits: u32::MAX,
        ..plan
    };
    let cut = often.within(Duration::from_secs(1_000_000));
    assert_eq!(cut.retransmits, 1_000_001);
    assert_eq!(cut.last_retransmit, Duration::from_millis(500));
    let at_once = RequestRto {
        initial: Duration::ZERO,
        ..often
    };
    assert_eq!(
        at_once.within(Duration::from_nanos(1)).retransmits,
        u32::MAX
    );
}
