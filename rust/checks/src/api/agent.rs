//! Tests of an agent that the transcripts do not have: counted polls, datagrams of other types,
//! texts, copies of statistics, and a request that ends while its handle is held.

use crate::api::run;
use crate::api::support::mapped;
use crate::exported::stun_agent::agent::{
    NoRoom, StunAgent, StunAgentPollRet, StunError, StunRequestMut, Transmit,
};
use crate::exported::stun_agent::stats::StunAgentStats;
use crate::exported::stun_base::data::{Data, OwnedBytes};
use crate::exported::stun_base::error::{StunParseError, StunWriteError};
use crate::exported::stun_base::instant::Instant;
use crate::exported::stun_base::transport::TransportType;
use crate::exported::stun_types::message::Message;
use crate::host::Abort;
use crate::host::Fail;
use crate::kit::alloc::{Allocator, Global};
use crate::kit::ledger::Brand;
use crate::kit::ledger::{Blank, Ledger};
use crate::kit::prelude::TryClone;
use crate::refusing::RefusingAllocator;
use crate::test_support::datagrams::{REQUEST, at, id, local, message, peer};
use std::fmt::Display;
use std::time::Duration;

type Heap = RefusingAllocator;

/// Returns the result of a poll that starts a counter.
fn counted<L: Ledger, A: Allocator + Copy>(
    agent: &mut StunAgent<A>,
    now: Instant,
    blank: Blank,
) -> StunAgentPollRet {
    let (answer, _reads) = agent.poll_counted::<L>(now, blank);
    answer
}

/// Polls, and counts the reads.
fn poll(agent: &mut StunAgent, now: Instant) -> StunAgentPollRet {
    counted::<Brand, _>(agent, now, Blank::new(2))
}

fn udp_agent(alloc: Global) -> StunAgent {
    StunAgent::builder(alloc, TransportType::Udp, local()).build()
}

/// Sends the request of this number.
fn ask(agent: &mut StunAgent, number: u8, now: Instant) -> Result<(), Fail> {
    let _sent = agent.send_request(message(REQUEST, number), peer(), now)?;
    Ok(())
}

/// Returns a handle to the request with this number, to change it.
fn request_of(agent: &mut StunAgent, number: u8) -> Result<StunRequestMut<'_>, Fail> {
    Ok(agent
        .mut_request_transaction(id(number)?)
        .ok_or("it is outstanding")?)
}

#[test]
fn a_counted_poll_answers_as_a_poll() {
    run(|rt| {
        let mut agent = udp_agent(rt.alloc());
        ask(&mut agent, 1, at(0))?;
        ask(&mut agent, 2, at(100))?;
        assert_eq!(
            poll(&mut agent, at(100)),
            StunAgentPollRet::WaitUntil(at(500))
        );
        request_of(&mut agent, 2)?.cancel();
        assert_eq!(
            poll(&mut agent, at(100)),
            StunAgentPollRet::TransactionCancelled(id(2)?)
        );
        assert_eq!(
            poll(&mut agent, at(600)),
            StunAgentPollRet::WaitUntil(at(600))
        );
        Ok(())
    });
}

/// Answers a request through its handle, and then calls the methods that change the ended request.
fn end_and_change(rt: &impl Abort, mut request: StunRequestMut<'_>) -> Result<(), Fail> {
    let bytes = mapped(1);
    let response = Message::from_bytes(&bytes)?;
    assert_eq!(
        request.mut_agent().handle_stun_message(&response, peer()),
        Ok(true)
    );
    request.cancel_retransmissions();
    request.cancel();
    request.configure_timeout(Duration::from_secs(1), 3, Duration::from_secs(2));
    assert_eq!(request.peer_address(), peer());
    assert_eq!(request.integrity(), None);
    assert!(request.agent().request_transaction(id(1)?).is_none());
    Ok(())
}

#[test]
fn a_request_tells_its_peer_when_it_is_gone() {
    run(|rt| {
        let mut agent = udp_agent(rt.alloc());
        ask(&mut agent, 1, at(0))?;
        end_and_change(&rt, request_of(&mut agent, 1)?)?;
        assert_eq!(agent.next_awaited(), None);
        Ok(())
    });
}

#[test]
fn statistics_are_copied() {
    run(|rt| {
        let stats = StunAgentStats::default();
        assert_eq!(stats.try_clone()?, stats);
        Ok(())
    });
}

struct Wrapped([u8; 8]);

impl OwnedBytes for Wrapped {
    fn bytes(&self) -> &[u8] {
        &self.0
    }
}

#[test]
fn a_datagram_keeps_its_addresses() {
    run(|rt| {
        let bytes = [0x10, 0x20];
        let lent = Transmit::new(Data::Borrowed(&bytes), TransportType::Udp, local(), peer());
        let owned = lent.into_owned(rt.alloc())?;
        assert_eq!(owned.data.bytes(), bytes.as_slice());
        assert_eq!(
            (owned.transport, owned.from, owned.to),
            (TransportType::Udp, local(), peer())
        );
        let array = Transmit::new([42; 8], TransportType::Tcp, local(), peer());
        let wrapped = array.reinterpret_data(Wrapped);
        assert_eq!(wrapped.data.bytes(), [42; 8].as_slice());
        assert_eq!(
            (wrapped.transport, wrapped.from, wrapped.to),
            (TransportType::Tcp, local(), peer())
        );
        let Transmit {
            data: Wrapped(_),
            transport: _,
            from: _,
            to: _,
        } = wrapped;
        Ok(())
    });
}

fn expect_owned(rt: &impl Abort, owned: &Transmit<Data<'_, &Heap>>, bytes: &[u8]) {
    assert_eq!(owned.data.bytes(), bytes);
    assert_eq!(owned.to, peer());
}

/// Converts a transmission to owned bytes, and refuses the nth allocation. Returns whether no
/// allocation was refused.
fn owns(rt: &impl Abort, heap: &Heap, nth: u64) -> Result<bool, Fail> {
    let bytes = [7; 4000];
    let lent = Transmit::new(Data::Borrowed(&bytes), TransportType::Udp, local(), peer());
    heap.refuse(nth);
    let answer = lent.into_owned(heap);
    let met_none = heap.met_none();
    assert_eq!(answer.is_ok(), met_none);
    if let Ok(owned) = answer {
        expect_owned(rt, &owned, &bytes);
    }
    Ok(met_none)
}

#[test]
fn a_datagram_is_owned_or_not() {
    run(|rt| {
        let heap = RefusingAllocator::new();
        heap.each_refusal(|nth| owns(&rt, &heap, nth))
    });
}

fn expect_text<T: Display>(
    rt: &impl Abort,
    alloc: Global,
    value: &T,
    text: &str,
) -> Result<(), Fail> {
    assert_eq!(crate::host::format_in!(alloc; "{value}")?.as_str(), text);
    Ok(())
}

#[test]
fn text_of_a_datagram() {
    run(|rt| {
        let from = "127.0.0.1:1000".parse()?;
        let to = "127.0.0.1:2000".parse()?;
        let sent = Transmit::new([0x10, 0x20], TransportType::Udp, from, to);
        let text = "Transmit(UDP: 127.0.0.1:1000 -> 127.0.0.1:2000 of 2 bytes)";
        expect_text(&rt, rt.alloc(), &sent, text)
    });
}

#[test]
fn texts_of_transports() {
    run(|rt| {
        expect_text(&rt, rt.alloc(), &TransportType::Udp, "UDP")?;
        expect_text(&rt, rt.alloc(), &TransportType::Tcp, "TCP")
    });
}

#[test]
fn texts_of_errors() {
    run(|rt| {
        const TEXTS: &[(StunError, &str)] = &[
            (
                StunError::AlreadyInProgress,
                "The operation is already in progress",
            ),
            (
                StunError::ResourceNotFound,
                "A required resource could not be found",
            ),
            (StunError::TimedOut, "An operation timed out"),
            (StunError::ProtocolViolation, "Unexpected data was received"),
            (StunError::Aborted, "Operation was aborted"),
            (StunError::OutOfMemory, "Out of memory"),
            (
                StunError::ParseError(StunParseError::Truncated),
                "the bytes end too early",
            ),
            (
                StunError::WriteError(StunWriteError::TooSmall),
                "the writer has too little room",
            ),
        ];
        for (error, text) in TEXTS {
            expect_text(&rt, rt.alloc(), error, text)?;
        }
        expect_text(&rt, rt.alloc(), &NoRoom, "No room for what is to be sent")
    });
}

/// If an error of an agent contains another error, it has the text of that error.
#[test]
fn texts_of_other_errors_are_kept() {
    run(|rt| {
        let parse = StunParseError::Truncated;
        let write = StunWriteError::TooSmall;
        assert_eq!(StunError::from(parse), StunError::ParseError(parse));
        assert_eq!(StunError::from(write), StunError::WriteError(write));
        expect_text(&rt, rt.alloc(), &parse, "the bytes end too early")?;
        expect_text(&rt, rt.alloc(), &write, "the writer has too little room")
    });
}
