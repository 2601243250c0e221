//! Tests of how many bytes of a heap an agent, a server and a client take, in blocks of 16. The
//! values that they return take none. Each text stays on the heap on which it was allocated.

use crate::exported::stun_agent::agent::{StunAgent, StunAgentPollRet};
use crate::exported::stun_auth::auth::{LongTermClientAuth, LongTermServerAuth};
use crate::exported::stun_base::transport::TransportType;
use crate::exported::stun_judging::feature::Feature;
use crate::exported::stun_types::message::{IntegrityAlgorithm, MessageClass};
use crate::host::Abort;
use crate::host::Fail;
use crate::host::HostRuntime;
use crate::host::LocalHeap;
use crate::kit::alloc::{Allocator, Global};
use crate::kit::prelude::String;
use crate::refusing::RefusingAllocator;
use crate::test_support::client::{RESEND, sha1_client, told};
use crate::test_support::datagrams::{REQUEST, at, id, local, message, peer};
use crate::test_support::parts::{self, PLAIN_NONCE, Part};
use crate::test_support::server::{
    FULL_REQUEST, SHA256, ZEROS, address, asked, knocked, offering_server, user,
};

type Heap = RefusingAllocator;

/// A challenge with a nonce of 16 bytes and a realm of five.
const CHALLENGE: [Part<'static>; 3] = [
    Part::Code(401),
    Part::Nonce(PLAIN_NONCE),
    Part::Realm("realm"),
];

/// A 438 with another nonce.
const STALE: [Part<'static>; 3] = [
    Part::Code(438),
    Part::Nonce("BBBBBBBBBBBBBBBB"),
    Part::Realm("realm"),
];

/// Sends the request of this number.
fn ask<A: Allocator + Copy>(agent: &mut StunAgent<A>, number: u8) -> Result<(), Fail> {
    let _sent = agent.send_request(message(REQUEST, number), peer(), at(0))?;
    Ok(())
}

/// Makes a server with both algorithms validate its user.
fn accept<A: Allocator + Copy>(
    rt: &impl Abort,
    alloc: Global,
    server: &mut LongTermServerAuth<A>,
) -> Result<(), Fail> {
    let request = parts::message(alloc, MessageClass::Request, &FULL_REQUEST)?;
    let answer = asked(server, request.as_slice(), (address(1), 0), ZEROS)?;
    assert_eq!(answer, SHA256);
    Ok(())
}

/// Makes a client accept a challenge.
fn take_up<A: Allocator + Copy>(
    rt: &impl Abort,
    alloc: Global,
    client: &mut LongTermClientAuth<A>,
    challenge: &[Part<'_>],
) -> Result<(), Fail> {
    let challenge = parts::message(alloc, MessageClass::Error, challenge)?;
    assert_eq!(told(client, challenge.as_slice())?, RESEND);
    Ok(())
}

/// A second request takes its 20 bytes, a leaf and a fork.
#[test]
fn a_request_takes_its_bytes_a_leaf_and_a_fork() {
    crate::host::run(|rt: HostRuntime| -> Result<(), Fail> {
        let heap = LocalHeap::new(rt.alloc(), 16384)?;
        let mut agent = StunAgent::builder(&heap, TransportType::Udp, local()).build();
        ask(&mut agent, 1)?;
        let used = heap.used();
        let mut other = message(REQUEST, 1);
        other[8] = 0x80;
        let _sent = agent.send_request(other, peer(), at(0))?;
        let taken = heap.used().saturating_sub(used);
        assert!(taken > 32 && taken <= 416, "{taken} bytes");
        Ok(())
    });
}

/// The IDs 1 and 2 differ only in their last two bits, so each pair of bits before these takes a
/// fork.
#[test]
fn two_requests_of_close_ids_take_a_fork_for_each_two_bits() {
    crate::host::run(|rt: HostRuntime| -> Result<(), Fail> {
        let heap = LocalHeap::new(rt.alloc(), 16384)?;
        let mut agent = StunAgent::builder(&heap, TransportType::Udp, local()).build();
        ask(&mut agent, 1)?;
        ask(&mut agent, 2)?;
        let used = heap.used();
        assert!(used <= 48 * 192 + 512, "{used} bytes");
        ask(&mut agent, 3)?;
        let taken = heap.used().saturating_sub(used);
        assert!(taken <= 224, "{taken} bytes");
        Ok(())
    });
}

/// A request that ends leaves no fork: when two of three requests have ended, the remaining one
/// takes as much as the first one took alone.
#[test]
fn requests_that_end_give_their_forks_back() {
    crate::host::run(|rt: HostRuntime| -> Result<(), Fail> {
        let heap = LocalHeap::new(rt.alloc(), 16384)?;
        let mut agent = StunAgent::builder(&heap, TransportType::Udp, local()).build();
        let empty = heap.used();
        ask(&mut agent, 1)?;
        let one = heap.used();
        ask(&mut agent, 2)?;
        ask(&mut agent, 3)?;
        for (number, left) in [(3, None), (2, Some(one)), (1, Some(empty))] {
            agent
                .mut_request_transaction(id(number)?)
                .ok_or("it is outstanding")?
                .cancel();
            assert_eq!(
                agent.poll(at(0)),
                StunAgentPollRet::TransactionCancelled(id(number)?)
            );
            assert!(left.is_none_or(|left| heap.used() == left));
        }
        Ok(())
    });
}

/// A server stores the name of a client, which has four bytes.
#[test]
fn a_client_of_a_server_takes_its_name() {
    crate::host::run(|rt: HostRuntime| -> Result<(), Fail> {
        let heap = LocalHeap::new(rt.alloc(), 32768)?;
        let mut server = offering_server(rt.alloc(), &heap)?;
        let used = heap.used();
        accept(&rt, rt.alloc(), &mut server)?;
        assert_eq!(heap.used().saturating_sub(used), 16);
        Ok(())
    });
}

/// A client that was removed and returns takes no memory, because its name stays in the record
/// until the record is removed.
#[test]
fn a_client_who_returns_takes_nothing() {
    crate::host::run(|rt: HostRuntime| -> Result<(), Fail> {
        let heap = RefusingAllocator::new();
        let mut server = offering_server(rt.alloc(), &heap)?;
        let live = heap.live();
        accept(&rt, rt.alloc(), &mut server)?;
        assert_eq!(heap.live(), live + 1);
        let allocations = heap.allocations();
        for _ in 0..3 {
            server.remove_client(address(1));
            assert_eq!(server.client(address(1)), None);
            accept(&rt, rt.alloc(), &mut server)?;
            assert!(server.client(address(1)).is_some());
        }
        assert_eq!(heap.allocations(), allocations);
        server.forget(address(1));
        assert!(heap.live() < live);
        Ok(())
    });
}

/// A challenge that a client stores takes the memory of the name, the realm and the nonce.
#[test]
fn a_challenge_takes_its_texts() {
    crate::host::run(|rt: HostRuntime| -> Result<(), Fail> {
        let heap = LocalHeap::new(rt.alloc(), 4096)?;
        let mut client = sha1_client(&heap, Feature::Auto)?;
        let used = heap.used();
        take_up(&rt, rt.alloc(), &mut client, &CHALLENGE)?;
        assert_eq!(heap.used().saturating_sub(used), 48);
        Ok(())
    });
}

/// Checks what an agent returns about a request and about an address.
fn expect_told_by_agent(rt: &impl Abort, agent: &StunAgent<&Heap>) -> Result<(), Fail> {
    assert_eq!(agent.next_awaited(), Some(at(500)));
    assert!(agent.request_transaction(id(1)?).is_some());
    assert!(!agent.is_validated_peer(peer()));
    assert!(agent.stats().is_none());
    Ok(())
}

#[test]
fn what_an_agent_tells_takes_none() {
    crate::host::run(|rt: HostRuntime| -> Result<(), Fail> {
        let heap = RefusingAllocator::new();
        let mut agent = StunAgent::builder(&heap, TransportType::Udp, local()).build();
        ask(&mut agent, 1)?;
        let before = heap.allocations();
        expect_told_by_agent(&rt, &agent)?;
        assert_eq!(heap.allocations(), before);
        Ok(())
    });
}

/// Checks what a server returns about itself and about an address.
fn expect_told_by_server(rt: &impl Abort, server: &LongTermServerAuth<&Heap>) {
    assert_eq!(server.realm(), "realm");
    assert_eq!(server.supported_integrity().len(), 2);
    assert_eq!(server.anonymous_username(), Feature::Auto);
    assert!(server.nonce_for_client(address(1)).is_some());
    let client = Some(("user", IntegrityAlgorithm::Sha256));
    assert_eq!(server.client(address(1)), client);
    assert_eq!(server.message_signature_bytes(address(1), true), 44);
}

#[test]
fn what_a_server_tells_takes_none() {
    crate::host::run(|rt: HostRuntime| -> Result<(), Fail> {
        let heap = RefusingAllocator::new();
        let mut server = offering_server(rt.alloc(), &heap)?;
        accept(&rt, rt.alloc(), &mut server)?;
        let before = heap.allocations();
        expect_told_by_server(&rt, &server);
        assert_eq!(heap.allocations(), before);
        Ok(())
    });
}

/// Checks what a client returns about itself.
fn expect_told_by_client(rt: &impl Abort, client: &LongTermClientAuth<&Heap>) {
    assert!(client.credentials().is_some());
    assert_eq!(client.supported_integrity().len(), 1);
    assert_eq!(client.anonymous_username(), Feature::Auto);
    // NONCE 20, REALM 12, USERNAME 8, MESSAGE-INTEGRITY 24.
    assert_eq!(client.message_signature_bytes(), 64);
}

#[test]
fn what_a_client_tells_takes_none() {
    crate::host::run(|rt: HostRuntime| -> Result<(), Fail> {
        let heap = RefusingAllocator::new();
        let mut client = sha1_client(&heap, Feature::Auto)?;
        take_up(&rt, rt.alloc(), &mut client, &CHALLENGE)?;
        let before = heap.allocations();
        expect_told_by_client(&rt, &client);
        assert_eq!(heap.allocations(), before);
        Ok(())
    });
}

/// Checks that a client stores a challenge on its own heap, and its user on another. The memory
/// that a 438 replaces is freed.
fn expect_client_at<'a>(
    rt: &impl Abort,
    alloc: Global,
    heap: &'a Heap,
    users: &'a Heap,
) -> Result<(), Fail> {
    let mut client = LongTermClientAuth::new(heap);
    client.set_credentials(user(users, "pass")?);
    take_up(rt, alloc, &mut client, &CHALLENGE)?;
    assert_eq!((heap.live(), users.allocations()), (3, 2));
    take_up(rt, alloc, &mut client, &STALE)?;
    assert_eq!(heap.live(), 3);
    Ok(())
}

#[test]
fn a_client_keeps_a_challenge_at_its_heap() {
    crate::host::run(|rt: HostRuntime| -> Result<(), Fail> {
        let heap = RefusingAllocator::new();
        let users = RefusingAllocator::new();
        expect_client_at(&rt, rt.alloc(), &heap, &users)
    });
}

/// Checks that a server stores its records on its own heap, and its realm on another. Its user is
/// on a third heap, with the copy of the name and the keys.
fn expect_server_at<'a>(
    rt: &impl Abort,
    alloc: Global,
    heap: &'a Heap,
    (realms, users): (&'a Heap, &'a Heap),
) -> Result<(), Fail> {
    let mut server = LongTermServerAuth::new(heap, String::from_str(realms, "realm")?);
    server.add_user(user(users, "pass")?)?;
    let before = heap.live();
    let _refused = knocked(alloc, &mut server, address(1), ZEROS)?;
    assert!(heap.live() > before);
    assert_eq!((realms.allocations(), users.allocations()), (1, 4));
    Ok(())
}

#[test]
fn a_server_keeps_places_at_its_heap() {
    crate::host::run(|rt: HostRuntime| -> Result<(), Fail> {
        let heap = RefusingAllocator::new();
        let realms = RefusingAllocator::new();
        let users = RefusingAllocator::new();
        expect_server_at(&rt, rt.alloc(), &heap, (&realms, &users))
    });
}
