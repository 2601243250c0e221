//! An attacker reads all datagrams and forges challenges, and nobody is downgraded.
//!
//! `ATTACKS` is the number of attacks, 500 unless set:
//!
//! ```text
//! ATTACKS=100000 cargo test --release --test endpoint_forger -- --nocapture
//! ```

mod pair;

use pair::*;
use seatcrane_stun::Instant;
use seatcrane_stun::endpoint::*;
use seatcrane_stun::types::attribute::*;
use seatcrane_stun::types::message::*;
use seatcrane_stun::types::prelude::*;

/// Returns a challenge that is made up of parts of the datagrams seen so far.
fn forged(request: &[u8], rng: &mut Rng, seen: &[String]) -> Vec<u8> {
    let request = Message::from_bytes(request).unwrap();
    let mut page = Message::builder_error(&request, MessageWriteVec::new());
    page.add_error_code([401, 438][rng.below(2) as usize], "")
        .unwrap();
    let realm = ["example.org", "example.org", "example.org", "evil"][rng.below(4) as usize];
    page.add_attribute(&Realm::new(realm).unwrap()).unwrap();
    // Cookies with all combinations of bits (RFC 8489, section 9.2), and a nonce without a cookie.
    let made = [
        "x",
        "obMatJos2QAAAx",
        "obMatJos2gAAAx",
        "obMatJos2AAAAx",
        "obMatJos2wAAAx",
    ];
    let nonce = match rng.below(2) {
        0 if !seen.is_empty() => seen[rng.below(seen.len() as u64) as usize].as_str(),
        _ => made[rng.below(5) as usize],
    };
    page.add_attribute(&Nonce::new(nonce).unwrap()).unwrap();
    let list: &[u8] = match rng.below(4) {
        0 => &[0, 1, 0, 0],
        1 => &[0, 2, 0, 0],
        2 => &[0, 1, 0, 0, 0, 2, 0, 0],
        _ => &[],
    };
    if !list.is_empty() {
        page.add_attribute(&RawAttribute::new(AttributeType::PASSWORD_ALGORITHMS, list))
            .unwrap();
    }
    page.finish()
}

/// Returns the message without PASSWORD-ALGORITHMS.
fn stripped(bytes: &[u8]) -> Vec<u8> {
    let message = Message::from_bytes(bytes).unwrap();
    let (kind, id) = (message.get_type(), message.transaction_id());
    let mut page = Message::builder(kind, id, MessageWriteVec::new());
    for (_, raw) in message.iter_attributes() {
        if raw.get_type() != AttributeType::PASSWORD_ALGORITHMS {
            let _ = page.add_attribute(&raw);
        }
    }
    page.finish()
}

/// Returns the bytes that `poll` returns to send.
fn sent(client: &mut Client, now: Instant) -> Vec<u8> {
    match client.poll(now) {
        Output::Transmit { bytes, .. } => bytes.to_vec(),
        other => panic!("{other:?}"),
    }
}

/// Lets time pass until all requests of a client have timed out, and returns the time at which they
/// have.
fn run_out(client: &mut Client, mut now: Instant) -> Instant {
    loop {
        match client.poll(now) {
            Output::Wait(None) => return now,
            Output::Wait(Some(until)) => now = until,
            _ => {}
        }
    }
}

/// Whatever challenges a client gets, each of its unaltered requests that a server accepts is
/// signed with the strongest algorithm that both support.
#[test]
fn nobody_is_bid_down() {
    let attacks = times("ATTACKS", 500);
    let (mut requests, mut accepted, mut weaker, mut succeeded) = (0u64, 0u64, 0u64, 0u64);
    for seed in 0..attacks {
        let mut rng = Rng(seed);
        let offered: [&[IntegrityAlgorithm]; 3] = [&BOTH, &[SHA256], &[SHA1]];
        let supported: [&[IntegrityAlgorithm]; 3] = [&BOTH, &[SHA1], &[SHA256]];
        let (offered, supported) = (
            offered[rng.below(3) as usize],
            supported[rng.below(3) as usize],
        );
        let best = [SHA256, SHA1]
            .into_iter()
            .find(|one| offered.contains(one) && supported.contains(one));
        let service = Service::new(seed, offered);
        let mut client = client(seed, "wonderland", supported);
        let (from, mut seen, mut now) = (at("10.0.0.1:1000"), Vec::new(), ms(0));
        for _ in 0..1 + rng.below(3) {
            for _ in 0..1 + rng.below(3) {
                binding(&mut client, now);
            }
            loop {
                let bytes = match client.poll(now) {
                    Output::Transmit { bytes, .. } => bytes.to_vec(),
                    Output::Ended(_, result) => {
                        if let Ok(response) = result {
                            succeeded += 1;
                            assert_eq!(response.signed_by(), best, "seed {seed}");
                        }
                        continue;
                    }
                    _ => break,
                };
                requests += 1;
                if rng.below(3) == 0 {
                    let forged = forged(&bytes, &mut rng, &seen);
                    let _ = client.receive(&forged, at(SERVER), now);
                }
                let request = Message::from_bytes(&bytes).unwrap();
                let answer = service.answer(&bytes, from, now);
                if code_of(&answer) == 200 {
                    accepted += 1;
                    let kind = AttributeType::MESSAGE_INTEGRITY_SHA256;
                    let by = if request.has_attribute(kind) {
                        SHA256
                    } else {
                        SHA1
                    };
                    weaker += u64::from(Some(by) != best);
                }
                let told = Message::from_bytes(answer.bytes()).unwrap();
                if let Ok(nonce) = told.attribute::<Nonce>() {
                    seen.push(nonce.nonce().to_string());
                }
                match rng.below(4) {
                    0 => {} // lost
                    1 => drop(client.receive(&stripped(answer.bytes()), at(SERVER), now)),
                    _ => drop(client.receive(answer.bytes(), at(SERVER), now)),
                }
            }
            now = run_out(&mut client, now);
        }
    }
    println!(
        "{attacks} attacks: {requests} requests, {accepted} accepted by the server, \
         {weaker} by less than the strongest; {succeeded} successes at the client"
    );
    assert_eq!(weaker, 0);
    assert!(accepted > attacks);
}

/// Once the attacker stops, the client is served again: at most two requests time out.
#[test]
fn nobody_is_locked_out_by_what_was_forged() {
    let attacks = times("ATTACKS", 500).min(20_000);
    let mut slowest = 0;
    for seed in 0..attacks {
        let mut rng = Rng(seed);
        let service = Service::new(seed, &BOTH);
        let mut client = client(seed, "wonderland", &BOTH);
        let (from, mut seen, mut now) = (at("10.0.0.1:1000"), Vec::new(), ms(0));
        for _ in 0..rng.below(4) {
            binding(&mut client, now);
            while let Output::Transmit { bytes, .. } = client.poll(now) {
                let bytes = bytes.to_vec();
                let answer = service.answer(&bytes, from, now);
                let told = Message::from_bytes(answer.bytes()).unwrap();
                if let Ok(nonce) = told.attribute::<Nonce>() {
                    seen.push(nonce.nonce().to_string());
                }
                let forged = forged(&bytes, &mut rng, &seen);
                match rng.below(3) {
                    0 => drop(client.receive(answer.bytes(), at(SERVER), now)),
                    _ => drop(client.receive(&forged, at(SERVER), now)),
                }
            }
            now = run_out(&mut client, now);
        }
        let mut failed = 0;
        loop {
            binding(&mut client, now);
            let (_, ended) = exchange(&mut client, &service, from, now);
            if let [(_, Ok(response))] = &ended[..] {
                assert_eq!(response.signed_by(), Some(SHA256));
                break;
            }
            failed += 1;
            assert!(failed <= 2, "seed {seed}: {ended:?}");
            now = run_out(&mut client, now);
        }
        slowest = slowest.max(failed);
    }
    println!("{attacks} attacks: at most {slowest} requests failed after them");
}

/// A forged challenge with the server's realm and nonce but only a part of its list is not the
/// server's challenge: a success under the server's challenge does not confirm the forged one.
#[test]
fn a_forged_list_is_not_confirmed_by_a_success_under_the_true_one() {
    let service = Service::new(1, &BOTH);
    let mut client = client(1, "wonderland", &BOTH);
    let (from, now) = (at("10.0.0.1:1000"), ms(0));
    let first = binding(&mut client, now);
    let first_bytes = sent(&mut client, now);
    let second = binding(&mut client, now);
    let second_bytes = sent(&mut client, now);

    // The attacker reads the server's answer to the first request, and sends another answer in its
    // place.
    let answer = service.answer(&first_bytes, from, now);
    let true_answer = Message::from_bytes(answer.bytes()).unwrap();
    let request = Message::from_bytes(&first_bytes).unwrap();
    let mut page = Message::builder_error(&request, MessageWriteVec::new());
    page.add_error_code(401, "").unwrap();
    page.add_attribute(&true_answer.attribute::<Realm>().unwrap())
        .unwrap();
    page.add_attribute(&true_answer.attribute::<Nonce>().unwrap())
        .unwrap();
    let list = [0, 2, 0, 0];
    page.add_attribute(&RawAttribute::new(AttributeType::PASSWORD_ALGORITHMS, &list))
        .unwrap();
    let _ = client.receive(&page.finish(), at(SERVER), now);
    let _lost = sent(&mut client, now);

    // The second request gets the true challenge, and succeeds.
    let answer = service.answer(&second_bytes, from, now);
    let _ = client.receive(answer.bytes(), at(SERVER), now);
    let (codes, ended) = exchange(&mut client, &service, from, now);
    assert_eq!((codes, ended.len(), ended[0].0), (vec![200], 1, second));

    // The next request is signed for the true challenge, before and after the first one times out.
    let ask = |client: &mut Client, now| {
        binding(client, now);
        let (codes, ended) = exchange(client, &service, from, now);
        assert_eq!((codes, signed_by(&ended)), (vec![200], Some(SHA256)));
    };
    ask(&mut client, now);
    assert!(client.dropped(first).is_some(), "the first one is outstanding");
    let now = run_out(&mut client, now);
    assert!(client.dropped(first).is_none());
    ask(&mut client, now);
}
