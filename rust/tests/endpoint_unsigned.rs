//! What a client with credentials sees at a server that does not sign its responses, and what the
//! clock can do to a client.

mod pair;

use pair::*;
use seatcrane_stun::endpoint::*;
use seatcrane_stun::types::attribute::ErrorCode;
use seatcrane_stun::types::message::*;
use seatcrane_stun::types::prelude::*;
use std::time::Duration;

/// Answers a message with an error that is not signed.
fn refuse(message: &[u8], code: u16) -> Vec<u8> {
    let request = Message::from_bytes(message).unwrap();
    let mut page = Message::builder_error(&request, MessageWriteVec::new());
    page.add_attribute(&ErrorCode::new(code, "").unwrap()).unwrap();
    page.finish()
}

/// Polls until the client has nothing to do before the next timer, and returns the messages.
fn sent(client: &mut Client, now: u64) -> Vec<Vec<u8>> {
    let mut sent = Vec::new();
    while let Output::Transmit { bytes, .. } = client.poll(ms(now)) {
        sent.push(bytes.to_vec());
    }
    sent
}

#[test]
fn an_open_binding_is_no_answer_to_a_client_with_credentials() {
    let long_term = LongTerm::new("example.org", [1; 32]).open_binding(true);
    let server = Server::builder(long_term).answer_binding(true).build().unwrap();
    let users = server.users();
    for unsigned in [false, true] {
        let mut client = client(1, "wonderland", &BOTH);
        let mut options = RequestOptions::new();
        if unsigned {
            options = options.unsigned();
        }
        client.request_with(BINDING, Body::new(), &options, ms(0)).unwrap();
        let (mut now, mut sent) = (ms(0), 0);
        let end = loop {
            let bytes = match client.poll(now) {
                Output::Transmit { bytes, .. } => bytes.to_vec(),
                Output::Wait(until) => {
                    now = until.unwrap();
                    continue;
                }
                Output::Ended(_, end) => break end,
                other => panic!("{other:?}"),
            };
            sent += 1;
            let Received::Answer(answer) = server.receive(&bytes, at(SERVER), wall(now), &users)
            else {
                panic!("no answer")
            };
            let input = client.receive(answer.bytes(), at(SERVER), now);
            let is_dropped = matches!(input, Input::Dropped(DropReason::NotVerified));
            assert_eq!(is_dropped, !unsigned);
        };
        if unsigned {
            assert_eq!((end.unwrap().signed_by(), sent, now), (None, 1, ms(0)));
        } else {
            let Err(RequestError::TimedOut(drops)) = end else { panic!("{end:?}") };
            assert_eq!((sent, now), (7, ms(39_500)));
            assert_eq!((drops.count(), drops.last()), (7, Some(DropReason::NotVerified)));
        }
    }
}

/// coturn signs none of these. The client goes on, because anybody can send them, but the program
/// finds the code as soon as the first of them is dropped. A 437 or 441 may make the client send
/// another message of the request first.
#[test]
fn the_code_of_an_unsigned_error_is_known_at_once() {
    for code in [300, 400, 437, 441, 486, 508] {
        let service = Service::new(1, &BOTH);
        let mut client = client(2, "wonderland", &BOTH);
        let request = client.request(Method::ALLOCATE, Body::new(), ms(0)).unwrap();
        let first = sent(&mut client, 0);
        let challenge = service.answer(&first[0], at(SERVER), ms(0));
        assert!(matches!(client.receive(challenge.bytes(), at(SERVER), ms(0)), Input::Consumed));

        let (mut now, mut known) = (ms(0), None);
        let end = loop {
            match client.poll(now) {
                Output::Transmit { bytes, .. } => {
                    let answer = refuse(bytes, code);
                    if let Input::Dropped(why) = client.receive(&answer, at(SERVER), now) {
                        let drops = client.dropped(request).unwrap();
                        assert_eq!((why, drops.code()), (DropReason::NotVerified, Some(code)));
                        known.get_or_insert(now);
                    }
                }
                Output::Wait(until) => now = until.unwrap(),
                Output::Ended(_, end) => break end,
                other => panic!("{other:?}"),
            }
        };
        assert_eq!(known, Some(ms(0)));
        let Err(RequestError::TimedOut(drops)) = end else { panic!("{end:?}") };
        assert_eq!((drops.last(), drops.code()), (Some(DropReason::NotVerified), Some(code)));
        assert!((ms(39_500)..=ms(79_000)).contains(&now), "{code}: {now:?}");
    }
}

/// A clock that stands still or goes back measures no round trip.
#[test]
fn no_round_trip_is_known_if_the_clock_went_back() {
    for (arrives, trip) in [(1999, None), (2000, None), (2001, Some(1))] {
        let service = Service::new(1, &BOTH);
        let mut client = client(3, "wonderland", &BOTH);
        binding(&mut client, ms(0));
        let _ = exchange(&mut client, &service, at(SERVER), ms(0));
        binding(&mut client, ms(2000));
        let message = sent(&mut client, 2000);
        let answer = service.answer(&message[0], at(SERVER), ms(2000));
        let input = client.receive(answer.bytes(), at(SERVER), ms(arrives));
        assert!(matches!(input, Input::Consumed));
        let Output::Ended(_, Ok(response)) = client.poll(ms(2001)) else { panic!() };
        assert_eq!(response.round_trip(), trip.map(Duration::from_millis));
    }
}

/// No plan makes a client send again and again without a wait in between.
#[test]
fn each_plan_waits_after_each_transmission() {
    for [first, most, last] in [[0, 0, 0], [0, 9, 0], [9, 0, 0], [0, 0, 9], [1, 1, 1]] {
        let [first, most, last] = [first, most, last].map(Duration::from_nanos);
        let plan = Retransmission::new(first, most, u32::MAX, last);
        let mut client = Client::builder(at(SERVER)).retransmission(plan).build([7; 32]).unwrap();
        binding(&mut client, ms(0));
        for now in 0..100 {
            assert_eq!(sent(&mut client, now).len(), 1, "at {now} ms");
            assert_eq!(client.poll(ms(now)), Output::Wait(Some(ms(now + 1))));
        }
        let once = Retransmission::new(first, most, 0, last);
        let options = RequestOptions::new().retransmission(once);
        client.request_with(BINDING, Body::new(), &options, ms(100)).unwrap();
        assert_eq!(sent(&mut client, 100).len(), 2);
        assert!(matches!(client.poll(ms(100)), Output::Wait(Some(until)) if until == ms(101)));
    }
}
