//! Times the calls of an `endpoint::Client` that has many requests outstanding at the same time:
//!
//! ```text
//! client_many 10000 100000
//! ```
//!
//! For each number, a client starts that many Binding requests without credentials, sends them,
//! retransmits them half a second later, reads all the responses, and reports how each request
//! ended. Further clients do the same until a million requests have ended. A row has the mean time
//! of a call of each kind, in nanoseconds, and the time of all calls of one client, in
//! milliseconds. On Linux this is CPU time, so other work of the machine has little effect;
//! elsewhere it is wall-clock time.

use seatcrane_stun::Instant;
use seatcrane_stun::endpoint::{Body, Client, Input, Output};
use seatcrane_stun::types::message::{BINDING, Message, MessageWriteVec};
use seatcrane_stun::types::prelude::*;
use std::net::SocketAddr;
use std::sync::OnceLock;
use std::time::Duration;

/// The least number of requests for a row, because Linux counts CPU time in steps of milliseconds.
const REQUESTS: usize = 1_000_000;

/// Calls `poll` until it returns a wait, and returns how many calls returned something else.
fn polled(client: &mut Client, now: Instant, mut sent: impl FnMut(&[u8])) -> usize {
    let mut count = 0;
    loop {
        match client.poll(now) {
            Output::Transmit { bytes, .. } => sent(bytes),
            Output::Ended(_, result) => drop(result.unwrap()),
            _ => return count,
        }
        count += 1;
    }
}

/// Returns the CPU time of this thread, as Linux counts it. On a system that does not report it,
/// returns the time since the first call.
fn spent() -> Duration {
    static BEGUN: OnceLock<std::time::Instant> = OnceLock::new();
    let begun = BEGUN.get_or_init(std::time::Instant::now);
    let told = std::fs::read_to_string("/proc/thread-self/schedstat").unwrap_or_default();
    match told.split(' ').next().map(str::parse) {
        Some(Ok(nanos)) => Duration::from_nanos(nanos),
        _ => begun.elapsed(),
    }
}

/// Returns the times of the five kinds of calls, for this many requests.
fn times(many: usize) -> [Duration; 5] {
    let server = SocketAddr::from(([192, 0, 2, 1], 3478));
    let mut client = Client::builder(server).build([7; 32]).unwrap();
    let (now, later) = (Instant::ZERO, Instant::ZERO + Duration::from_millis(500));
    let mut responses = Vec::with_capacity(many);
    let mut times = [Duration::ZERO; 5];
    let mut timed = |kind: usize, call: &mut dyn FnMut()| {
        let start = spent();
        call();
        times[kind] = spent() - start;
    };
    timed(0, &mut || {
        for _ in 0..many {
            client.request(BINDING, Body::new(), now).unwrap();
        }
    });
    timed(1, &mut || {
        let count = polled(&mut client, now, |bytes| {
            let request = Message::from_bytes(bytes).unwrap();
            let mut page = Message::builder_success(&request, MessageWriteVec::new());
            page.add_xor_mapped_address(server).unwrap();
            responses.push(page.finish());
        });
        assert_eq!(count, many);
    });
    timed(2, &mut || {
        assert_eq!(polled(&mut client, later, |_| {}), many)
    });
    timed(3, &mut || {
        for response in &responses {
            let input = client.receive(response, server, later);
            assert!(matches!(input, Input::Consumed));
        }
    });
    timed(4, &mut || {
        assert_eq!(polled(&mut client, later, |_| {}), many)
    });
    times
}

fn main() {
    println!("| requests | request | sent | sent again | receive | ended | all, in ms |");
    println!("|---|---|---|---|---|---|---|");
    for word in std::env::args().skip(1) {
        let many = word.parse::<usize>().expect("a number").max(1);
        let rounds = REQUESTS.div_ceil(many);
        let mut sums = [Duration::ZERO; 5];
        for _ in 0..rounds {
            for (sum, time) in sums.iter_mut().zip(times(many)) {
                *sum += time;
            }
        }
        let each = sums.map(|sum| (sum.as_nanos() / (many * rounds) as u128).to_string());
        let all = sums.iter().sum::<Duration>().as_millis() / rounds as u128;
        println!("| {many} | {} | {all} |", each.join(" | "));
    }
}
