//! Counts what an outstanding request of an `endpoint::Client` takes: live bytes as an allocator
//! counts them, and allocations, for bench/client.py.
//!
//! ```text
//! memory binding|allocate|signed|challenged NUMBER
//! ```
//!
//! It starts that many requests, and their bytes are returned once: Binding requests without
//! attributes; Allocate requests with two of them; Binding requests that are signed with
//! HMAC-SHA256 for one challenge; or such requests that were sent unsigned first, and then
//! challenged.

use seatcrane_stun::Instant;
use seatcrane_stun::endpoint::{
    Body, Client, Credentials, LongTerm, Output, Received, Server, UnixTime, Users,
};
use seatcrane_stun::extra::attribute::{Lifetime, RequestedTransport};
use seatcrane_stun::extra::turn::TurnMethod;
use seatcrane_stun::types::message::{BINDING, Method};
use std::alloc::{GlobalAlloc, Layout, System};
use std::net::SocketAddr;
use std::sync::atomic::{AtomicUsize, Ordering::Relaxed};

static LIVE: AtomicUsize = AtomicUsize::new(0);
static CALLS: AtomicUsize = AtomicUsize::new(0);

/// The system's allocator, which counts.
struct Counting;

// SAFETY: each call is passed on as it is.
unsafe impl GlobalAlloc for Counting {
    unsafe fn alloc(&self, layout: Layout) -> *mut u8 {
        LIVE.fetch_add(layout.size(), Relaxed);
        CALLS.fetch_add(1, Relaxed);
        // SAFETY: as the caller promises.
        unsafe { System.alloc(layout) }
    }

    unsafe fn dealloc(&self, at: *mut u8, layout: Layout) {
        LIVE.fetch_sub(layout.size(), Relaxed);
        // SAFETY: as the caller promises.
        unsafe { System.dealloc(at, layout) }
    }
}

#[global_allocator]
static COUNTING: Counting = Counting;

fn server_address() -> SocketAddr {
    ([192, 0, 2, 1], 3478).into()
}

/// A server that nobody has passed a right password to, and one user.
fn service() -> (Server, Users) {
    let settings = LongTerm::new("example.org", [9; 32]);
    let server = Server::builder(settings).build().expect("a server");
    let users = server.users();
    (server, users)
}

/// The server's challenge to a message.
fn challenge((server, users): &(Server, Users), bytes: &[u8]) -> Vec<u8> {
    let from = ([192, 0, 2, 2], 4000).into();
    match server.receive(bytes, from, UnixTime::from_secs(7200), users) {
        Received::Answer(answer) => answer.into_bytes(),
        other => panic!("{other:?}"),
    }
}

fn start(client: &mut Client, kind: &str) {
    let (method, body) = match kind {
        "allocate" => {
            let udp = RequestedTransport::new(RequestedTransport::UDP);
            let body = Body::new().add(&udp).expect("room");
            (
                TurnMethod::Allocate.method(),
                body.add(&Lifetime::new(600)).expect("room"),
            )
        }
        _ => (BINDING as Method, Body::new()),
    };
    client
        .request(method, body, Instant::ZERO)
        .expect("a request");
}

/// Answers what the client sends by challenges, or not, until it waits. Returns how long the last
/// message was.
fn send(client: &mut Client, service: Option<&(Server, Users)>) -> usize {
    let mut length = 0;
    while let Output::Transmit { bytes, .. } = client.poll(Instant::ZERO) {
        length = bytes.len();
        // A message of 20 bytes is not signed.
        if let Some(service) = service.filter(|_| length == 20) {
            let challenge = challenge(service, bytes);
            let _ = client.receive(&challenge, server_address(), Instant::ZERO);
        }
    }
    length
}

fn main() {
    let words: Vec<String> = std::env::args().skip(1).collect();
    let [kind, number] = &words[..] else {
        panic!("usage: memory KIND NUMBER")
    };
    let number: usize = number.parse().expect("a number");
    let service = service();
    let alice = Credentials::long_term("alice", "wonderland");
    let has_user = kind == "signed" || kind == "challenged";
    let credentials = if has_user { alice } else { Credentials::none() };
    let mut client = Client::builder(server_address())
        .credentials(credentials)
        .build([7; 32])
        .expect("a client");
    if kind == "signed" {
        start(&mut client, kind);
        send(&mut client, Some(&service));
    }
    let (live, calls) = (LIVE.load(Relaxed), CALLS.load(Relaxed));
    for _ in 0..number {
        start(&mut client, kind);
    }
    let length = send(&mut client, (kind == "challenged").then_some(&service));
    let (live, calls) = (LIVE.load(Relaxed) - live, CALLS.load(Relaxed) - calls);
    println!(
        "{} {:.2} {length}",
        live / number,
        calls as f64 / number as f64
    );
}
