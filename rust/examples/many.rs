//! Many requests at the same time through one socket and one `endpoint::Client`.
//!
//!     many HOST PORT CALLERS REQUESTS [NAME PASSWORD]
//!
//! Each of the CALLERS is a thread that makes REQUESTS Binding requests, one after another. They
//! share a `Front`, whose `ask` returns the response. One thread owns the client, and waits for
//! three things: a caller, a datagram and a time. The standard library cannot wait for a socket and
//! a channel together, so another thread reads the socket and passes on the datagrams.
//!
//! On tokio one task does both: `tokio_client` of examples/rust.

#[path = "parts/words.rs"]
mod words;

use seatcrane_stun::endpoint::{Body, Client, Clock, Credentials, Output, random_seed};
use seatcrane_stun::endpoint::{RequestError, Response};
use seatcrane_stun::types::message::{BINDING, Method};
use std::collections::HashMap;
use std::error::Error;
use std::net::{SocketAddr, ToSocketAddrs, UdpSocket};
use std::process::ExitCode;
use std::sync::mpsc::{Receiver, RecvTimeoutError, Sender, channel};
use std::thread;
use std::time::{Duration, Instant};
use words::Words;

const USAGE: &str = "many HOST PORT CALLERS REQUESTS [NAME PASSWORD]";

type Answer = Result<Response, Box<dyn Error + Send + Sync>>;

/// The events for which the owner of the client waits.
enum Event {
    Request(Method, Body, Sender<Answer>),
    Datagram(Vec<u8>),
}

/// The callers' side of a client. Any number of threads can share it, each with a clone.
#[derive(Clone)]
struct Front(Sender<Event>);

impl Front {
    /// Starts the two threads of a client. They end with the program.
    fn start(server: SocketAddr, client: Client) -> Result<Front, Box<dyn Error>> {
        let any = ["0.0.0.0:0", "[::]:0"][usize::from(server.is_ipv6())];
        let socket = UdpSocket::bind(any)?;
        socket.connect(server)?;
        let (front, events) = channel();
        let (reader, datagrams) = (socket.try_clone()?, front.clone());
        thread::spawn(move || read(&reader, &datagrams));
        thread::spawn(move || drive(&socket, server, client, &events));
        Ok(Front(front))
    }

    /// Sends a request, and returns how it ended.
    fn ask(&self, method: Method, body: Body) -> Answer {
        let (caller, answer) = channel();
        let sent = self.0.send(Event::Request(method, body, caller));
        sent.map_err(|_| RequestError::Cancelled)?;
        answer.recv().unwrap_or(Err(RequestError::Cancelled.into()))
    }
}

/// Passes on the datagrams of a socket.
fn read(socket: &UdpSocket, events: &Sender<Event>) {
    let mut bytes = [0; 4096];
    loop {
        match socket.recv(&mut bytes) {
            Ok(length)
                if events
                    .send(Event::Datagram(bytes[..length].to_vec()))
                    .is_err() =>
            {
                return;
            }
            Ok(_) => {}
            Err(_) => thread::sleep(Duration::from_millis(10)), // such as for a closed port
        }
    }
}

/// Owns the client: passes on requests, datagrams, and how the requests ended.
fn drive(socket: &UdpSocket, server: SocketAddr, mut client: Client, events: &Receiver<Event>) {
    let (clock, mut callers) = (Clock::start(), HashMap::new());
    loop {
        let until = loop {
            match client.poll(clock.now()) {
                // lost datagrams are retransmitted
                Output::Transmit { bytes, .. } => drop(socket.send(bytes)),
                Output::Ended(request, answer) => {
                    let caller: Option<Sender<Answer>> = callers.remove(&request);
                    caller.map(|caller| caller.send(answer.map_err(Into::into)));
                }
                Output::Wait(until) => break until,
                _ => {}
            }
        };
        let event = match clock.timeout(until) {
            Some(wait) => events.recv_timeout(wait),
            None => events.recv().map_err(RecvTimeoutError::from),
        };
        match event {
            Ok(Event::Datagram(bytes)) => drop(client.receive(&bytes, server, clock.now())),
            Ok(Event::Request(method, body, caller)) => {
                match client.request(method, body, clock.now()) {
                    Ok(request) => drop(callers.insert(request, caller)),
                    Err(error) => drop(caller.send(Err(error.into()))),
                }
            }
            Err(RecvTimeoutError::Timeout) => {}
            Err(RecvTimeoutError::Disconnected) => return,
        }
    }
}

/// Lets each of the callers make its requests, and returns how many were answered.
fn ask_all(front: &Front, callers: usize, requests: usize) -> usize {
    let ask = || front.ask(BINDING, Body::new());
    let answered = |result: &Answer| match result {
        Ok(response) => response.message().xor_mapped_address().is_ok(),
        Err(error) => {
            eprintln!("{error}");
            false
        }
    };
    thread::scope(|scope| {
        let one = || (0..requests).map(|_| ask()).filter(answered).count();
        let running: Vec<_> = (0..callers).map(|_| scope.spawn(one)).collect();
        running.into_iter().map(|one| one.join().unwrap_or(0)).sum()
    })
}

fn run(words: Vec<String>) -> Result<bool, Box<dyn Error>> {
    let host = (words[0].as_str(), words[1].parse()?);
    let server = host.to_socket_addrs()?.next().ok_or("no such host")?;
    let (callers, requests): (usize, usize) = (words[2].parse()?, words[3].parse()?);
    let mut settings = Client::builder(server);
    if let [name, password] = &words[4..] {
        settings = settings.credentials(Credentials::long_term(name, password));
    }
    let front = Front::start(server, settings.build(random_seed())?)?;
    let begun = Instant::now();
    let (answered, all) = (ask_all(&front, callers, requests), callers * requests);
    println!(
        "answered {answered} of {all} in {:.3} s",
        begun.elapsed().as_secs_f64()
    );
    Ok(answered == all)
}

fn main() -> ExitCode {
    let settings = |words: Words| {
        let words: Vec<String> = words.collect();
        matches!(words.len(), 4 | 6).then_some(words)
    };
    words::run(USAGE, "", settings, run)
}
