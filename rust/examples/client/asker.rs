//! The code that the clients share: the arguments of a command line and, for `udp_client.rs` and
//! `turn_client.rs`, a client on a UDP socket that waits for the response to each request.
//! `many.rs` has many requests outstanding instead.
#![allow(dead_code, reason = "each program uses some of it")]

use seatcrane_stun::Instant;
use seatcrane_stun::endpoint::{Body, Client, ClientBuilder, Clock, Input, Output, Response};
use seatcrane_stun::endpoint::{RequestError, RequestId, RequestOptions, random_seed};
use seatcrane_stun::types::attribute::AttributeType;
use seatcrane_stun::types::message::Method;
use std::error::Error;
use std::io::ErrorKind;
use std::net::{SocketAddr, ToSocketAddrs, UdpSocket};
use std::process::ExitCode;
use std::time::Duration;

/// Attributes in the responses of older servers: SOURCE-ADDRESS and CHANGED-ADDRESS (RFC 3489), and
/// BANDWIDTH (a draft of TURN). RFC 8489 reserves their types, and a client may ignore them.
const OLDER: [AttributeType; 3] = [
    AttributeType(0x0004),
    AttributeType(0x0005),
    AttributeType(0x0010),
];

/// The arguments of a command line. Arguments after `--` are not options.
pub struct Arguments {
    pub left: Vec<String>,
    pub file: Option<String>,
    pub has_sha256: bool,
    pub has_address: bool,
    pub within: Duration,
}

/// Reads the arguments: `--within SECONDS`, and the options that the program has, which are
/// `options`. Returns `None` if the arguments are wrong.
pub fn arguments(within: f64, options: &[&str]) -> Option<Arguments> {
    let mut words = std::env::args().skip(1);
    let (mut left, mut file, mut within) = (Vec::new(), None, within);
    let (mut has_sha256, mut has_address) = (false, false);
    while let Some(word) = words.next() {
        match word.as_str() {
            "--within" => within = words.next()?.parse().ok()?,
            "--" => left.extend(words.by_ref()),
            "--sha256" if options.contains(&"--sha256") => has_sha256 = true,
            "--address" if options.contains(&"--address") => has_address = true,
            "--user" if options.contains(&"--user") => file = Some(words.next()?),
            _ if word.starts_with('-') => return None,
            _ => left.push(word),
        }
    }
    let within = Duration::try_from_secs_f64(within).ok()?;
    Some(Arguments {
        left,
        file,
        has_sha256,
        has_address,
        within,
    })
}

/// Runs a program with these arguments, or prints its usage if the arguments are wrong. Prints why
/// the program failed, and returns its status.
pub fn run(
    usage: &str,
    arguments: Option<Arguments>,
    program: impl Fn(&Arguments) -> Result<(), Box<dyn Error>>,
) -> ExitCode {
    let Some(arguments) = arguments else {
        eprintln!("usage: {usage}");
        return ExitCode::from(2);
    };
    match program(&arguments) {
        Ok(()) => ExitCode::SUCCESS,
        Err(error) => {
            eprintln!("{error}");
            ExitCode::FAILURE
        }
    }
}

pub struct Asker {
    socket: UdpSocket,
    client: Client,
    clock: Clock,
    give_up: Instant,
    bytes: [u8; 4096],
}

/// Returns the first address of a host, which is a name or an IP address.
pub fn find(host: &str, port: &str) -> Result<SocketAddr, Box<dyn Error>> {
    let found = format!("{host}:{port}").to_socket_addrs();
    let found = found.or_else(|_| format!("[{host}]:{port}").to_socket_addrs());
    Ok(found?.next().ok_or("no such host")?)
}

impl Asker {
    /// Opens a socket to a server. Requests that have no response `within` this time fail.
    ///
    /// The socket is connected, so that it reports if the port is closed. Its address does not
    /// change, so open another one after this machine has moved to another network.
    pub fn new(
        server: SocketAddr,
        settings: ClientBuilder,
        within: Duration,
    ) -> Result<Asker, Box<dyn Error>> {
        let any = ["0.0.0.0:0", "[::]:0"][usize::from(server.is_ipv6())];
        let socket = UdpSocket::bind(any)?;
        socket.connect(server)?;
        Ok(Asker {
            socket,
            client: settings.understands(&OLDER).build(random_seed())?,
            clock: Clock::start(),
            give_up: Instant::ZERO + within,
            bytes: [0; 4096],
        })
    }

    /// Sends a request until its response arrives, and returns the response. Data from the server
    /// that arrives meanwhile is lost.
    ///
    /// # Errors
    ///
    /// The error is a text that begins with `no answer`, `refused` or `failed`. A text that begins
    /// with `no answer` also says which responses were dropped.
    pub fn ask(&mut self, method: Method, body: Body) -> Result<Response, Box<dyn Error>> {
        self.ask_with(method, body, &RequestOptions::new())
    }

    /// Sends a request like [`Asker::ask`], but with these options.
    pub fn ask_with(
        &mut self,
        method: Method,
        body: Body,
        options: &RequestOptions,
    ) -> Result<Response, Box<dyn Error>> {
        let now = self.clock.now();
        let request = self.client.request_with(method, body, options, now)?;
        loop {
            match self.client.poll(self.clock.now()) {
                Output::Transmit { bytes, .. } => drop(self.socket.send(bytes)),
                Output::Ended(ended, result) if ended == request => {
                    return result.map_err(|error| told(&error).into());
                }
                Output::Wait(until) => {
                    if self.is_late() {
                        return Err(self.no_answer(request).into());
                    }
                    self.receive(until.unwrap_or(self.give_up))?;
                }
                _ => {}
            }
        }
    }

    /// Waits for a datagram until this time, and returns it if it is not a response to a request.
    pub fn receive(&mut self, until: Instant) -> Result<Option<&[u8]>, Box<dyn Error>> {
        let until = until.min(self.give_up);
        self.socket
            .set_read_timeout(self.clock.timeout(Some(until)))?;
        let server = self.socket.peer_addr()?;
        match self.socket.recv(&mut self.bytes) {
            Ok(length) => {
                let bytes = &self.bytes[..length];
                let input = self.client.receive(bytes, server, self.clock.now());
                Ok(matches!(input, Input::Indication(_) | Input::NotOurs).then_some(bytes))
            }
            Err(error) if error.kind() == ErrorKind::ConnectionRefused => {
                Err(format!("no answer: {error}").into())
            }
            Err(_) => Ok(None),
        }
    }

    /// Sends bytes that are not a request.
    pub fn send(&self, bytes: &[u8]) {
        let _ = self.socket.send(bytes);
    }

    pub fn now(&self) -> Instant {
        self.clock.now()
    }

    /// Returns whether the time for requests is over.
    pub fn is_late(&self) -> bool {
        self.now() >= self.give_up
    }

    /// Extends the time for requests, for example for a last request.
    pub fn extend(&mut self, more: Duration) {
        self.give_up = self.give_up.max(self.now()) + more;
    }

    /// Cancels a request, and returns the text `no answer` with the responses that were dropped
    /// while the client waited. Often these are errors that the server did not sign.
    fn no_answer(&mut self, request: RequestId) -> String {
        let drops = self
            .client
            .dropped(request)
            .filter(|drops| drops.count() > 0);
        self.client.cancel(request);
        drops.map_or("no answer".into(), |drops| format!("no answer; {drops}"))
    }
}

fn told(error: &RequestError) -> String {
    match error {
        RequestError::TimedOut(_) | RequestError::Refused(_) => error.to_string(),
        RequestError::Unauthorized => format!("refused: {error}; the password may be wrong"),
        _ => format!("failed: {error}"),
    }
}
