//! A STUN server on UDP and TCP (RFC 8489), IPv4 and IPv6, built on `endpoint`. It answers
//! everybody with the address that the request came from or, if it has a realm, only its users
//! (section 9.2.4). `--help` lists its arguments. The first line of output is `port N`.
//!
//! It stores nothing about addresses, so a flood uses no memory, and any number of threads,
//! processes and machines can serve the same clients if they have the same secret. While it serves,
//! it allocates only bytes of one answer at a time; if that fails, it drops the datagram.
//!
//! It calls the system only through the standard library and without `unsafe`, which has these
//! limits:
//! - It cannot catch a signal, so SIGHUP ends it. It looks every second at the length and the time
//!   of the file of users, and prints its counters at an interval.
//! - It cannot set socket options. IPv4 arrives at the IPv6 socket `::`, unless the system keeps
//!   the two apart (`net.ipv6.bindv6only`, and Windows). In that case, name an address of each with
//!   `--at`. On a machine with several addresses, an answer may leave from an address at which the
//!   request did not arrive, unless you name each address. The socket's buffer has the default size
//!   of the system (`net.core.rmem_default`). For SO_REUSEPORT, create the socket elsewhere and
//!   pass it as standard input (`--at -`).

#[path = "udp_server/counts.rs"]
mod counts;
#[path = "udp_server/discovery.rs"]
mod discovery;
#[path = "parts/log.rs"]
mod log;
#[path = "udp_server/streams.rs"]
mod streams;
#[path = "parts/users.rs"]
mod users;
#[path = "parts/words.rs"]
mod words;

use counts::{Counts, Outcome};
use seatcrane_stun::endpoint::{
    Cause, DropReason, LongTerm, OpenReceived, OpenServer, Received, Reply, ResponseSettings,
    Server, UnixTime, Users, random_seed,
};
use seatcrane_stun::extra::{Frame, next_frame};
use seatcrane_stun::types::message::*;
use std::error::Error;
use std::fs::{self, Metadata};
use std::io::{self, ErrorKind, Read, Write};
use std::mem;
use std::net::{IpAddr, SocketAddr, TcpListener, UdpSocket};
use std::process::ExitCode;
use std::sync::{PoisonError, RwLock};
use std::thread;
use std::time::{Duration, Instant, SystemTime};
use streams::{Open, Streams};
use words::Words;

const USAGE: &str = "udp_server PORT [REALM [NAME PASSWORD].. [--users FILE]] [OPTION]..";
const HELP: &str = "
Answers everybody with the address that the request came from or, if it has a REALM, the users of
that realm alone. PORT 0 is any free one. The first line of output is `port N`.

  --users FILE      users of a file, or of standard input if it is -. A line is `NAME PASSWORD` or
                    `NAME 0xKEY [0xKEY]` with stored keys of 16 bytes (HMAC-SHA1) and 32 bytes
                    (HMAC-SHA256) in hexadecimal; `#` begins a comment. Read again when it changes
  --secret FILE     what nonces are made of: 32 bytes, or 64 hexadecimal digits. Servers with the
                    same secret, REALM, users, --expiry and --sha256 serve each other's
                    clients. Random unless given
  --previous FILE   another secret whose nonces are accepted too, but not sent: the one before, so
                    that a new --secret costs no client a 438
  --sha256          offer HMAC-SHA256 beside HMAC-SHA1
  --expiry SECONDS  how long a nonce is sent, from 30; it is accepted for up to twice as long. 3600
                    unless given
  --at ADDRESS      an IP address to serve; may be repeated. `-` is the socket that is standard
                    input. `::` unless given, which is IPv4 too
  --tcp             serve TCP too, 64 connections at a time for each address: one more ends the
                    connection that has been silent for longest
  --idle SECONDS    end a connection without a whole message for SECONDS. 30 unless given
  --other ADDRESS   another IP address of this host, which makes this a server for NAT behavior
                    discovery (RFC 5780). It needs one --at, and takes ADDRESS:PORT for the other
                    port, which is PORT + 1 unless given
  --workers N       threads that read each socket: 1 unless given
  --counts SECONDS  print a line of counters every SECONDS
  --metrics FILE    write the counters to FILE every 5 seconds, as Prometheus reads them, by way of
                    FILE.new
  -v                print a line for each datagram, with the cause of a refusal
  --help, --version
";
const MOST_WORKERS: u64 = 64;
const MOST_LENGTH: usize = 2048;
const METRICS_EVERY: Duration = Duration::from_secs(5);

/// The arguments of the command line.
#[derive(Default)]
struct Settings {
    port: u16,
    at: Vec<String>,
    other: Option<SocketAddr>,
    realm: Option<String>,
    users: Vec<(String, String)>,
    file: Option<String>,
    secret: Option<String>,
    previous: Option<String>,
    /// The file of the counters, and the temporary file through which it is written.
    metrics: Option<[String; 2]>,
    has_sha256: bool,
    has_tcp: bool,
    idle: u64,
    expiry: u64,
    workers: u64,
    counts: Option<u64>,
    is_verbose: bool,
}

/// The state that all threads share. Without a realm, the open server answers.
struct Service<'a> {
    settings: &'a Settings,
    sockets: Vec<UdpSocket>,
    addresses: Vec<SocketAddr>,
    of_realm: Option<(Server, RwLock<Users>)>,
    open: OpenServer,
    counts: Counts,
}

impl Service<'_> {
    fn new(settings: &Settings) -> Result<Service<'_>, Box<dyn Error>> {
        let (mut open, mut of_realm) = (ResponseSettings::new(), None);
        open = match settings.other {
            Some(_) => open.understands(&discovery::ATTRIBUTES),
            None => open.answer_binding(true),
        };
        if let Some(realm) = &settings.realm {
            let both = [IntegrityAlgorithm::Sha1, IntegrityAlgorithm::Sha256];
            let algorithms = &both[..1 + usize::from(settings.has_sha256)];
            let current = match &settings.secret {
                Some(path) => secret(path)?,
                None => random_seed(),
            };
            let mut long_term = LongTerm::new(realm, current)
                .algorithms(algorithms)
                .nonce_lifetime(settings.expiry);
            if let Some(path) = &settings.previous {
                let previous = secret(path)?;
                if previous == current {
                    return Err("--previous and --secret have the same secret".into());
                }
                long_term = long_term.previous_secret(previous);
            }
            let server = match settings.other {
                Some(_) => Server::builder(long_term).understands(&discovery::ATTRIBUTES),
                None => Server::builder(long_term).answer_binding(true),
            };
            let server = server.build()?;
            let users = users::table(&server, &settings.users, settings.file.as_deref())?;
            of_realm = Some((server, RwLock::new(users)));
        }
        let sockets = sockets(settings)?;
        let addresses = sockets.iter().map(UdpSocket::local_addr);
        Ok(Service {
            settings,
            addresses: addresses.collect::<io::Result<_>>()?,
            sockets,
            of_realm,
            open: OpenServer::new(open)?,
            counts: Counts::default(),
        })
    }

    /// Returns the outcome of a message that arrived at the socket with this number, and the cause
    /// if the message is refused. Messages with a method that is not supported get no answer
    /// (section 6.3).
    fn judge(&self, bytes: &[u8], from: SocketAddr, at: usize) -> (Outcome, Option<Cause>) {
        let is_ours = |header: MessageHeader| header.get_type().method() == BINDING;
        if !MessageHeader::from_bytes(bytes).map_or(true, is_ours) {
            return (Outcome::Other, None);
        }
        let Some((server, users)) = &self.of_realm else {
            let outcome = match self.open.receive(bytes, from) {
                OpenReceived::Answer(answer) => Outcome::from(answer),
                OpenReceived::Request(request) => {
                    self.respond(request.message(), request.reply(), at)
                }
                OpenReceived::Dropped(why) => Outcome::Dropped(why),
                _ => Outcome::Other,
            };
            return (outcome, None);
        };
        let users = users.read().unwrap_or_else(PoisonError::into_inner);
        let now = UnixTime::now();
        let (received, cause) = server.receive_with_cause(bytes, from, now, &users);
        let outcome = match received {
            Received::Answer(answer) => Outcome::from(answer),
            Received::Request(request) => self.respond(request.message(), request.reply(), at),
            Received::Dropped(why) => Outcome::Dropped(why),
            _ => Outcome::Other,
        };
        (outcome, cause)
    }

    /// Responds to a request of NAT behavior discovery. All other requests have been answered
    /// before this call.
    fn respond(&self, request: &Message<'_>, reply: &Reply, at: usize) -> Outcome {
        match discovery::respond(&self.addresses, request, reply, at) {
            Ok((code, bytes, to, from)) => Outcome::Answer(code, bytes, to, Some(from)),
            Err(_) => Outcome::Dropped(DropReason::OutOfMemory),
        }
    }

    /// Judges a message, counts the outcome, and prints it if this was requested.
    fn receive(&self, bytes: &[u8], from: SocketAddr, at: usize) -> Outcome {
        let (outcome, cause) = self.judge(bytes, from, at);
        self.counts.note(&outcome, cause);
        if self.settings.is_verbose {
            let from = SocketAddr::new(from.ip().to_canonical(), from.port());
            let cause = cause.map_or(String::new(), |cause| format!(" {}", cause.name()));
            let _ = writeln!(io::stdout(), "{} {from} {outcome}{cause}", log::Now);
        }
        outcome
    }

    /// Builds the table of users again once their file has changed and then stayed the same for a
    /// second, because it may be written in pieces. If it cannot be read, the users are unchanged.
    fn reload(&self, file: &str, first: Option<Stamp>) {
        let Some((server, table)) = &self.of_realm else {
            return;
        };
        let (mut last, mut before) = (first, first);
        loop {
            thread::sleep(Duration::from_secs(1));
            let now = stamp(file);
            if now.is_some() && now != last && now == before {
                match users::table(server, &self.settings.users, Some(file)) {
                    Ok(users) => {
                        let mut current = table.write().unwrap_or_else(PoisonError::into_inner);
                        let old = mem::replace(&mut *current, users);
                        drop(current); // the other threads go on while the old table is freed
                        drop(old);
                    }
                    Err(error) => log::complain(format_args!("the users are unchanged: {error}")),
                }
                last = now;
            }
            before = now;
        }
    }

    /// Writes the file of counters now and then, and reports when this begins to fail.
    fn write_metrics(&self, file: &str, new: &str) {
        let mut was_right = true;
        loop {
            thread::sleep(METRICS_EVERY);
            let written = self.counts.write(file, new);
            if let (Err(error), true) = (&written, was_right) {
                log::complain(format_args!("{file}: {error}"));
            }
            was_right = written.is_ok();
        }
    }

    /// Answers the datagrams of the socket with this number.
    fn serve(&self, at: usize) {
        let mut bytes = [0; MOST_LENGTH + 1]; // a longer datagram is truncated, and so malformed
        loop {
            let Ok((length, peer)) = self.sockets[at].recv_from(&mut bytes) else {
                thread::sleep(Duration::from_millis(10)); // the next call may fail at once too
                continue;
            };
            if let Outcome::Answer(_, answer, to, from) = self.receive(&bytes[..length], peer, at) {
                let socket = &self.sockets[from.unwrap_or(at)];
                let _ = socket.send_to(&answer, to); // a client without an answer asks again
            }
        }
    }

    /// Answers the messages of one connection after another.
    fn accept(&self, listener: &TcpListener, streams: &Streams) {
        let mut bytes = [0; MOST_LENGTH];
        loop {
            match listener.accept() {
                Ok((stream, peer)) => {
                    let open = streams.add(stream);
                    let _ = self.converse(&open, peer, &mut bytes); // however it ended
                    streams.remove(&open);
                }
                Err(_) => thread::sleep(Duration::from_millis(10)),
            }
        }
    }

    /// Answers messages until the connection ends, has no complete message for too long, or carries
    /// something other than STUN.
    fn converse(&self, open: &Open, peer: SocketAddr, bytes: &mut [u8]) -> io::Result<()> {
        let idle = Duration::from_secs(self.settings.idle);
        let (mut stream, mut length) = (&open.stream, 0);
        stream.set_write_timeout(Some(idle))?;
        loop {
            match next_frame(&bytes[..length]) {
                Frame::Message(whole) => {
                    open.note_message();
                    if let Outcome::Answer(_, answer, ..) = self.receive(&bytes[..whole], peer, 0) {
                        stream.write_all(&answer)?;
                    }
                    bytes.copy_within(whole..length, 0);
                    length -= whole;
                }
                Frame::Need(more) if length + more <= bytes.len() => {
                    let end = open.since() + idle;
                    let left = end.saturating_duration_since(Instant::now());
                    stream.set_read_timeout(Some(left.max(Duration::from_nanos(1000))))?;
                    match stream.read(&mut bytes[length..]) {
                        Ok(0) => return Ok(()),
                        Ok(read) => length += read,
                        Err(error) if error.kind() == ErrorKind::Interrupted => {} // by SIGCONT
                        Err(error) => return Err(error),
                    }
                }
                _ => return Ok(()),
            }
        }
    }
}

/// Reads a secret from its file.
fn secret(path: &str) -> Result<[u8; 32], Box<dyn Error>> {
    let bytes = fs::read(path).map_err(|error| format!("{path}: {error}"))?;
    let raw = <[u8; 32]>::try_from(&bytes[..]).ok();
    let digits = std::str::from_utf8(&bytes).unwrap_or_default().trim();
    let found = raw.or_else(|| users::bytes_of(digits));
    Ok(found.ok_or_else(|| format!("{path}: a secret is 32 bytes, or 64 hexadecimal digits"))?)
}

/// Returns the socket that is standard input.
#[cfg(unix)]
fn inherited() -> io::Result<UdpSocket> {
    use std::os::fd::AsFd;
    Ok(UdpSocket::from(io::stdin().as_fd().try_clone_to_owned()?))
}

#[cfg(not(unix))]
fn inherited() -> io::Result<UdpSocket> {
    Err(io::ErrorKind::Unsupported.into())
}

/// Binds a socket for each address, all with the same port; or the four sockets of NAT behavior
/// discovery.
fn sockets(settings: &Settings) -> Result<Vec<UdpSocket>, Box<dyn Error>> {
    let (mut port, mut bound) = (settings.port, Vec::new());
    for at in &settings.at {
        let socket = match at.as_str() {
            "-" => inherited(),
            at => UdpSocket::bind((at.parse::<IpAddr>()?, port)),
        };
        let socket = socket.map_err(|error| format!("{at}: {error}"))?;
        port = socket.local_addr()?.port();
        bound.push(socket);
    }
    if bound.is_empty() {
        let any = UdpSocket::bind(("::", port)).or_else(|_| UdpSocket::bind(("0.0.0.0", port)));
        bound.push(any?);
    }
    if let Some(other) = settings.other {
        let first = bound[0].local_addr()?;
        let other_port = match other.port() {
            0 => first.port().wrapping_add(1),
            port => port,
        };
        bound.push(UdpSocket::bind((first.ip(), other_port))?);
        let other_port = bound[1].local_addr()?.port(); // the system chooses it if it was 0
        bound.push(UdpSocket::bind((other.ip(), first.port()))?);
        bound.push(UdpSocket::bind((other.ip(), other_port))?);
    }
    Ok(bound)
}

/// When a file was last written, its length, and its identity.
type Stamp = (SystemTime, u64, [u64; 3]);

fn stamp(file: &str) -> Option<Stamp> {
    let of = fs::metadata(file).ok()?;
    Some((of.modified().ok()?, of.len(), identity(&of)))
}

/// Returns the inode number of a file and when it was last changed. A copy of the file with the
/// same time and length has a different identity.
#[cfg(unix)]
fn identity(of: &Metadata) -> [u64; 3] {
    use std::os::unix::fs::MetadataExt;
    [of.ino(), of.ctime() as u64, of.ctime_nsec() as u64]
}

#[cfg(not(unix))]
fn identity(_: &Metadata) -> [u64; 3] {
    [0; 3]
}

fn run(settings: Settings) -> Result<bool, Box<dyn Error>> {
    let settings = &settings;
    let file = settings.file.as_deref().filter(|file| *file != "-");
    let first = file.and_then(stamp);
    let service = &Service::new(settings)?;
    if let Some([file, new]) = &settings.metrics {
        let written = service.counts.write(file, new);
        written.map_err(|error| format!("{file}: {error}"))?;
    }
    let addresses = service.addresses.iter().filter(|_| settings.has_tcp);
    let listeners = addresses
        .map(|at| Ok((TcpListener::bind(at)?, Streams::default())))
        .collect::<io::Result<Vec<_>>>()?;
    thread::scope(|scope| {
        if let Some(file) = file {
            scope.spawn(move || service.reload(file, first));
        }
        if let Some(seconds) = settings.counts {
            scope.spawn(move || {
                loop {
                    thread::sleep(Duration::from_secs(seconds));
                    let _ = writeln!(io::stdout(), "{} {}", log::Now, service.counts);
                }
            });
        }
        if let Some([file, new]) = &settings.metrics {
            scope.spawn(move || service.write_metrics(file, new));
        }
        for (listener, streams) in &listeners {
            let accept = || service.accept(listener, streams);
            (0..streams::THREADS).for_each(|_| drop(scope.spawn(accept)));
        }
        // This thread is the first worker of the first socket.
        for at in 0..service.sockets.len() {
            let others = settings.workers - u64::from(at == 0);
            (0..others).for_each(|_| drop(scope.spawn(move || service.serve(at))));
        }
        println!("port {}", service.addresses[0].port());
        log::serve();
        service.serve(0);
    });
    Ok(true)
}

/// Reads an IP address, with or without a port.
fn other(word: &str) -> Option<SocketAddr> {
    let address = word.parse::<IpAddr>().map(|ip| SocketAddr::new(ip, 0));
    address.ok().or_else(|| word.parse().ok())
}

/// Returns the settings in the arguments, or `None` if they are wrong.
fn settings(mut words: Words) -> Option<Settings> {
    let mut settings = Settings {
        expiry: 3600,
        idle: 30,
        workers: 1,
        ..Settings::default()
    };
    let number = |word: Option<String>, least: u64, most: u64| {
        let number = word?.parse().ok()?;
        (least..=most).contains(&number).then_some(number)
    };
    let mut left = Vec::new();
    while let Some(word) = words.next() {
        match word.as_str() {
            "--sha256" => settings.has_sha256 = true,
            "--tcp" => settings.has_tcp = true,
            "-v" => settings.is_verbose = true,
            "--at" => settings.at.push(words.next()?),
            "--other" => settings.other = Some(other(&words.next()?)?),
            "--idle" => settings.idle = number(words.next(), 1, 1_000_000)?,
            "--users" => settings.file = Some(words.next()?),
            "--secret" => settings.secret = Some(words.next()?),
            "--previous" => settings.previous = Some(words.next()?),
            "--metrics" => {
                let file = words.next()?;
                settings.metrics = Some([file.clone(), file + ".new"]);
            }
            "--expiry" => settings.expiry = number(words.next(), 30, 1_000_000)?,
            "--workers" => settings.workers = number(words.next(), 1, MOST_WORKERS)?,
            "--counts" => settings.counts = Some(number(words.next(), 1, 1_000_000)?),
            _ if word.starts_with('-') => return None,
            _ => left.push(word),
        }
    }
    let mut left = left.into_iter();
    settings.port = left.next()?.parse().ok()?;
    settings.realm = left.next();
    while let Some(name) = left.next() {
        settings.users.push((name, left.next()?));
    }
    let has_users = !settings.users.is_empty() || settings.file.is_some();
    let is_right = settings.other.is_none() || settings.at.len() == 1 && !settings.has_tcp;
    let has_secrets = settings.previous.is_none() || settings.secret.is_some();
    (settings.realm.is_some() == has_users && is_right && has_secrets).then_some(settings)
}

fn main() -> ExitCode {
    words::run(USAGE, HELP, settings, run)
}
