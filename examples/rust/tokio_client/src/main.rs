//! Many requests at the same time through one socket and one `endpoint::Client`, on tokio.
//!
//!     tokio_client HOST PORT REQUESTS [NAME PASSWORD]
//!
//! One task owns the socket and the client, and waits for three things: a request of another task,
//! a datagram, and a time. The other tasks share a `Front`, whose `ask` returns the response. Here
//! each of REQUESTS tasks makes one request. Status 0 if all were answered.

use seatcrane_stun::endpoint::{Body, Client, Clock, Credentials, Output, random_seed};
use seatcrane_stun::endpoint::{RequestError, RequestId, Response};
use seatcrane_stun::types::message::{BINDING, Method};
use std::collections::HashMap;
use std::error::Error;
use std::net::SocketAddr;
use std::process::ExitCode;
use tokio::net::{UdpSocket, lookup_host};
use tokio::sync::{mpsc, oneshot};
use tokio::task::JoinSet;
use tokio::time::{Instant, sleep_until};

type Answer = Result<Response, Box<dyn Error + Send + Sync>>;
type Request = (Method, Body, oneshot::Sender<Answer>);

/// The side of the tasks that ask. Clones share the client.
#[derive(Clone)]
struct Front(mpsc::Sender<Request>);

impl Front {
    /// Starts the task that owns the client. It ends when the last clone of the front is dropped.
    async fn start(server: SocketAddr, client: Client) -> Result<Front, Box<dyn Error>> {
        let any = ["0.0.0.0:0", "[::]:0"][usize::from(server.is_ipv6())];
        let socket = UdpSocket::bind(any).await?;
        socket.connect(server).await?;
        let (front, requests) = mpsc::channel(64);
        tokio::spawn(drive(client, socket, requests));
        Ok(Front(front))
    }

    /// Sends a request, and returns how it ended. Whoever drops this future cancels the request.
    async fn ask(&self, method: Method, body: Body) -> Answer {
        let (caller, answer) = oneshot::channel();
        let _ = self.0.send((method, body, caller)).await; // if that fails, the caller is dropped
        answer.await.unwrap_or(Err(RequestError::Cancelled.into()))
    }
}

/// Owns the client: passes on requests, datagrams, and how the requests ended.
async fn drive(mut client: Client, socket: UdpSocket, mut asked: mpsc::Receiver<Request>) {
    let Ok(from) = socket.peer_addr() else { return };
    let (clock, mut bytes) = (Clock::start(), [0; 2048]);
    let mut callers: HashMap<RequestId, oneshot::Sender<Answer>> = HashMap::new();
    loop {
        let until = loop {
            match client.poll(clock.now()) {
                // retransmitted if it is lost
                Output::Transmit { bytes, .. } => drop(socket.send(bytes).await),
                Output::Ended(request, answer) => {
                    let answer = answer.map_err(Into::into);
                    callers.remove(&request).map(|caller| caller.send(answer));
                }
                Output::Wait(until) => break until,
                _ => {}
            }
        };
        let due = until.map(|until| clock.to_std(until).into());
        tokio::select! {
            // What is not of this client is dropped, since nobody else reads from this socket.
            received = socket.recv(&mut bytes) => if let Ok(length) = received {
                let _ = client.receive(&bytes[..length], from, clock.now());
            },
            request = asked.recv() => {
                let Some((method, body, caller)) = request else { return };
                match client.request(method, body, clock.now()) {
                    Ok(request) => drop(callers.insert(request, caller)),
                    Err(error) => drop(caller.send(Err(error.into()))),
                }
            }
            // A request may be due for retransmission, or may time out.
            () = sleep_until(due.unwrap_or_else(Instant::now)), if due.is_some() => {
                for (request, _) in callers.iter().filter(|(_, caller)| caller.is_closed()) {
                    client.cancel(*request);
                }
            }
        }
    }
}

async fn run(words: &[String]) -> Result<bool, Box<dyn Error>> {
    let host = (words[0].as_str(), words[1].parse()?);
    let server = lookup_host(host).await?.next().ok_or("no such host")?;
    let number: usize = words[2].parse()?;
    let mut settings = Client::builder(server);
    if let [name, password] = &words[3..] {
        settings = settings.credentials(Credentials::long_term(name, password));
    }
    let front = Front::start(server, settings.build(random_seed())?).await?;
    let (begun, mut tasks, mut answered) = (Instant::now(), JoinSet::new(), 0);
    for _ in 0..number {
        let front = front.clone();
        tasks.spawn(async move { front.ask(BINDING, Body::new()).await });
    }
    while let Some(answer) = tasks.join_next().await {
        match answer? {
            Ok(answer) => answered += answer.message().xor_mapped_address().map_or(0, |_| 1),
            Err(error) => eprintln!("{error}"),
        }
    }
    println!("answered {answered} of {number} in {:?}", begun.elapsed());
    Ok(answered == number)
}

#[tokio::main]
async fn main() -> Result<ExitCode, Box<dyn Error>> {
    let words: Vec<String> = std::env::args().skip(1).collect();
    if words.len() != 3 && words.len() != 5 {
        eprintln!("usage: tokio_client HOST PORT REQUESTS [NAME PASSWORD]");
        return Ok(ExitCode::from(2));
    }
    Ok(ExitCode::from(u8::from(!run(&words).await?)))
}
