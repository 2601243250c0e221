//! This library's endpoints as a subject, through the exported crate: the servers of each kind of
//! credentials, the client, and the checks of ICE. endpoint.py has the same through C.
//!
//! Binding requests are answered inside, but by a server that redirects: there this program is the
//! application, which answers each accepted request with 300.

use seatcrane_stun::Instant;
use seatcrane_stun::auth::Feature;
use seatcrane_stun::endpoint::ice::{Check, Checker, Judged, Outcome, Received as Checked, Role};
use seatcrane_stun::endpoint::{
    Body, Client, Credentials, DropReason, Input, LongTerm, OpenReceived, OpenServer, Output,
    Received, Reply, RequestError, ResponseSettings, Server, ShortTermReceived, ShortTermServer,
    ShortTermUsers, Transport, UnixTime, Users,
};
use seatcrane_stun::extra::attribute::AlternateServer;
use seatcrane_stun::types::message::{
    BINDING, IntegrityAlgorithm, LongTermCredentials, Message, Method, ShortTermCredentials,
    TransactionId,
};
use std::collections::BTreeMap;
use std::error::Error;
use std::io::{BufRead, Write};
use std::net::SocketAddr;
use std::time::Duration;

/// That of endpoint.py, so that both draw the same IDs.
const SEED: [u8; 32] = [
    1, 2, 3, 4, 5, 6, 7, 8, 9, 10, 11, 12, 13, 14, 15, 16, 17, 18, 19, 20, 21, 22, 23, 24, 25, 26,
    27, 28, 29, 30, 31, 32,
];
const PEER: &str = "10.0.0.2:3478";

/// The answer to a call: an error is `refused`.
type Answer = Result<String, Box<dyn Error>>;

fn plain(word: &str) -> Result<Vec<u8>, Box<dyn Error>> {
    let digits = if word == "-" { "" } else { word };
    let pairs = digits.as_bytes().chunks(2).map(std::str::from_utf8);
    pairs
        .map(|pair| Ok(u8::from_str_radix(pair?, 16)?))
        .collect()
}

fn text(word: &str) -> Result<String, Box<dyn Error>> {
    Ok(String::from_utf8(plain(word)?)?)
}

fn hexadecimal(bytes: &[u8]) -> String {
    bytes.iter().map(|octet| format!("{octet:02x}")).collect()
}

fn done() -> Answer {
    Ok("done".into())
}

fn algorithms(words: &str) -> Vec<IntegrityAlgorithm> {
    let named = |word| match word {
        "sha256" => IntegrityAlgorithm::Sha256,
        _ => IntegrityAlgorithm::Sha1,
    };
    words.split(',').map(named).collect()
}

/// What an endpoint makes of a datagram: an answer, or an accepted request.
enum Heard {
    Answer(Vec<u8>),
    Request(Method, Reply),
    Nothing,
}

/// The settings of a server, and the server once it has heard something.
struct Serving {
    realm: String,
    names: BTreeMap<String, String>,
    algorithms: Vec<IntegrityAlgorithm>,
    has_hashes: bool,
    lifetime: u64,
    requires_fingerprint: bool,
    places: Vec<SocketAddr>,
    made: Option<Made>,
}

enum Made {
    LongTerm(Server, Users),
    ShortTerm(ShortTermServer, ShortTermUsers),
    Open(OpenServer),
}

impl Serving {
    fn new(realm: String) -> Serving {
        Serving {
            realm,
            names: BTreeMap::new(),
            algorithms: vec![IntegrityAlgorithm::Sha1],
            has_hashes: true,
            lifetime: 3600,
            requires_fingerprint: false,
            places: Vec::new(),
            made: None,
        }
    }

    fn settings(&self) -> ResponseSettings {
        let mut settings = ResponseSettings::new();
        if self.places.is_empty() {
            settings = settings.answer_binding(true);
        }
        if self.requires_fingerprint {
            settings = settings.require_fingerprint(true);
        }
        settings
    }

    fn long_term(&self) -> Result<Made, Box<dyn Error>> {
        let credentials = LongTerm::new(self.realm.clone(), SEED)
            .algorithms(&self.algorithms)
            .user_hashes(self.has_hashes)
            .nonce_lifetime(self.lifetime);
        let mut builder = Server::builder(credentials);
        if self.places.is_empty() {
            builder = builder.answer_binding(true);
        }
        if self.requires_fingerprint {
            builder = builder.require_fingerprint(true);
        }
        let server = builder.build()?;
        let users = server.users();
        Ok(Made::LongTerm(server, users))
    }

    fn add(&mut self, name: String, password: String) -> Answer {
        match &mut self.made {
            Some(Made::LongTerm(_, users)) => {
                users.add(LongTermCredentials::new(name.clone(), password.clone()))?;
            }
            Some(Made::ShortTerm(_, users)) => {
                users.add(name.clone(), ShortTermCredentials::new(password.clone()))?;
            }
            _ => {}
        }
        self.names.insert(name, password);
        done()
    }

    fn remove(&mut self, name: &str) -> Answer {
        self.names.remove(name);
        if let Some(Made::LongTerm(_, users)) = &mut self.made {
            users.remove(name);
        }
        done()
    }

    fn hears(
        &mut self,
        make: fn(&Serving) -> Result<Made, Box<dyn Error>>,
        words: &[&str],
    ) -> Answer {
        if self.made.is_none() {
            self.made = Some(make(self)?);
            for (name, password) in self.names.clone() {
                self.add(name, password)?;
            }
        }
        let (from, bytes) = (words[0].parse()?, plain(words[words.len() - 1])?);
        let seconds = if words.len() > 2 {
            words[1].parse()?
        } else {
            0
        };
        let heard = self
            .made
            .as_ref()
            .map(|made| made.hears(&bytes, from, seconds));
        Ok(match heard {
            Some(Heard::Answer(answer)) => hexadecimal(&answer),
            Some(Heard::Request(method, reply)) if method == BINDING => {
                hexadecimal(&self.redirected(&reply, from)?)
            }
            // An accepted request of another method is the application's, which has none.
            _ => "none".into(),
        })
    }

    /// The other server is of the family of the source.
    fn redirected(&self, reply: &Reply, from: SocketAddr) -> Result<Vec<u8>, Box<dyn Error>> {
        let mut writer = reply.error(300, "Try Alternate");
        if let Some(place) = self
            .places
            .iter()
            .find(|place| place.is_ipv4() == from.is_ipv4())
        {
            writer = writer.add(&AlternateServer::new(*place));
        }
        Ok(writer.finish()?)
    }
}

impl Made {
    fn hears(&self, bytes: &[u8], from: SocketAddr, seconds: u64) -> Heard {
        match self {
            Made::LongTerm(server, users) => {
                match server.receive(bytes, from, UnixTime::from_secs(seconds), users) {
                    Received::Answer(answer) => Heard::Answer(answer.into_bytes()),
                    Received::Request(request) => {
                        Heard::Request(request.method(), request.reply().clone())
                    }
                    _ => Heard::Nothing,
                }
            }
            Made::ShortTerm(server, users) => match server.receive(bytes, from, users) {
                ShortTermReceived::Answer(answer) => Heard::Answer(answer.into_bytes()),
                ShortTermReceived::Request(request) => {
                    Heard::Request(request.method(), request.reply().clone())
                }
                _ => Heard::Nothing,
            },
            Made::Open(server) => match server.receive(bytes, from) {
                OpenReceived::Answer(answer) => Heard::Answer(answer.into_bytes()),
                OpenReceived::Request(request) => {
                    Heard::Request(request.method(), request.reply().clone())
                }
                _ => Heard::Nothing,
            },
        }
    }
}

/// The settings of a client, and the client once it has sent something.
struct Asking {
    user: Option<(String, String)>,
    is_short_term: bool,
    is_stream: bool,
    has_fingerprint: bool,
    algorithms: Vec<IntegrityAlgorithm>,
    hashes: Feature,
    client: Option<Client>,
}

impl Asking {
    fn new() -> Asking {
        Asking {
            user: None,
            is_short_term: false,
            is_stream: false,
            has_fingerprint: false,
            algorithms: vec![IntegrityAlgorithm::Sha1],
            hashes: Feature::Auto,
            client: None,
        }
    }

    fn build(&self) -> Result<Client, Box<dyn Error>> {
        let credentials = match self.user.clone() {
            None => Credentials::none(),
            Some((name, password)) if self.is_short_term => {
                // They have one algorithm.
                let [algorithm] = self.algorithms[..] else {
                    return Err("two algorithms".into());
                };
                Credentials::short_term(name, password, algorithm)
            }
            Some((name, password)) => Credentials::long_term(name, password),
        };
        let mut builder = Client::builder(PEER.parse()?).credentials(credentials);
        if !self.is_short_term {
            builder = builder
                .algorithms(&self.algorithms)
                .anonymous_username(self.hashes);
        }
        if self.is_stream {
            builder = builder.transport(Transport::Stream);
        }
        if self.has_fingerprint {
            builder = builder.fingerprint(true).require_fingerprint(true);
        }
        Ok(builder.build(SEED)?)
    }

    fn asks(&mut self, words: &[&str]) -> Answer {
        let bytes = plain(words[1])?;
        let message = Message::from_bytes(&bytes)?;
        let mut body = Body::new();
        for (_, attribute) in message.iter_attributes() {
            body = body.add(&attribute)?;
        }
        if self.client.is_none() {
            self.client = Some(self.build()?);
        }
        let client = self.client.as_mut().ok_or("no client")?;
        client.request(message.method(), body, time(words[0])?)?;
        self.next(words)
    }

    fn takes(&mut self, words: &[&str]) -> Answer {
        let (client, bytes) = (self.client.as_mut().ok_or("no client")?, plain(words[1])?);
        let input = client.receive(&bytes, PEER.parse()?, time(words[0])?);
        Ok(if matches!(input, Input::Consumed) {
            "yes"
        } else {
            "no"
        }
        .into())
    }

    fn next(&mut self, words: &[&str]) -> Answer {
        let client = self.client.as_mut().ok_or("no client")?;
        Ok(match client.poll(time(words[0])?) {
            Output::Transmit { bytes, .. } => hexadecimal(bytes),
            Output::Ended(_, Ok(_)) => "result success".into(),
            Output::Ended(_, Err(error)) => ended(&error),
            _ => "none".into(),
        })
    }
}

/// How a request has ended without a success.
fn ended(error: &RequestError) -> String {
    match error {
        RequestError::Refused(response) => format!("result error {}", response.code()),
        RequestError::Redirected(redirect) => match redirect.server() {
            Some(server) => format!("result redirected {server}"),
            None => "result error 300".into(),
        },
        RequestError::TimedOut(drops) => match drops.last() {
            Some(DropReason::NotVerified) => "result violated".into(),
            _ => "result timed out".into(),
        },
        _ => "result failed".into(),
    }
}

fn time(word: &str) -> Result<Instant, Box<dyn Error>> {
    Ok(Instant::ZERO + Duration::from_nanos(word.parse()?))
}

/// An ICE agent, and its last check.
struct Agent {
    checker: Checker,
    check: Option<Check>,
    count: u64,
    is_nominated: bool,
}

impl Agent {
    fn new(words: &[&str]) -> Result<Agent, Box<dyn Error>> {
        let role = if words[0] == "controlling" {
            Role::Controlling
        } else {
            Role::Controlled
        };
        let names = words[2..]
            .iter()
            .map(|word| text(word))
            .collect::<Result<Vec<_>, _>>()?;
        let (local, remote) = ((&*names[0], &*names[1]), (&*names[2], &*names[3]));
        let checker = Checker::new(local, remote, words[1].parse()?, role)?;
        Ok(Agent {
            checker,
            check: None,
            count: 0,
            is_nominated: false,
        })
    }

    fn checks(&mut self, words: &[&str]) -> Answer {
        self.count += 1;
        let id = TransactionId::from_u128(u128::from(self.count) << 40).ok_or("no such ID")?;
        let (to, priority) = (words[0].parse()?, words[1].parse()?);
        let check = self
            .checker
            .check(id, to, priority, words[2] == "yes")?;
        Ok(hexadecimal(self.check.insert(check).bytes()))
    }

    fn hears(&mut self, words: &[&str]) -> Answer {
        let bytes = plain(words[1])?;
        let received = self
            .checker
            .receive(&bytes, words[0].parse()?, self.check.as_ref());
        let Checked::Check { answer, judged, .. } = received else {
            return Ok("none".into());
        };
        self.is_nominated = matches!(
            judged,
            Judged::Accepted {
                nominated: true,
                ..
            }
        );
        Ok(hexadecimal(&answer))
    }

    fn takes(&mut self, words: &[&str]) -> Answer {
        let bytes = plain(words[1])?;
        let received = self
            .checker
            .receive(&bytes, words[0].parse()?, self.check.as_ref());
        let Checked::Response(outcome) = received else {
            return Ok("none".into());
        };
        self.check = None;
        Ok(match outcome {
            Outcome::Valid { mapped } => format!("valid {mapped}"),
            Outcome::RoleConflict { .. } => {
                self.count += 1;
                self.checker.set_tie_breaker(7919 * self.count);
                "conflict".into()
            }
            _ => "failed".into(),
        })
    }
}

struct Subject {
    server: Serving,
    short_server: Serving,
    open_server: Serving,
    asking: Asking,
    agent: Option<Agent>,
}

impl Subject {
    fn new() -> Subject {
        Subject {
            server: Serving::new(String::new()),
            short_server: Serving::new(String::new()),
            open_server: Serving::new(String::new()),
            asking: Asking::new(),
            agent: None,
        }
    }

    fn answer(&mut self, call: &str, words: &[&str]) -> Answer {
        match call {
            "reset" => *self = Subject::new(),
            "claims" => return Ok("rfc5389 rfc8489".into()),
            _ if call.starts_with("client-") => return self.client(call, words),
            _ if call.starts_with("ice-") => return self.ice(call, words),
            _ => return self.served(call, words),
        }
        done()
    }

    fn served(&mut self, call: &str, words: &[&str]) -> Answer {
        let Some((who, rest)) = call.split_once("server-") else {
            return Ok("lacks".into());
        };
        let serving = match who {
            "" => &mut self.server,
            "short-" => &mut self.short_server,
            _ => &mut self.open_server,
        };
        match rest {
            "new" => {
                *serving =
                    Serving::new(words.first().map_or(Ok(String::new()), |word| text(word))?);
            }
            "algorithms" => serving.algorithms = algorithms(words[0]),
            "hashes" => serving.has_hashes = words[0] == "yes",
            "lifetime" => serving.lifetime = words[0].parse()?,
            "fingerprint" => serving.requires_fingerprint = true,
            "redirects" => {
                serving.places = words
                    .iter()
                    .map(|word| word.parse())
                    .collect::<Result<_, _>>()?;
            }
            "add-user" => return serving.add(text(words[0])?, text(words[1])?),
            "remove-user" => return serving.remove(&text(words[0])?),
            "hears" => {
                let make: fn(&Serving) -> Result<Made, Box<dyn Error>> = match who {
                    "" => Serving::long_term,
                    "short-" => |serving| {
                        let server = ShortTermServer::new(serving.settings())?;
                        Ok(Made::ShortTerm(server, ShortTermUsers::new()))
                    },
                    _ => |serving| Ok(Made::Open(OpenServer::new(serving.settings())?)),
                };
                return serving.hears(make, words);
            }
            _ => return Ok("lacks".into()),
        }
        done()
    }

    fn client(&mut self, call: &str, words: &[&str]) -> Answer {
        let asking = &mut self.asking;
        match call {
            "client-new" => *asking = Asking::new(),
            "client-user" | "client-short-term" => {
                asking.user = Some((text(words[0])?, text(words[1])?));
                asking.is_short_term = call == "client-short-term";
            }
            "client-stream" => asking.is_stream = true,
            "client-fingerprint" => asking.has_fingerprint = true,
            "client-algorithms" => asking.algorithms = algorithms(words[0]),
            "client-hashes" => {
                asking.hashes = match words[0] {
                    "required" => Feature::Required,
                    "disabled" => Feature::Disabled,
                    _ => Feature::Auto,
                };
            }
            "client-asks" => return asking.asks(words),
            "client-takes" => return asking.takes(words),
            "client-next" => return asking.next(words),
            _ => return Ok("lacks".into()),
        }
        done()
    }

    fn ice(&mut self, call: &str, words: &[&str]) -> Answer {
        if call == "ice-new" {
            self.agent = Some(Agent::new(words)?);
            return done();
        }
        let agent = self.agent.as_mut().ok_or("no agent")?;
        match call {
            "ice-checks" => agent.checks(words),
            "ice-hears" => agent.hears(words),
            "ice-takes" => agent.takes(words),
            "ice-role" => Ok(match agent.checker.role() {
                Role::Controlling => "controlling".into(),
                Role::Controlled => "controlled".into(),
            }),
            "ice-nominated" => Ok(if agent.is_nominated { "yes" } else { "no" }.into()),
            _ => Ok("lacks".into()),
        }
    }
}

fn main() -> Result<(), Box<dyn Error>> {
    let mut subject = Subject::new();
    for line in std::io::stdin().lock().lines() {
        let line = line?;
        let words: Vec<&str> = line.split(' ').collect();
        let answer = subject.answer(words[0], &words[1..]);
        println!("{}", answer.unwrap_or_else(|_| "refused".into()));
        std::io::stdout().flush()?;
    }
    Ok(())
}
