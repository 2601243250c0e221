//! Clients and a server over a network that loses, repeats, delays and reorders.
//!
//! `SEEDS` is the number of runs, 50 unless set:
//!
//! ```text
//! SEEDS=100000 cargo test --release --test endpoint_meeting -- --nocapture
//! ```

mod pair;

use pair::*;
use seatcrane_stun::Instant;
use seatcrane_stun::endpoint::*;
use seatcrane_stun::types::message::*;
use seatcrane_stun::types::prelude::*;
use std::collections::{BTreeMap, HashMap};
use std::net::SocketAddr;
use std::time::Duration;

/// The network loses at most three copies of each datagram, so that the fourth arrives in time.
const MOST_LOST: u32 = 3;
const CLIENTS: usize = 3;

enum Packet {
    Request(usize, SocketAddr, Vec<u8>),
    Answer(usize, Vec<u8>),
    Stranger(SocketAddr, Vec<u8>),
    Begin(usize),
    Restart,
    Move(usize),
}

#[derive(Default, Debug)]
struct Counts {
    served: u64,
    datagrams: u64,
    refused: u64,
    slowest: Duration,
}

struct Net {
    rng: Rng,
    packets: BTreeMap<(Instant, u64), Packet>,
    sent: u64,
    lost: HashMap<(bool, [u8; 12]), u32>,
}

impl Net {
    fn put(&mut self, at: Instant, packet: Packet) {
        self.sent += 1;
        self.packets.insert((at, self.sent), packet);
    }

    /// Loses a datagram, or delays it, and may repeat it.
    fn carry(&mut self, now: Instant, to_server: bool, bytes: &[u8], packet: impl Fn() -> Packet) {
        let id: [u8; 12] = bytes[8..20].try_into().unwrap();
        let lost = self.lost.entry((to_server, id)).or_insert(0);
        if *lost < MOST_LOST && self.rng.below(2) == 0 {
            *lost += 1;
            return;
        }
        for _ in 0..1 + self.rng.below(3) / 2 {
            let delay = Duration::from_millis(1 + self.rng.below(400));
            self.put(now + delay, packet());
        }
    }
}

struct Run {
    seed: u64,
    net: Net,
    service: Service,
    secret: u64,
    offered: &'static [IntegrityAlgorithm],
    clients: Vec<Client>,
    best: Vec<IntegrityAlgorithm>,
    addresses: Vec<SocketAddr>,
    wake: Vec<Instant>,
    begun: HashMap<(usize, RequestId), Instant>,
    left: u64,
}

impl Run {
    /// Creates a run of half an hour. Nonces last 600 s, so they expire between and within
    /// requests. Each client changes its address, and in half of the runs the server restarts.
    fn new(seed: u64) -> Run {
        let mut rng = Rng(seed);
        let offered: &[IntegrityAlgorithm] = if rng.below(2) == 0 { &BOTH } else { &[SHA1] };
        let has_restarts = rng.below(2) == 0;
        let mut run = Run {
            seed,
            net: Net {
                rng,
                packets: BTreeMap::new(),
                sent: 0,
                lost: HashMap::new(),
            },
            service: Service::new(1, offered),
            secret: 1,
            offered,
            clients: Vec::new(),
            best: Vec::new(),
            addresses: Vec::new(),
            wake: vec![Instant::ZERO; CLIENTS],
            begun: HashMap::new(),
            left: 0,
        };
        for i in 0..CLIENTS {
            let supported: &[IntegrityAlgorithm] = match run.net.rng.below(2) {
                0 => &BOTH,
                _ => &[SHA1],
            };
            let shares = offered.contains(&SHA256) && supported.contains(&SHA256);
            run.best.push(if shares { SHA256 } else { SHA1 });
            run.clients
                .push(client(seed * 8 + i as u64, "wonderland", supported));
            run.addresses
                .push(SocketAddr::from(([10, 0, 0, i as u8], 1000)));
            let mut when = 0;
            for _ in 0..4 {
                for _ in 0..1 + run.net.rng.below(3) {
                    run.net.put(ms(when), Packet::Begin(i));
                    run.left += 1;
                }
                when += run.net.rng.below(600_000);
            }
            let when = ms(run.net.rng.below(1_800_000));
            run.net.put(when, Packet::Move(i));
        }
        if has_restarts {
            for _ in 0..2 {
                let when = ms(run.net.rng.below(1_800_000));
                run.net.put(when, Packet::Restart);
            }
        }
        run
    }

    fn arrives(&mut self, now: Instant, packet: Packet, counts: &mut Counts) {
        match packet {
            Packet::Request(i, from, bytes) => {
                counts.datagrams += 1;
                let answer = self.service.answer(&bytes, from, now);
                counts.refused += u64::from(code_of(&answer) != 200);
                assert_ne!(code_of(&answer), 400, "seed {}", self.seed);
                let bytes = answer.into_bytes();
                let packet = || Packet::Answer(i, bytes.clone());
                self.net.carry(now, false, &bytes, packet);
                // Unknown clients send requests in between.
                let stranger = (self.net.rng.next() as u32).to_be_bytes();
                let stranger = SocketAddr::from((stranger, self.net.rng.next() as u16));
                let id = TransactionId::from([7; 12]);
                let page = Message::builder_request_with_id(BINDING, id, MessageWriteVec::new());
                let soon = now + Duration::from_millis(self.net.rng.below(50));
                self.net
                    .put(soon, Packet::Stranger(stranger, page.finish()));
            }
            Packet::Stranger(from, bytes) => {
                assert_eq!(code_of(&self.service.answer(&bytes, from, now)), 401);
            }
            Packet::Answer(i, bytes) => {
                let _ = self.clients[i].receive(&bytes, at(SERVER), now);
                self.wake[i] = now;
            }
            Packet::Begin(i) => {
                let request = binding(&mut self.clients[i], now);
                self.begun.insert((i, request), now);
                self.wake[i] = now;
            }
            Packet::Restart => {
                self.secret += 1;
                self.service = Service::new(self.secret, self.offered);
            }
            Packet::Move(i) => self.addresses[i].set_port(2000),
        }
    }

    /// Makes a client do what is due.
    fn acts(&mut self, i: usize, now: Instant, counts: &mut Counts) {
        loop {
            match self.clients[i].poll(now) {
                Output::Transmit { bytes, .. } => {
                    let (bytes, from) = (bytes.to_vec(), self.addresses[i]);
                    let packet = || Packet::Request(i, from, bytes.clone());
                    self.net.carry(now, true, &bytes, packet);
                }
                Output::Ended(request, result) => {
                    let begun = self.begun.remove(&(i, request)).expect("it ends once");
                    match result {
                        Ok(response) => assert_eq!(response.signed_by(), Some(self.best[i])),
                        Err(error) => panic!("seed {}: {error}", self.seed),
                    }
                    counts.slowest = counts.slowest.max(now.duration_since(begun));
                    counts.served += 1;
                    self.left -= 1;
                }
                Output::Wait(until) => {
                    self.wake[i] = until.unwrap_or(Instant::MAX);
                    return;
                }
                other => panic!("{other:?}"),
            }
        }
    }

    fn run(mut self, counts: &mut Counts) {
        while self.left > 0 {
            let wake = *self.wake.iter().min().unwrap();
            let arrival = self.net.packets.first_key_value().map(|(key, _)| key.0);
            let now = arrival.map_or(wake, |arrival| arrival.min(wake));
            assert!(now < Instant::MAX, "seed {}: nothing is due", self.seed);
            while let Some(first) = self.net.packets.first_entry() {
                if first.key().0 > now {
                    break;
                }
                let packet = first.remove();
                self.arrives(now, packet, counts);
            }
            for i in 0..CLIENTS {
                if self.wake[i] <= now {
                    self.acts(i, now, counts);
                }
            }
        }
    }
}

#[test]
fn honest_clients_are_served() {
    let seeds = times("SEEDS", 50);
    let mut counts = Counts::default();
    (0..seeds).for_each(|seed| Run::new(seed).run(&mut counts));
    println!("{seeds} seeds: {counts:?}");
}
