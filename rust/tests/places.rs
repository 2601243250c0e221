//! Compares the table of addresses of a server without `endpoint` with a plain list: each time the
//! same address loses its place in both.

#[path = "../bench/endpoint_cost/places.rs"]
mod places;

use places::{Places, SHARES};
use std::net::{IpAddr, SocketAddr};

/// The addresses that have a place, and whether each is a client's. The address that was silent for
/// longest is first.
struct List {
    number: usize,
    list: Vec<(SocketAddr, bool)>,
}

fn network(at: SocketAddr) -> Vec<u8> {
    match at.ip() {
        IpAddr::V4(four) => four.octets().to_vec(),
        IpAddr::V6(six) => six.octets()[..8].to_vec(),
    }
}

impl List {
    /// Returns the clients, or the others, among the addresses of a network or among all.
    fn those(&self, near: Option<SocketAddr>, is_client: bool) -> Vec<SocketAddr> {
        let near = near.map(network);
        let is_of = |at: SocketAddr| near.as_ref().is_none_or(|near| network(at) == *near);
        let found = self.list.iter().filter(|one| one.1 == is_client);
        found.map(|one| one.0).filter(|at| is_of(*at)).collect()
    }

    /// Moves an address to the end of the list.
    fn put(&mut self, at: SocketAddr, is_client: bool) {
        self.list.retain(|one| one.0 != at);
        self.list.push((at, is_client));
    }

    fn take(&mut self, from: SocketAddr) -> Option<SocketAddr> {
        if let Some(one) = self.list.iter().copied().find(|one| one.0 == from) {
            self.put(from, one.1);
            return None;
        }
        let full = |near, most| {
            let (strangers, clients) = (self.those(near, false), self.those(near, true));
            let all = [strangers, clients].concat();
            all.first().copied().filter(|_| all.len() >= most)
        };
        let share = full(Some(from), self.number / SHARES);
        let gone = share.or_else(|| full(None, self.number));
        self.list.retain(|one| Some(one.0) != gone);
        self.put(from, false);
        gone
    }

    fn keep(&mut self, at: SocketAddr) {
        if self.those(None, true).contains(&at) {
            return;
        }
        self.put(at, true);
        for (near, most) in [(None, self.number), (Some(at), self.number / SHARES)] {
            let clients = self.those(near, true);
            if clients.len() > most - most / 4 {
                self.put(clients[0], false);
            }
        }
    }
}

/// Pseudo-random numbers, the same in each run.
struct Numbers(u64);

impl Numbers {
    fn below(&mut self, bound: u64) -> u64 {
        self.0 = self
            .0
            .wrapping_mul(6364136223846793005)
            .wrapping_add(1442695040888963407);
        (self.0 >> 33) % bound
    }

    /// Returns one of the few ports and hosts in sixty networks.
    fn address(&mut self) -> SocketAddr {
        let (port, network, host) = (self.below(6), self.below(30), self.below(3));
        let text = match self.below(2) {
            0 => format!("192.0.2.{network}:{port}"),
            _ => format!("[2001:db8:0:{network:x}::{host}]:{port}"),
        };
        text.parse().unwrap()
    }
}

#[test]
fn the_same_place_is_given_up_as_a_list_has_it() {
    for number in [16, 33, 64] {
        let (mut places, mut numbers) = (Places::new(number), Numbers(number as u64));
        let mut list = List {
            number,
            list: Vec::new(),
        };
        for step in 0..5_000 {
            let from = numbers.address();
            assert_eq!(
                places.take(from),
                list.take(from),
                "at step {step} of {number} places"
            );
            if numbers.below(3) == 0 {
                places.keep(from);
                list.keep(from);
            }
        }
    }
}
