//! A table that limits how many addresses a server stores, in total and of each network. If the
//! table is full, a new address replaces the address that was silent for longest, preferably one
//! that was never validated. So nobody is shut out.

use std::collections::{BTreeMap, HashMap};
use std::net::{IpAddr, Ipv6Addr, SocketAddr};

/// A network is an IPv4 address or an IPv6 /64. It has at most one of this many equal shares of the
/// places. If it has used up its share, a new address of the network replaces another address of
/// the network.
pub const SHARES: usize = 16;

/// Whether an address was validated (`Client`) or not (`Stranger`). Strangers are replaced first.
#[derive(Clone, Copy, PartialEq, Eq, PartialOrd, Ord)]
enum Kind {
    Stranger,
    Client,
}

/// The addresses among which a new address replaces another: those of a network, or all (`None`).
type Crowd = Option<IpAddr>;

pub struct Places {
    number: usize,
    turn: u64,
    /// The addresses that have a place, with the turn at which each was last heard.
    places: HashMap<SocketAddr, (Kind, u64)>,
    /// The addresses of each crowd: strangers first, and each kind in the order of their turns.
    order: BTreeMap<(Crowd, Kind, u64), SocketAddr>,
    /// The numbers of strangers and of clients in each crowd that has any.
    numbers: HashMap<Crowd, [usize; 2]>,
}

/// Returns the crowds of an address: all addresses, and those of its network.
fn crowds_of(at: SocketAddr) -> [Crowd; 2] {
    let network = match at.ip() {
        IpAddr::V6(six) => Ipv6Addr::from_bits(six.to_bits() >> 64 << 64).into(),
        four => four,
    };
    [None, Some(network)]
}

impl Places {
    /// Creates a table for this many addresses, which must be at least `SHARES`.
    pub fn new(number: usize) -> Places {
        Places {
            number,
            turn: 0,
            places: HashMap::new(),
            order: BTreeMap::new(),
            numbers: HashMap::new(),
        }
    }

    fn most_of(&self, crowd: Crowd) -> usize {
        crowd.map_or(self.number, |_| self.number / SHARES)
    }

    fn numbers_of(&self, crowd: Crowd) -> [usize; 2] {
        self.numbers.get(&crowd).copied().unwrap_or([0, 0])
    }

    /// Returns the address of a crowd that was silent for longest, among those of this kind or, if
    /// there are none, of the kinds after it.
    fn oldest(&self, crowd: Crowd, kind: Kind) -> Option<SocketAddr> {
        let (place, at) = self.order.range((crowd, kind, 0)..).next()?;
        (place.0 == crowd).then_some(*at)
    }

    fn leave(&mut self, at: SocketAddr) -> Option<Kind> {
        let (kind, turn) = self.places.remove(&at)?;
        for crowd in crowds_of(at) {
            self.order.remove(&(crowd, kind, turn));
            let numbers = self.numbers.entry(crowd).or_default();
            numbers[kind as usize] -= 1;
            if *numbers == [0, 0] {
                self.numbers.remove(&crowd);
            }
        }
        Some(kind)
    }

    /// Gives an address a place, as the one of its kind that was heard last.
    fn join(&mut self, at: SocketAddr, kind: Kind) {
        self.turn += 1;
        self.places.insert(at, (kind, self.turn));
        for crowd in crowds_of(at) {
            self.order.insert((crowd, kind, self.turn), at);
            self.numbers.entry(crowd).or_default()[kind as usize] += 1;
        }
    }

    /// Gives an address a place, unless it has one already. Returns the address that lost its place
    /// for it, if there is one: the stranger that was silent for longest or, if there are no
    /// strangers, the client that was.
    pub fn take(&mut self, from: SocketAddr) -> Option<SocketAddr> {
        if let Some(kind) = self.leave(from) {
            self.join(from, kind);
            return None;
        }
        let [all, network] = crowds_of(from);
        let is_full = |crowd: &Crowd| {
            let [strangers, clients] = self.numbers_of(*crowd);
            strangers + clients >= self.most_of(*crowd)
        };
        let full = [network, all].into_iter().find(is_full);
        let gone = full.and_then(|crowd| self.oldest(crowd, Kind::Stranger));
        if let Some(gone) = gone {
            self.leave(gone);
        }
        self.join(from, Kind::Stranger);
        gone
    }

    /// Records that an address was validated. Clients have at most three quarters of all places,
    /// and of the places of their network. If there are more clients, the one that was silent for
    /// longest becomes a stranger.
    pub fn keep(&mut self, at: SocketAddr) {
        let is_stranger = |(kind, _): &(Kind, u64)| *kind == Kind::Stranger;
        if !self.places.get(&at).is_some_and(is_stranger) {
            return;
        }
        self.leave(at);
        self.join(at, Kind::Client);
        for crowd in crowds_of(at) {
            let ([_, clients], most) = (self.numbers_of(crowd), self.most_of(crowd));
            let oldest = self.oldest(crowd, Kind::Client);
            if let Some(other) = oldest.filter(|_| clients > most - most / 4) {
                self.leave(other);
                self.join(other, Kind::Stranger);
            }
        }
    }
}
