//! Tests of the core of `examples/turn_server` with a simulated clock and an endpoint in front, and
//! with ports that are only numbers.

#[path = "../examples/turn_server/relay.rs"]
#[allow(dead_code, reason = "some of it is for TCP clients and for the command line")]
mod relay;

use relay::*;
use seatcrane_stun::Instant;
use seatcrane_stun::endpoint::*;
use seatcrane_stun::extra::attribute::*;
use seatcrane_stun::extra::turn::TurnMethod::{self, Allocate, ChannelBind, CreatePermission};
use seatcrane_stun::extra::turn::TurnMethod::{Refresh, Send};
use seatcrane_stun::types::message::*;
use seatcrane_stun::types::prelude::*;
use std::collections::HashSet;
use std::net::SocketAddr;
use std::time::Duration;

/// Opens ports in ascending order. Those in `busy` cannot be opened.
#[derive(Default)]
struct Counted {
    open: HashSet<SocketAddr>,
    busy: HashSet<u16>,
    next: u16,
    most: usize,
}

impl Ports for Counted {
    type Socket = ();

    fn open(&mut self, is_ipv6: bool, port: Port) -> Option<(SocketAddr, ())> {
        let port = match port {
            Port::Exactly(port) => port,
            Port::Any => self.next,
            Port::Even => self.next.next_multiple_of(2),
        };
        self.next = self.next.max(port + 1);
        let ip = if is_ipv6 { "2a00::1" } else { "5.5.5.5" };
        let address = SocketAddr::new(ip.parse().unwrap(), port);
        let is_free = !self.busy.contains(&port) && self.open.len() < self.most;
        (is_free && self.open.insert(address)).then_some((address, ()))
    }

    fn close(&mut self, address: SocketAddr, _: ()) {
        assert!(self.open.remove(&address), "closed twice");
    }

    fn token(&mut self) -> [u8; 8] {
        u64::from(self.next).to_be_bytes()
    }
}

struct Bench {
    server: Server,
    users: Users,
    relay: Relay<Counted>,
    now: Instant,
    seed: u8,
    /// The last request that was accepted.
    last: Vec<u8>,
}

fn at(text: &str) -> SocketAddr {
    text.parse().unwrap()
}

fn link(number: u16) -> Link {
    Link {
        over: Over::Udp(0),
        client: SocketAddr::new(at("9.9.9.9:1").ip(), 1000 + number),
    }
}

fn body() -> Body {
    Body::new()
}

fn udp() -> Body {
    body().add(&RequestedTransport::new(17)).unwrap()
}

fn to(peer: &str) -> Body {
    body().add_xor_peer_address(at(peer)).unwrap()
}

fn channel(number: u16, peer: &str) -> Body {
    // A number that CHANNEL-NUMBER does not allow is written too.
    let raw = [number.to_be_bytes(), [0, 0]].concat();
    to(peer)
        .add(&RawAttribute::new(AttributeType::CHANNEL_NUMBER, &raw))
        .unwrap()
}

impl Bench {
    fn new() -> Bench {
        Bench::with(false)
    }

    /// Creates a bench. The names of its users expire if `has_expiry` is true.
    fn with(has_expiry: bool) -> Bench {
        let server = Server::builder(LongTerm::new("r", [1; 32])).understands(&understood());
        let server = server.build().unwrap();
        let mut users = server.users();
        for name in ["alice", "bob"] {
            users
                .add(LongTermCredentials::new(name.into(), "w".into()))
                .unwrap();
        }
        let settings = Settings {
            allocations: 8,
            allocations_of_a_user: 4,
            has_expiry,
            peers: 3,
            last_channel: 0x4FFF,
            families: [true, true],
            own: vec![at("5.5.5.5:1").ip(), at("[2a00::1]:1").ip()],
            allowed: vec![network("10.1.0.0/16").unwrap()],
        };
        let ports = Counted {
            next: 50001,
            most: 100,
            ..Counted::default()
        };
        let relay = Relay::new(settings, ports);
        Bench {
            server,
            users,
            relay,
            now: Instant::ZERO,
            seed: 0,
            last: Vec::new(),
        }
    }

    fn pass(&mut self, seconds: u64) {
        self.now += Duration::from_secs(seconds);
    }

    fn receive(&mut self, link: Link, bytes: &[u8]) -> Vec<u8> {
        let time = UnixTime::from_secs(1_000_000);
        match self.server.receive(bytes, link.client, time, &self.users) {
            Received::Answer(answer) => answer.into_bytes(),
            Received::Request(request) => {
                self.last = bytes.to_vec();
                self.relay.request(link, &request, self.now).unwrap()
            }
            other => panic!("{other:?}"),
        }
    }

    /// Makes a request with the library's client, and returns the success, or the code of the
    /// error.
    fn ask(&mut self, of: (&str, u16), method: TurnMethod, body: Body) -> Result<Response, u16> {
        self.seed += 1;
        let user = Credentials::long_term(of.0, "w");
        let server = at("5.5.5.5:3478");
        let client = Client::builder(server)
            .credentials(user)
            .understands(&understood());
        let mut client = client.build([self.seed; 32]).unwrap();
        let mut now = self.now;
        client.request(method.method(), body, now).unwrap();
        loop {
            match client.poll(now) {
                Output::Transmit { bytes, .. } => {
                    let bytes = bytes.to_vec();
                    let answer = self.receive(link(of.1), &bytes);
                    let _ = client.receive(&answer, server, now);
                }
                // The client believes a refusal of its user only after a retransmission.
                Output::Wait(Some(until)) => now = until,
                Output::Ended(_, Ok(response)) => return Ok(response),
                Output::Ended(_, Err(RequestError::Refused(error))) => return Err(error.code()),
                Output::Ended(_, Err(RequestError::Unauthorized)) => return Err(401),
                other => panic!("{other:?}"),
            }
        }
    }

    fn code(&mut self, of: (&str, u16), method: TurnMethod, body: Body) -> u16 {
        self.ask(of, method, body).err().unwrap_or(0)
    }

    /// Allocates for alice at this client, and returns the relayed address.
    fn allocate(&mut self, number: u16) -> SocketAddr {
        relayed(&self.ask(("alice", number), Allocate, udp()).unwrap())
    }

    fn sent_by_peer(&self, relayed: SocketAddr, peer: &str, data: &[u8]) -> Option<Vec<u8>> {
        let mut room = Vec::new();
        match self
            .relay
            .datagram(relayed, at(peer), data, self.now, &mut room)?
        {
            Out::ToClient(_, bytes) => Some(bytes.to_vec()),
            Out::ToPeer(..) => panic!("to a peer"),
        }
    }

    /// Sends data by an indication, and returns to which peer it goes.
    fn send(&self, number: u16, peer: &str) -> Option<SocketAddr> {
        let mut page = Message::builder_indication(Send.method(), MessageWriteVec::new());
        page.add_attribute(&XorPeerAddress::new(at(peer), page.transaction_id()))
            .unwrap();
        page.add_attribute(&Data::new(b"data")).unwrap();
        let (bytes, mut room) = (page.finish(), Vec::new());
        let message = Message::from_bytes(&bytes).unwrap();
        match self
            .relay
            .indication(link(number), &message, self.now, &mut room)?
        {
            Out::ToPeer((), peer, b"data") => Some(peer),
            Out::ToClient(link, _) => Some(link.client),
            Out::ToPeer(..) => panic!("other data"),
        }
    }

    fn on_channel(&self, number: u16, frame: &[u8]) -> Option<(SocketAddr, Vec<u8>)> {
        let mut room = Vec::new();
        match self
            .relay
            .channel_data(link(number), frame, self.now, &mut room)?
        {
            Out::ToPeer((), peer, data) => Some((peer, data.to_vec())),
            Out::ToClient(link, data) => Some((link.client, data.to_vec())),
        }
    }
}

fn relayed(response: &Response) -> SocketAddr {
    let message = response.message();
    let address = message.attribute::<XorRelayedAddress>().unwrap();
    address.addr(message.transaction_id())
}

fn lifetime(response: &Response) -> u32 {
    response
        .message()
        .attribute::<Lifetime>()
        .unwrap()
        .seconds()
}

const ALICE: (&str, u16) = ("alice", 1);

#[test]
fn allocates_once() {
    let mut bench = Bench::new();
    let first = bench.ask(ALICE, Allocate, udp()).unwrap();
    assert_eq!(
        (relayed(&first), lifetime(&first)),
        (at("5.5.5.5:50001"), 600)
    );
    assert_eq!(first.message().xor_mapped_address(), Ok(link(1).client));
    bench.pass(7);
    let again = bench.receive(link(1), &bench.last.clone());
    assert_eq!(again, first.clone().into_bytes()); // repeated
    assert_eq!(bench.code(ALICE, Allocate, udp()), 437);
    assert_eq!(bench.relay.ports.open.len(), 1);
    assert_eq!(bench.code(("bob", 1), Refresh, body()), 441);
    assert_eq!(
        bench.code(("bob", 1), CreatePermission, to("8.8.8.8:1")),
        441
    );
    assert_eq!(
        bench.code(("bob", 1), ChannelBind, channel(0x4000, "8.8.8.8:1")),
        441
    );
    for method in [Refresh, CreatePermission, ChannelBind] {
        assert_eq!(
            bench.code(("bob", 2), method, channel(0x4000, "8.8.8.8:1")),
            437
        );
    }
}

#[test]
fn refuses_what_it_cannot_allocate() {
    let mut bench = Bench::new();
    let family = |family| RequestedAddressFamily::new(family);
    let more = AdditionalAddressFamily::new;
    let token = ReservationToken::new([0; 8]);
    let (v4, v6) = (AddressFamily::Ipv4, AddressFamily::Ipv6);
    let both = udp().add(&family(v6)).unwrap().add(&more(v6)).unwrap();
    let unknown = RawAttribute::new(AttributeType::REQUESTED_ADDRESS_FAMILY, &[3, 0, 0, 0]);
    let cases = [
        (body(), 400),
        (body().add(&RequestedTransport::new(6)).unwrap(), 442),
        (udp().add(&DontFragment).unwrap(), 420),
        (udp().add(&unknown).unwrap(), 440),
        (both, 400),
        (udp().add(&more(v4)).unwrap(), 400),
        (
            udp()
                .add(&more(v6))
                .unwrap()
                .add(&EvenPort::new(true))
                .unwrap(),
            400,
        ),
        (
            udp()
                .add(&token)
                .unwrap()
                .add(&EvenPort::new(false))
                .unwrap(),
            400,
        ),
        (udp().add(&token).unwrap().add(&family(v4)).unwrap(), 400),
        (udp().add(&token).unwrap(), 508),
    ];
    for (body, code) in cases {
        assert_eq!(bench.code(ALICE, Allocate, body), code);
    }
    assert!(bench.relay.ports.open.is_empty());
}

#[test]
fn limits_each_user_and_all() {
    let mut bench = Bench::new();
    (0..4).for_each(|number| _ = bench.allocate(number));
    assert_eq!(bench.code(("alice", 9), Allocate, udp()), 486);
    assert_eq!(bench.code(("bob", 9), Allocate, udp()), 0);
    assert_eq!(
        bench.code(
            ("alice", 0),
            Refresh,
            body().add(&Lifetime::new(0)).unwrap()
        ),
        0
    );
    assert_eq!(
        bench.code(
            ("alice", 0),
            Refresh,
            body().add(&Lifetime::new(0)).unwrap()
        ),
        0
    );
    assert_eq!(bench.code(("alice", 0), Refresh, body()), 437);
    assert_eq!(bench.code(("alice", 9), Refresh, body()), 441);
    assert_eq!(bench.code(("alice", 10), Allocate, udp()), 0);
    bench.relay.ports.most = 5;
    assert_eq!(bench.code(("bob", 11), Allocate, udp()), 508);
    bench.relay.ports.most = 100;
    (11..14).for_each(|number| _ = bench.code(("bob", number), Allocate, udp()));
    assert_eq!(bench.relay.ports.open.len(), 8);
    assert_eq!(bench.code(("carol", 20), Allocate, udp()), 401);
}

#[test]
fn lifetimes_are_clamped_and_expire() {
    let mut bench = Bench::new();
    let asked = |seconds| udp().add(&Lifetime::new(seconds)).unwrap();
    let first = bench.ask(("alice", 1), Allocate, asked(5)).unwrap();
    let second = bench.ask(("alice", 2), Allocate, asked(777)).unwrap();
    let third = bench.ask(("alice", 3), Allocate, asked(99999)).unwrap();
    assert_eq!(
        [lifetime(&first), lifetime(&second), lifetime(&third)],
        [600, 777, 3600]
    );
    assert_eq!(
        bench.relay.expire(bench.now),
        Some(Instant::ZERO + Duration::from_secs(600))
    );
    bench.pass(600);
    assert_eq!(bench.code(("alice", 1), Refresh, body()), 437); // before it is removed
    assert_eq!(bench.relay.ports.open.len(), 2);
    assert_eq!(
        lifetime(&bench.ask(("alice", 2), Refresh, body()).unwrap()),
        600
    );
    bench.pass(599);
    assert_eq!(
        bench.relay.expire(bench.now),
        Some(Instant::ZERO + Duration::from_secs(1200))
    );
    bench.pass(1);
    bench.relay.expire(bench.now);
    assert_eq!(bench.relay.ports.open.len(), 1);
    bench.pass(2400);
    assert_eq!(bench.relay.expire(bench.now), None);
    assert!(bench.relay.ports.open.is_empty());
    bench.allocate(1); // and alice's count is 0
}

#[test]
fn permissions_are_of_an_address_for_five_minutes() {
    let mut bench = Bench::new();
    let at_relay = bench.allocate(1);
    assert_eq!(bench.send(1, "8.8.8.8:1"), None);
    assert_eq!(bench.sent_by_peer(at_relay, "8.8.8.8:1", b"data"), None);
    assert_eq!(bench.code(ALICE, CreatePermission, body()), 400);
    let two = to("8.8.8.8:1")
        .add_xor_peer_address(at("127.0.0.1:1"))
        .unwrap();
    assert_eq!(bench.code(ALICE, CreatePermission, two), 403);
    assert_eq!(bench.send(1, "8.8.8.8:1"), None); // all or none
    let two = to("8.8.8.8:1")
        .add_xor_peer_address(at("8.8.4.4:1"))
        .unwrap();
    assert_eq!(bench.code(ALICE, CreatePermission, two), 0);
    assert_eq!(bench.send(1, "8.8.8.8:99"), Some(at("8.8.8.8:99"))); // any port
    let data = bench.sent_by_peer(at_relay, "8.8.4.4:7", b"data").unwrap();
    let data = Message::from_bytes(&data).unwrap();
    let peer = data
        .attribute::<XorPeerAddress>()
        .unwrap()
        .addr(data.transaction_id());
    assert_eq!(
        (peer, data.attribute::<Data>().unwrap().data()),
        (at("8.8.4.4:7"), &b"data"[..])
    );
    let one = to("8.8.1.1:1"); // two ports of a host count once
    let one = one.add_xor_peer_address(at("8.8.1.1:2")).unwrap();
    assert_eq!(bench.code(ALICE, CreatePermission, one), 0);
    assert_eq!(bench.code(ALICE, CreatePermission, to("8.8.2.2:1")), 508);
    bench.pass(299);
    assert_eq!(bench.send(1, "8.8.8.8:1"), Some(at("8.8.8.8:1")));
    assert_eq!(bench.code(ALICE, CreatePermission, to("8.8.8.8:1")), 0); // refreshed
    bench.pass(1);
    assert_eq!(bench.send(1, "8.8.4.4:1"), None);
    assert_eq!(bench.send(1, "8.8.8.8:1"), Some(at("8.8.8.8:1")));
    assert_eq!(bench.code(ALICE, CreatePermission, to("8.8.2.2:1")), 0); // there is room again
}

#[test]
fn denied_peers() {
    let mut bench = Bench::new();
    let dual = udp()
        .add(&AdditionalAddressFamily::new(AddressFamily::Ipv6))
        .unwrap();
    assert_eq!(bench.code(ALICE, Allocate, dual), 0);
    let denied = [
        "127.0.0.1:1",
        "10.0.0.1:1",
        "10.2.0.1:1",
        "192.168.9.9:1",
        "172.31.255.255:1",
        "169.254.169.254:80",
        "100.64.0.1:1",
        "0.0.0.0:1",
        "224.0.0.1:1",
        "255.255.255.255:1",
        "[::1]:1",
        "[::]:1",
        "[::ffff:127.0.0.1]:1",
        "[::ffff:10.0.0.1]:1",
        "[fe80::1]:1",
        "[fd00::1]:1",
        "[ff02::1]:1",
        "[64:ff9b::7f00:1]:1",
        "[2002:7f00:1::]:1",
        "[::7f00:1]:1",
    ];
    for peer in denied {
        assert_eq!(bench.code(ALICE, CreatePermission, to(peer)), 403, "{peer}");
        assert_eq!(
            bench.code(ALICE, ChannelBind, channel(0x4000, peer)),
            403,
            "{peer}"
        );
    }
    for peer in ["8.8.8.8:1", "10.1.2.3:1", "[2a00::2]:1"] {
        assert_eq!(bench.code(ALICE, CreatePermission, to(peer)), 0, "{peer}");
    }
    bench.allocate(2);
    assert_eq!(
        bench.code(("alice", 2), CreatePermission, to("[2a00::2]:1")),
        443
    );
}

#[test]
fn channels() {
    let mut bench = Bench::new();
    let at_relay = bench.allocate(1);
    for number in [0x3FFF, 0x5000, 0x7FFE, 0xFFFF] {
        assert_eq!(
            bench.code(ALICE, ChannelBind, channel(number, "8.8.8.8:1")),
            400
        );
    }
    assert_eq!(bench.code(ALICE, ChannelBind, to("8.8.8.8:1")), 400);
    assert_eq!(
        bench.code(ALICE, ChannelBind, channel(0x4FFF, "8.8.8.8:1")),
        0
    );
    assert_eq!(
        bench.code(ALICE, ChannelBind, channel(0x4FFF, "8.8.8.8:2")),
        400
    );
    assert_eq!(
        bench.code(ALICE, ChannelBind, channel(0x4000, "8.8.8.8:1")),
        400
    );
    assert_eq!(
        bench.code(ALICE, ChannelBind, channel(0x4000, "8.8.8.8:2")),
        0
    );
    let frame = b"\x4F\xFF\0\x03abc\0"; // padded
    assert_eq!(
        bench.on_channel(1, frame),
        Some((at("8.8.8.8:1"), b"abc".to_vec()))
    );
    assert_eq!(
        bench.on_channel(1, b"\x4F\xFF\0\0"),
        Some((at("8.8.8.8:1"), vec![]))
    );
    for bad in [
        &b"\x4F\xFF\0\x04abc"[..],
        b"\x4F\xFF\0",
        b"\x40\x01\0\x01a",
        b"",
        b"\x40",
    ] {
        assert_eq!(bench.on_channel(1, bad), None);
    }
    assert_eq!(
        bench.sent_by_peer(at_relay, "8.8.8.8:1", b"abc").unwrap(),
        b"\x4F\xFF\0\x03abc"
    );
    assert_eq!(
        bench.sent_by_peer(at_relay, "8.8.8.8:3", b"abc").unwrap()[..2],
        [0, 0x17]
    );
    bench.pass(299);
    assert_eq!(
        bench.code(ALICE, ChannelBind, channel(0x4FFF, "8.8.8.8:1")),
        0
    ); // refreshed
    bench.pass(299);
    assert_eq!(
        bench.on_channel(1, frame),
        Some((at("8.8.8.8:1"), b"abc".to_vec()))
    );
    bench.pass(1); // the permission is over, and the channel is not
    assert_eq!(bench.on_channel(1, frame), None);
    assert_eq!(bench.code(ALICE, Refresh, body()), 0);
    assert_eq!(bench.code(ALICE, CreatePermission, to("8.8.8.8:1")), 0);
    assert_eq!(
        bench.on_channel(1, frame),
        Some((at("8.8.8.8:1"), b"abc".to_vec()))
    );
    bench.pass(200);
    assert_eq!(bench.code(ALICE, CreatePermission, to("8.8.8.8:1")), 0);
    bench.pass(100);
    assert_eq!(bench.on_channel(1, frame), None); // 600 s after it was refreshed
    assert_eq!(
        bench.sent_by_peer(at_relay, "8.8.8.8:1", b"abc").unwrap()[..2],
        [0, 0x17]
    );
    assert_eq!(
        bench.code(ALICE, ChannelBind, channel(0x4FFF, "8.8.8.8:9")),
        0
    );
}

#[test]
fn relays_between_its_own_clients() {
    let mut bench = Bench::new();
    let (one, two) = (bench.allocate(1), bench.allocate(2));
    let own = |address: SocketAddr| to(&address.to_string());
    assert_eq!(bench.code(ALICE, CreatePermission, own(two)), 0);
    assert_eq!(bench.send(1, &two.to_string()), None); // the other has no permission for it
    assert_eq!(bench.code(("alice", 2), CreatePermission, own(one)), 0);
    assert_eq!(bench.send(1, &two.to_string()), Some(link(2).client));
    assert_eq!(bench.send(1, "5.5.5.5:3478"), None); // no relayed address
    assert_eq!(bench.send(1, "5.5.5.5:22"), None);
}

#[test]
fn pairs_of_ports() {
    let mut bench = Bench::new();
    bench.relay.ports.busy = HashSet::from([50003]);
    let even = udp().add(&EvenPort::new(false)).unwrap();
    let first = relayed(&bench.ask(ALICE, Allocate, even).unwrap());
    assert_eq!(first.port(), 50002);
    let both = udp().add(&EvenPort::new(true)).unwrap();
    let response = bench.ask(("alice", 2), Allocate, both.clone()).unwrap();
    assert_eq!(relayed(&response).port(), 50004);
    let token = *response
        .message()
        .attribute::<ReservationToken>()
        .unwrap()
        .token();
    let with = |token| udp().add(&ReservationToken::new(token)).unwrap();
    assert_eq!(bench.code(("bob", 3), Allocate, with(token)), 508); // of another user
    let second = bench.ask(("alice", 3), Allocate, with(token)).unwrap();
    assert_eq!(relayed(&second).port(), 50005);
    assert_eq!(bench.code(("alice", 4), Allocate, with(token)), 508); // once
    assert_eq!(bench.code(("alice", 4), Allocate, both.clone()), 486); // a pair counts as two
    let response = bench.ask(("bob", 5), Allocate, both).unwrap();
    let token = *response
        .message()
        .attribute::<ReservationToken>()
        .unwrap()
        .token();
    bench.pass(30);
    assert_eq!(bench.code(("bob", 6), Allocate, with(token)), 508);
    assert_eq!(bench.relay.ports.open.len(), 5);
    bench.relay.expire(bench.now);
    assert_eq!(bench.relay.ports.open.len(), 4);
}

#[test]
fn two_families() {
    let mut bench = Bench::new();
    let dual = || {
        udp()
            .add(&AdditionalAddressFamily::new(AddressFamily::Ipv6))
            .unwrap()
    };
    let response = bench.ask(ALICE, Allocate, dual()).unwrap();
    let message = response.message();
    let kind = AttributeType::XOR_RELAYED_ADDRESS;
    let count = message
        .iter_attributes()
        .filter(|(_, raw)| raw.get_type() == kind)
        .count();
    assert_eq!((count, bench.relay.ports.open.len()), (2, 2));
    let of = |family| body().add(&RequestedAddressFamily::new(family)).unwrap();
    let zero = |family| of(family).add(&Lifetime::new(0)).unwrap();
    assert_eq!(bench.code(ALICE, Refresh, zero(AddressFamily::Ipv4)), 0);
    assert_eq!(bench.relay.ports.open.len(), 1);
    assert_eq!(bench.code(ALICE, Refresh, of(AddressFamily::Ipv4)), 443);
    assert_eq!(bench.code(ALICE, Refresh, of(AddressFamily::Ipv6)), 0);
    assert_eq!(bench.code(ALICE, Refresh, zero(AddressFamily::Ipv6)), 0);
    assert!(bench.relay.ports.open.is_empty());
    bench.relay.ports.most = 1;
    let response = bench.ask(ALICE, Allocate, dual()).unwrap();
    let error = response.message();
    let error = error.attribute::<AddressErrorCode>().unwrap();
    assert_eq!((error.family(), error.code()), (AddressFamily::Ipv6, 508));
}

#[test]
fn names_that_expire_are_counted_together() {
    for (has_expiry, code) in [(false, 0), (true, 486)] {
        let mut bench = Bench::with(has_expiry);
        for (number, name) in (0..).zip(["1:eve", "2:eve", "3:eve", "4:eve", "5:eve"]) {
            let user = LongTermCredentials::new(name.into(), "w".into());
            bench.users.add(user).unwrap();
            let expected = if number == 4 { code } else { 0 };
            assert_eq!(bench.code((name, number), Allocate, udp()), expected);
        }
    }
}

#[test]
fn ends_with_its_connection() {
    let mut bench = Bench::new();
    bench.allocate(1);
    bench.relay.remove(link(1));
    bench.relay.remove(link(1));
    assert!(bench.relay.ports.open.is_empty() && !bench.relay.has(link(1)));
}
