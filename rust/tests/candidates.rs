//! Tests of candidates, and of their lines in SDP (RFC 8839, section 5.1).

use seatcrane_stun::endpoint::ice::CandidateError::*;
use seatcrane_stun::endpoint::ice::{Candidate, CandidateKind, MdnsCandidate, priority};
use std::net::IpAddr;

fn read(line: &str) -> Candidate {
    line.parse().unwrap()
}

#[test]
fn candidates_are_read_and_written() {
    for line in [
        "candidate:1 1 udp 2130706431 192.0.2.1 5000 typ host",
        "candidate:a+/9 2 udp 1 2001:db8::1 1 typ prflx raddr :: rport 0",
        "candidate:842163049 1 udp 1677729535 203.0.113.9 4242 typ srflx raddr 0.0.0.0 rport 0",
        "candidate:3 256 udp 16777215 198.51.100.7 60000 typ relay raddr 203.0.113.9 rport 4242",
    ] {
        let mut candidate = read(line);
        assert_eq!(candidate.to_string(), line);
        assert_eq!(candidate.extension("ufrag"), None);
        let further = format!("a={line} generation 0 ufrag evtj network-cost 999");
        let told = read(&further.replace(" udp ", " UDP "));
        assert_eq!(told.extension("ufrag"), Some("evtj"));
        assert_eq!(told.extension("network-cost"), Some("999"));
        assert_eq!(told.extension("evtj"), None);
        assert_eq!(told.to_string(), further[2..]);
        for (name, value) in told.extensions() {
            candidate.add_extension(name, value).unwrap();
        }
        assert_eq!(candidate, told);
    }
    // A related address that is not an IP address is ignored, and so is a name without a value.
    let line = "candidate:1 1 udp 1 192.0.2.1 5 typ relay raddr a.local rport 9 ufrag x y";
    let told = read(line);
    assert_eq!((told.related, told.extension("ufrag")), (None, Some("x")));
    assert_eq!(told.extensions().len(), 1);
}

#[test]
fn lines_that_are_no_candidates_are_refused() {
    for (line, why) in [
        ("candidat:1 1 udp 1 192.0.2.1 5000 typ host", NotCandidate),
        ("candidate:1 1 udp 1 192.0.2.1 5000 typ", NotCandidate),
        ("candidate:1 1 udp 1 192.0.2.1 5000 type host", NotCandidate),
        ("candidate:- 1 udp 1 192.0.2.1 5000 typ host", Foundation),
        ("candidate:1 1 tcp 1 192.0.2.1 9 typ host tcptype active", Transport),
        ("candidate:1 0 udp 1 192.0.2.1 5000 typ host", Component),
        ("candidate:1 257 udp 1 192.0.2.1 5000 typ host", Component),
        ("candidate:1 +1 udp 1 192.0.2.1 5000 typ host", Component),
        ("candidate:1 1 udp 0 192.0.2.1 5000 typ host", Priority),
        ("candidate:1 1 udp 2147483648 192.0.2.1 5000 typ host", Priority),
        ("candidate:1 1 udp +1 192.0.2.1 5000 typ host", Priority),
        ("candidate:1 1 udp 1 192.0.2.1 5000 typ other", Kind),
        ("candidate:1 1 udp 1 192.0.2.1 5000 typ host ufrag \u{7}", Extension),
        ("candidate:1 1 udp 1 192.0.2.1 65536 typ host", Address),
        ("candidate:1 1 udp 1 a.example 5000 typ host", Address),
        ("candidate:1 1 udp 1 a.local 5000 typ host", Mdns),
        ("candidate:1 1 udp 1 a.local 65536 typ host", Address),
    ] {
        assert_eq!(line.parse::<Candidate>(), Err(why), "{line}");
    }
}

#[test]
fn no_text_adds_a_word_or_a_line() {
    let (kind, address) = (CandidateKind::Host, "192.0.2.1:5000".parse().unwrap());
    let new = |foundation: &str| Candidate::new(kind, foundation, 1, 1, address);
    let long = "a".repeat(33);
    for foundation in ["", "a b", "a\r\na=evil", "a\tb", "é", &long] {
        assert_eq!(new(foundation), Err(Foundation), "{foundation:?}");
    }
    let mut candidate = new(&long[1..]).unwrap();
    let before = candidate.clone();
    for text in ["", " ", "a b", "a\r\na=evil", "\n", "a\u{85}b", "a\u{2028}b", "a\0b"] {
        assert_eq!(candidate.add_extension(text, "x"), Err(Extension), "{text:?}");
        assert_eq!(candidate.add_extension("x", text), Err(Extension), "{text:?}");
        assert_eq!(candidate, before);
    }
    candidate.add_extension("ufrag", "h6vY").unwrap();
    assert_eq!(read(&candidate.to_string()), candidate);
    for component in [0, 257] {
        assert_eq!(Candidate::new(kind, "1", component, 1, address), Err(Component));
    }
    for ranked in [0, 1 << 31] {
        assert_eq!(Candidate::new(kind, "1", 1, ranked, address), Err(Priority));
    }
}

#[test]
fn a_component_is_at_most_256() {
    let first = priority(CandidateKind::Host, 65535, 1);
    let last = priority(CandidateKind::Host, 65535, 256);
    assert_eq!((first - last, last & 0xff), (255, 0)); // 256 - component (RFC 8445, 5.1.2.1)
    assert_eq!(priority(CandidateKind::Host, 65535, 257), last);
}

#[test]
fn a_hidden_address_is_looked_up() {
    let line = "candidate:7 2 udp 9 8f2d7e1c-1234.local 5000 typ host generation 0 ufrag h6vY";
    let hidden: MdnsCandidate = format!("a={line}").parse().unwrap();
    assert_eq!((hidden.name(), hidden.port()), ("8f2d7e1c-1234.local", 5000));
    assert_eq!(hidden.to_string(), line);
    for ip in ["192.0.2.1", "2001:db8::1"] {
        let seen = line.replace(hidden.name(), ip);
        let ip: IpAddr = ip.parse().unwrap();
        assert_eq!(hidden.at(ip), read(&seen));
    }
    for (host, port) in [
        ("192.0.2.1", "5000"),
        ("a.local.example", "5000"),
        (".local", "5000"),
        ("local", "5000"),
        ("a..local", "5000"),
        ("a_b.local", "5000"),
        ("a.local", "-1"),
    ] {
        let line = format!("candidate:1 1 udp 1 {host} {port} typ host");
        assert_eq!(line.parse::<MdnsCandidate>(), Err(Address), "{line}");
    }
}
