//! Candidates: their priorities, and their lines in SDP.

use alloc::string::{String, ToString};
use alloc::vec::Vec;
use core::fmt;
use core::net::{IpAddr, Ipv4Addr, SocketAddr};
use core::str::{FromStr, SplitAsciiWhitespace};

/// The largest priority (RFC 8839, section 5.1).
const LARGEST: u32 = (1 << 31) - 1;

/// The largest number of a component (RFC 8839, section 5.1).
const LAST_COMPONENT: u16 = 256;

/// How a candidate was found.
///
/// # Examples
///
/// ```
/// use seatcrane_stun::endpoint::ice::CandidateKind;
///
/// assert_eq!(CandidateKind::ServerReflexive.name(), "srflx");
/// ```
#[derive(Clone, Copy, Debug, PartialEq, Eq, Hash)]
#[non_exhaustive]
pub enum CandidateKind {
    /// The address of a socket.
    Host,
    /// The address that the peer saw a check come from.
    PeerReflexive,
    /// The address that a STUN server saw a request come from.
    ServerReflexive,
    /// An address that a TURN server has allocated.
    Relayed,
}

impl CandidateKind {
    const ALL: [CandidateKind; 4] = [
        CandidateKind::Host,
        CandidateKind::PeerReflexive,
        CandidateKind::ServerReflexive,
        CandidateKind::Relayed,
    ];

    /// Returns the type preference that RFC 8445, section 5.1.2.2, recommends: 126, 110, 100 or 0.
    #[must_use]
    pub fn preference(self) -> u8 {
        match self {
            CandidateKind::Host => 126,
            CandidateKind::PeerReflexive => 110,
            CandidateKind::ServerReflexive => 100,
            CandidateKind::Relayed => 0,
        }
    }

    /// Returns the word for this kind in SDP: `host`, `prflx`, `srflx` or `relay`.
    #[must_use]
    pub fn name(self) -> &'static str {
        match self {
            CandidateKind::Host => "host",
            CandidateKind::PeerReflexive => "prflx",
            CandidateKind::ServerReflexive => "srflx",
            CandidateKind::Relayed => "relay",
        }
    }
}

/// Returns the priority of a candidate (RFC 8445, section 5.1.2.1).
///
/// `preference` ranks the addresses of this side: use 65535 for the best address, or for the only
/// address. `component` is the number of the component, from 1 to 256; a larger number counts as
/// 256\. This function is tested, and not proved.
///
/// # Examples
///
/// ```
/// use seatcrane_stun::endpoint::ice::{CandidateKind, priority};
///
/// assert_eq!(priority(CandidateKind::Host, 65535, 1), 2_130_706_431);
/// // The value of PRIORITY in a check that is sent from the same address:
/// assert_eq!(priority(CandidateKind::PeerReflexive, 65535, 1), 1_862_270_975);
/// ```
#[must_use]
pub fn priority(kind: CandidateKind, preference: u16, component: u16) -> u32 {
    (u32::from(kind.preference()) << 24)
        + (u32::from(preference) << 8)
        + u32::from(LAST_COMPONENT.saturating_sub(component))
}

/// Returns the priority of a pair (RFC 8445, section 6.1.2.3), which is the same number at both
/// agents. `controlling` is the priority of the controlling agent's candidate, and `controlled` is
/// the priority of the controlled agent's candidate. A priority above 2147483647, which no
/// candidate may have, counts as 2147483647. This function is tested, and not proved.
///
/// # Examples
///
/// ```
/// use seatcrane_stun::endpoint::ice::pair_priority;
///
/// assert_eq!(pair_priority(3, 2), (2 << 32) + 2 * 3 + 1);
/// assert_eq!(pair_priority(2, 3), (2 << 32) + 2 * 3);
/// ```
#[must_use]
pub fn pair_priority(controlling: u32, controlled: u32) -> u64 {
    let (one, other) = (controlling.min(LARGEST), controlled.min(LARGEST));
    (u64::from(one.min(other)) << 32) + 2 * u64::from(one.max(other)) + u64::from(one > other)
}

/// A candidate over UDP, as in SDP (RFC 8839, section 5.1).
///
/// `FromStr` parses the value of an `a=candidate` line, with or without `a=` in front. In browsers,
/// `RTCIceCandidate.candidate` has this value. `Display` writes the value without `a=`, always in
/// one line: the texts of a candidate are checked when the candidate is made, so that none of them
/// adds a word or a line of SDP. The extensions, whatever their names are, are stored and written
/// too; a name at the end of the line that has no value is ignored. Parsing and writing are tested,
/// and not proved.
///
/// # Examples
///
/// ```
/// use seatcrane_stun::endpoint::ice::{Candidate, CandidateKind};
///
/// let line = "candidate:1 1 udp 1694498815 203.0.113.9 4242 typ srflx \
///             raddr 10.0.0.1 rport 5000";
/// let candidate: Candidate = line.parse()?;
/// assert_eq!(candidate.kind, CandidateKind::ServerReflexive);
/// assert_eq!(candidate.address, "203.0.113.9:4242".parse()?);
/// assert_eq!(candidate.to_string(), line);
/// # Ok::<(), Box<dyn std::error::Error>>(())
/// ```
///
/// A browser adds extensions. One of them, `ufrag`, names the session to which the candidate
/// belongs:
///
/// ```
/// use seatcrane_stun::endpoint::ice::Candidate;
///
/// let line = "candidate:1 1 udp 2113937151 192.0.2.1 5000 typ host \
///             generation 0 ufrag h6vY network-cost 999";
/// let candidate: Candidate = line.parse()?;
/// assert_eq!(candidate.extension("ufrag"), Some("h6vY"));
/// assert_eq!(candidate.to_string(), line);
/// # Ok::<(), seatcrane_stun::endpoint::ice::CandidateError>(())
/// ```
#[derive(Clone, Debug, PartialEq, Eq, Hash)]
pub struct Candidate {
    /// How the candidate was found.
    pub kind: CandidateKind,
    foundation: String,
    /// The number of the component, from 1 to 256.
    pub component: u16,
    /// The [`priority`].
    pub priority: u32,
    /// The address to which the peer sends checks.
    pub address: SocketAddr,
    /// The base of a reflexive candidate, or the mapped address of a relayed candidate.
    pub related: Option<SocketAddr>,
    extensions: Vec<(String, String)>,
}

impl Candidate {
    /// Returns a candidate without a related address and without extensions. The foundation has to
    /// be equal for candidates of the same kind, base and server (RFC 8445, section 5.1.1.3).
    ///
    /// # Errors
    ///
    /// Returns the first of these errors that applies:
    ///
    /// - [`CandidateError::Foundation`]: the foundation does not have 1 to 32 letters, digits, `+`
    ///   and `/`.
    /// - [`CandidateError::Component`]: the component is not a number from 1 to 256.
    /// - [`CandidateError::Priority`]: the priority is not a number from 1 to 2147483647.
    ///
    /// # Examples
    ///
    /// ```
    /// use seatcrane_stun::endpoint::ice::{Candidate, CandidateError, CandidateKind, priority};
    ///
    /// let (kind, address) = (CandidateKind::Host, "192.0.2.1:5000".parse().unwrap());
    /// let candidate = Candidate::new(kind, "1", 1, priority(kind, 65535, 1), address)?;
    /// let line = "candidate:1 1 udp 2130706431 192.0.2.1 5000 typ host";
    /// assert_eq!(candidate.to_string(), line);
    ///
    /// let forged = Candidate::new(kind, "1\r\na=evil", 1, 1, address);
    /// assert_eq!(forged, Err(CandidateError::Foundation));
    /// # Ok::<(), CandidateError>(())
    /// ```
    pub fn new(
        kind: CandidateKind,
        foundation: impl Into<String>,
        component: u16,
        priority: u32,
        address: SocketAddr,
    ) -> Result<Candidate, CandidateError> {
        let foundation = foundation.into();
        if !is_foundation(&foundation) {
            return Err(CandidateError::Foundation);
        }
        if !(1..=LAST_COMPONENT).contains(&component) {
            return Err(CandidateError::Component);
        }
        if !(1..=LARGEST).contains(&priority) {
            return Err(CandidateError::Priority);
        }
        Ok(Candidate {
            kind,
            foundation,
            component,
            priority,
            address,
            related: None,
            extensions: Vec::new(),
        })
    }

    /// Returns the foundation, which is equal for candidates of the same kind, base and server (RFC
    /// 8445, section 5.1.1.3).
    #[must_use]
    pub fn foundation(&self) -> &str {
        &self.foundation
    }

    /// Returns the names and the values at the end of the line, in their order.
    #[must_use]
    pub fn extensions(&self) -> &[(String, String)] {
        &self.extensions
    }

    /// Returns the value of the first extension with this name, or `None` if the candidate has no
    /// such extension. `ufrag` has the username fragment of the agent that the candidate belongs
    /// to, which distinguishes a candidate of a restarted session from a candidate of the session
    /// before (RFC 8840).
    #[must_use]
    pub fn extension(&self, name: &str) -> Option<&str> {
        let mut extensions = self.extensions.iter();
        let (_, value) = extensions.find(|(other, _)| other == name)?;
        Some(value)
    }

    /// Adds an extension to the end of the line.
    ///
    /// # Errors
    ///
    /// Returns [`CandidateError::Extension`] if the name or the value is empty, or has a blank, a
    /// line break or another control character. The candidate is then unchanged.
    ///
    /// # Examples
    ///
    /// ```
    /// use seatcrane_stun::endpoint::ice::{Candidate, CandidateError};
    ///
    /// let line = "candidate:1 1 udp 2113937151 192.0.2.1 5000 typ host";
    /// let mut candidate: Candidate = line.parse()?;
    /// candidate.add_extension("ufrag", "h6vY")?;
    /// assert_eq!(candidate.to_string(), format!("{line} ufrag h6vY"));
    /// # Ok::<(), CandidateError>(())
    /// ```
    pub fn add_extension(
        &mut self,
        name: impl Into<String>,
        value: impl Into<String>,
    ) -> Result<(), CandidateError> {
        let (name, value) = (name.into(), value.into());
        if !is_word(&name) || !is_word(&value) {
            return Err(CandidateError::Extension);
        }
        self.extensions.push((name, value));
        Ok(())
    }

    /// Writes the line with this text in place of the IP address.
    fn write_at(&self, f: &mut fmt::Formatter<'_>, host: &dyn fmt::Display) -> fmt::Result {
        let (foundation, component) = (&self.foundation, self.component);
        let (priority, port, kind) = (self.priority, self.address.port(), self.kind.name());
        write!(
            f,
            "candidate:{foundation} {component} udp {priority} {host} {port} typ {kind}"
        )?;
        if let Some(at) = self.related {
            write!(f, " raddr {} rport {}", at.ip(), at.port())?;
        }
        for (name, value) in &self.extensions {
            write!(f, " {name} {value}")?;
        }
        Ok(())
    }
}

impl fmt::Display for Candidate {
    fn fmt(&self, f: &mut fmt::Formatter<'_>) -> fmt::Result {
        self.write_at(f, &self.address.ip())
    }
}

/// A candidate of a browser that hides its address: the line has a name that ends with `.local` in
/// place of an IP address. An agent ignores such a candidate (RFC 8839, section 5.1), unless it can
/// look the name up by multicast DNS (RFC 6762). After the lookup, [`at`](Self::at) returns the
/// candidate to check.
///
/// `FromStr` and `Display` read and write the line as for [`Candidate`].
///
/// # Examples
///
/// ```
/// use seatcrane_stun::endpoint::ice::{Candidate, CandidateError, MdnsCandidate};
/// use std::net::IpAddr;
///
/// /// Reads a line of the peer. `look_up` asks for a name by multicast DNS.
/// fn read(
///     line: &str,
///     look_up: impl Fn(&str) -> Option<IpAddr>,
/// ) -> Result<Option<Candidate>, CandidateError> {
///     match line.parse::<Candidate>() {
///         Err(CandidateError::Mdns) => {
///             let hidden: MdnsCandidate = line.parse()?;
///             Ok(look_up(hidden.name()).map(|ip| hidden.at(ip)))
///         }
///         read => read.map(Some),
///     }
/// }
///
/// let line = "candidate:1 1 udp 2113937151 8f2d7e1c-1234.local 5000 typ host";
/// let found = read(line, |_| Some("192.0.2.1".parse().unwrap()))?;
/// assert_eq!(found.unwrap().address, "192.0.2.1:5000".parse().unwrap());
/// # Ok::<(), CandidateError>(())
/// ```
#[derive(Clone, Debug, PartialEq, Eq, Hash)]
pub struct MdnsCandidate {
    name: String,
    /// The candidate, with an address of which only the port is known.
    candidate: Candidate,
}

impl MdnsCandidate {
    /// Returns the name, which ends with `.local`.
    #[must_use]
    pub fn name(&self) -> &str {
        &self.name
    }

    /// Returns the port.
    #[must_use]
    pub fn port(&self) -> u16 {
        self.candidate.address.port()
    }

    /// Returns the candidate with the IP address that the name stands for.
    #[must_use]
    pub fn at(&self, ip: IpAddr) -> Candidate {
        let address = SocketAddr::new(ip, self.port());
        Candidate {
            address,
            ..self.candidate.clone()
        }
    }
}

impl fmt::Display for MdnsCandidate {
    fn fmt(&self, f: &mut fmt::Formatter<'_>) -> fmt::Result {
        self.candidate.write_at(f, &self.name)
    }
}

/// Why a line is not a candidate that can be used, or a candidate cannot be made.
///
/// # Examples
///
/// ```
/// use seatcrane_stun::endpoint::ice::{Candidate, CandidateError};
///
/// let active = "candidate:1 1 tcp 1 192.0.2.1 9 typ host tcptype active";
/// assert_eq!(active.parse::<Candidate>(), Err(CandidateError::Transport));
/// ```
#[derive(Clone, Copy, Debug, PartialEq, Eq, Hash)]
#[non_exhaustive]
pub enum CandidateError {
    /// The line does not begin with `candidate:` and the eight words of a candidate.
    NotCandidate,
    /// The transport is not UDP.
    Transport,
    /// The foundation does not have 1 to 32 letters, digits, `+` and `/`.
    Foundation,
    /// The component is not a number from 1 to 256.
    Component,
    /// The priority is not a number from 1 to 2147483647.
    Priority,
    /// The word after `typ` is not the name of a [`CandidateKind`].
    Kind,
    /// The name or the value of an extension is empty, or has a blank, a line break or another
    /// control character.
    Extension,
    /// The address is not an IP address with a port or, if the line is parsed as an
    /// [`MdnsCandidate`], is not a name that ends with `.local` with a port.
    Address,
    /// The address is a name that ends with `.local`, with which browsers hide addresses. If you
    /// can look the name up, parse the line as an [`MdnsCandidate`], which it is.
    Mdns,
}

impl fmt::Display for CandidateError {
    fn fmt(&self, f: &mut fmt::Formatter<'_>) -> fmt::Result {
        f.write_str(match self {
            CandidateError::NotCandidate => "the line is not a candidate",
            CandidateError::Transport => "the transport is not UDP",
            CandidateError::Foundation => "the foundation is not 1 to 32 letters, digits, + and /",
            CandidateError::Component => "the component is not a number from 1 to 256",
            CandidateError::Priority => "the priority is not a number from 1 to 2147483647",
            CandidateError::Kind => "the type is not host, prflx, srflx or relay",
            CandidateError::Extension => "an extension is empty, or has a blank or a line break",
            CandidateError::Address => "the address cannot be used",
            CandidateError::Mdns => "the address is a name that ends with .local",
        })
    }
}

impl core::error::Error for CandidateError {}

/// Parses a number without a sign.
fn number<T: FromStr>(word: &str) -> Option<T> {
    let digits = Some(word).filter(|word| word.bytes().all(|byte| byte.is_ascii_digit()));
    digits?.parse().ok()
}

fn address(ip: &str, port: &str) -> Option<SocketAddr> {
    let ip: IpAddr = ip.parse().ok()?;
    Some(SocketAddr::new(ip, number(port)?))
}

/// Returns `true` if a text may be a foundation.
fn is_foundation(text: &str) -> bool {
    let is_of_ice = |byte: u8| byte.is_ascii_alphanumeric() || byte == b'+' || byte == b'/';
    (1..=32).contains(&text.len()) && text.bytes().all(is_of_ice)
}

/// Returns `true` if a text is one word of a line.
fn is_word(text: &str) -> bool {
    let is_in_no_word = |letter: char| letter.is_whitespace() || letter.is_control();
    !text.is_empty() && !text.contains(is_in_no_word)
}

/// Returns `true` if a text is a name of multicast DNS: labels of letters, digits and hyphens, and
/// `local` after them (RFC 6762, section 3).
fn is_mdns_name(text: &str) -> bool {
    let is_label = |label: &str| {
        let is_in_label = |byte: u8| byte.is_ascii_alphanumeric() || byte == b'-';
        (1..=63).contains(&label.len()) && label.bytes().all(is_in_label)
    };
    let Some((labels, last)) = text.rsplit_once('.') else {
        return false;
    };
    text.len() <= 253 && last.eq_ignore_ascii_case("local") && labels.split('.').all(is_label)
}

/// Parses a line except for its address: returns the candidate with an unspecified address, and the
/// words for the address and the port.
fn parse(line: &str) -> Result<(Candidate, &str, &str), CandidateError> {
    let line = line.strip_prefix("a=").unwrap_or(line);
    let line = line.strip_prefix("candidate:");
    let mut words = line
        .ok_or(CandidateError::NotCandidate)?
        .split_ascii_whitespace();
    let mut word = || words.next().ok_or(CandidateError::NotCandidate);
    let (foundation, component, transport) = (word()?, word()?, word()?);
    let (priority, host, port, typ, kind) = (word()?, word()?, word()?, word()?, word()?);
    if typ != "typ" {
        return Err(CandidateError::NotCandidate);
    }
    if !transport.eq_ignore_ascii_case("udp") {
        return Err(CandidateError::Transport);
    }
    // `new` refuses 0, which is no component and no priority.
    let (component, priority) = (number(component), number(priority));
    let mut kinds = CandidateKind::ALL.into_iter();
    let mut candidate = Candidate::new(
        kinds
            .find(|one| one.name() == kind)
            .ok_or(CandidateError::Kind)?,
        foundation,
        component.unwrap_or(0),
        priority.unwrap_or(0),
        SocketAddr::from((Ipv4Addr::UNSPECIFIED, 0)),
    )?;
    candidate.related = take_related(&mut words);
    while let (Some(name), Some(value)) = (words.next(), words.next()) {
        candidate.add_extension(name, value)?;
    }
    Ok((candidate, host, port))
}

/// Takes the related address, which comes before the extensions, if the words begin with it.
/// Returns it if it is an IP address with a port.
fn take_related(words: &mut SplitAsciiWhitespace<'_>) -> Option<SocketAddr> {
    let mut rest = words.clone();
    match [rest.next(), rest.next(), rest.next(), rest.next()] {
        [Some("raddr"), Some(ip), Some("rport"), Some(port)] => {
            *words = rest;
            address(ip, port)
        }
        _ => None,
    }
}

impl FromStr for Candidate {
    type Err = CandidateError;

    fn from_str(line: &str) -> Result<Candidate, CandidateError> {
        let (candidate, host, port) = parse(line)?;
        match address(host, port) {
            Some(address) => Ok(Candidate {
                address,
                ..candidate
            }),
            None if is_mdns_name(host) && number::<u16>(port).is_some() => {
                Err(CandidateError::Mdns)
            }
            None => Err(CandidateError::Address),
        }
    }
}

impl FromStr for MdnsCandidate {
    type Err = CandidateError;

    fn from_str(line: &str) -> Result<MdnsCandidate, CandidateError> {
        let (mut candidate, host, port) = parse(line)?;
        match number(port) {
            Some(port) if is_mdns_name(host) => {
                candidate.address.set_port(port);
                let name = host.to_string();
                Ok(MdnsCandidate { name, candidate })
            }
            _ => Err(CandidateError::Address),
        }
    }
}
