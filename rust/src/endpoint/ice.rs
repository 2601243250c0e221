//! Connectivity checks of ICE: one check and its answer, in both roles (RFC 8445, sections 7.2 and
//! 7.3).
//!
//! A [`Checker`] has the credentials of one agent, the credentials of its peer once they are known,
//! the tie-breaker and the role. It writes checks, judges and answers the checks of the peer, and
//! judges the answers to its own checks. [`Checks`] is a `Checker` with the timers of its checks.
//! The candidates, the pairs, and the order and pacing of checks are up to you. [`priority`],
//! [`pair_priority`], [`Candidate`] (which reads and writes lines of SDP) and [`Consent`] help you
//! with these.
//!
//! `docs/ICE.md` of the repository is a guide to writing an agent, step by step, with restarts and
//! consent. The example `ice_agent` of this crate (`examples/ice_agent`) is a whole agent for one
//! component over UDP, whose core owns no socket, and `examples/ice_check.rs` checks one pair.
//!
//! # Examples
//!
//! Two agents, of which one sends a check and the other answers it:
//!
//! ```
//! use seatcrane_stun::endpoint::ice::{Checker, Judged, Outcome, Received, Role};
//! use seatcrane_stun::types::message::TransactionId;
//!
//! // What each side tells the other over signalling. Make both texts of random
//! // characters.
//! let left = ("evtj", "asd88fgpdd777uzjYhagZg");
//! let right = ("h6vY", "VOkJxbRl1RmTxUk/WvJxBt");
//! let mut here = Checker::new(left, right, 0x0123_4567_89ab_cdef, Role::Controlling)?;
//! let mut there = Checker::new(right, left, 0xfedc_ba98_7654_3210, Role::Controlled)?;
//!
//! let id = TransactionId::from([7; 12]); // must be random: `TransactionId::generate`
//! let check = here.check(id, "198.51.100.7:3478".parse()?, 0x6e00_01ff, true)?;
//!
//! // At the other side, where a translator has changed the source address:
//! let seen = "203.0.113.9:4242".parse()?;
//! let received = there.receive(check.bytes(), seen, None);
//! let Received::Check { answer, judged, .. } = received else {
//!     panic!("no check")
//! };
//! assert_eq!(
//!     judged,
//!     Judged::Accepted { priority: 0x6e00_01ff, nominated: true, switched: false }
//! );
//!
//! // Back here, the answer is judged with the check that has its transaction ID.
//! let received = here.receive(&answer, check.to(), Some(&check));
//! assert!(matches!(
//!     received,
//!     Received::Response(Outcome::Valid { mapped }) if mapped == seen
//! ));
//! # Ok::<(), Box<dyn std::error::Error>>(())
//! ```
//!
//! # Checks that arrive before the answer
//!
//! The agent that makes an offer often receives checks before the answer to the offer, because the
//! checks travel directly, and the answer does not. It has to answer these checks at once (RFC
//! 8445, section 7.3), and it can do so, because an answer depends only on its own credentials.
//! [`Checker::offer`] creates such an agent, and [`Checker::set_remote`] gives it the credentials
//! of the peer when the answer has arrived:
//!
//! ```
//! use seatcrane_stun::endpoint::ice::{
//!     CheckError, Checker, Judged, Received, Role,
//! };
//! use seatcrane_stun::types::message::TransactionId;
//!
//! let (ours, theirs) =
//!     (("evtj", "asd88fgpdd777uzjYhagZg"), ("h6vY", "VOkJxbRl1RmTxUk/WvJxBt"));
//! let mut here = Checker::offer(ours, 0x0123_4567_89ab_cdef, Role::Controlling)?;
//! let there =
//!     Checker::new(theirs, ours, 0xfedc_ba98_7654_3210, Role::Controlled)?;
//!
//! // The peer has the offer, and checks.
//! let (id, to) = (TransactionId::from([7; 12]), "192.0.2.1:5000".parse()?);
//! let check = there.check(id, to, 0x6e00_01ff, false)?;
//! let seen = "203.0.113.9:4242".parse()?;
//! match here.receive(check.bytes(), seen, None) {
//!     Received::Check { fragment, judged: Judged::Accepted { .. }, .. } => {
//!         // who answers the offer: send the answer
//!         assert_eq!(fragment, Some(&b"h6vY"[..]))
//!     }
//!     other => panic!("{other:?}"),
//! }
//!
//! // This side cannot check yet.
//! assert_eq!(here.check(id, seen, 1, false).err(), Some(CheckError::NoRemote));
//! here.set_remote(theirs)?; // the answer has arrived
//! assert!(here.check(id, seen, 1, false).is_ok());
//! # Ok::<(), Box<dyn std::error::Error>>(())
//! ```
//!
//! # Restarts
//!
//! A restart is a new session with new credentials (RFC 8445, section 9): create a new `Checker`,
//! and use the old one until a pair of the new session is selected. Both `Checker`s receive on the
//! same sockets. A check belongs to the `Checker` whose username fragment begins the USERNAME, and
//! the other `Checker` would answer it with a 401. So pass a datagram to the new `Checker` first,
//! and to the old `Checker` if the new one returns
//! [`Judged::Refused`]`(`[`Refusal::Unauthenticated`]`)`; then send only the answer of the old
//! `Checker`. A response belongs to the `Checker` that wrote the check. If you use [`Checks`], it
//! belongs to the `Checks` that does not drop it as [`DropReason::NotAsked`]. The role and the
//! tie-breaker stay the same: create the new `Checker` with [`Checker::role`] and
//! [`Checker::tie_breaker`] of the old one.
//!
//! # In a program
//!
//! [`Checks`] retransmits each check until it ends, and reports exactly once how it ended:
//!
//! ```no_run
//! use seatcrane_stun::Instant;
//! use seatcrane_stun::endpoint::ice::{Checks, ChecksInput, ChecksOutput, Judged};
//! use std::io;
//! use std::net::{SocketAddr, UdpSocket};
//!
//! /// Sends the checks that are due, and returns when there is more to do.
//! fn send(
//!     checks: &mut Checks,
//!     socket: &UdpSocket,
//!     now: Instant,
//! ) -> io::Result<Option<Instant>> {
//!     loop {
//!         match checks.poll(now) {
//!             ChecksOutput::Transmit { to, bytes, .. } => {
//!                 socket.send_to(bytes, to)?;
//!             }
//!             ChecksOutput::TimedOut { check, .. } => println!("{} fails", check.to()),
//!             ChecksOutput::Wait(until) => return Ok(until),
//!             _ => {}
//!         }
//!     }
//! }
//!
//! /// Reads a datagram that arrived at an address of this agent.
//! fn read(
//!     checks: &mut Checks,
//!     (socket, at): (&UdpSocket, SocketAddr),
//!     now: Instant,
//! ) -> io::Result<()> {
//!     let mut datagram = [0; 1500];
//!     let (length, from) = socket.recv_from(&mut datagram)?;
//!     match checks.receive(&datagram[..length], at, from, now) {
//!         ChecksInput::Check { answer, judged, .. } => {
//!             socket.send_to(&answer, from)?;
//!             if let Judged::Accepted { .. } = judged {
//!                 // have the pair checked next, by `checks.start` (RFC 8445, section
//!                 // 7.3.1.4)
//!             }
//!         }
//!         ChecksInput::Ended(ended) => {
//!             println!("{}: {}", ended.check.to(), ended.outcome);
//!         }
//!         _ => {} // an indication, or dropped
//!     }
//!     Ok(())
//! }
//! ```
//!
//! A program with timers of its own uses a `Checker`. The program stores each check with its pair,
//! and retransmits the check until it ends. It passes each datagram to [`Checker::receive`],
//! together with the stored check that has the transaction ID of the datagram, if that check was
//! sent from the address that the datagram arrived at.

use super::server::lent;
use crate::copies::copy;
use crate::exported::stun_base::attribute_type::AttributeType;
use crate::exported::stun_ice::{check, checker, received};
use crate::extra::finish_with_fingerprint;
use crate::kit::alloc::{AllocError, Global};
use crate::kit::prelude::Vec as KitVec;
use crate::message::Message;
use crate::trace::{event, record};
use crate::transaction::TransactionId;
use crate::types::message::{BINDING, StunWriteError};
use crate::types::attribute::RawAttribute;
use crate::write::{MessageWriteExt, MessageWriteVec};
use alloc::vec::Vec;
use core::fmt;
use core::net::SocketAddr;

mod candidate;
mod checks;
mod consent;

pub use crate::exported::stun_ice::checker::{BuildError, CheckError};
pub use crate::exported::stun_ice::received::{Judged, Refusal};
pub use crate::exported::stun_ice::role::Role;
pub use candidate::{
    Candidate, CandidateError, CandidateKind, MdnsCandidate, pair_priority, priority,
};
pub use checks::{Checks, ChecksInput, ChecksOutput, EndedCheck, NewCheck, NewCheckError};
pub use consent::{Consent, ConsentStep};

/// USE-CANDIDATE, ICE-CONTROLLED and ICE-CONTROLLING, which the agent itself writes into a check.
const OWN: [AttributeType; 3] =
    [AttributeType(0x0025), AttributeType(0x8029), AttributeType(0x802a)];

/// The username fragment and the password of one side (RFC 8445, section 5.3). A tuple of the
/// fragment and the password, in this order, converts into it.
///
/// # Examples
///
/// ```
/// use seatcrane_stun::endpoint::ice::{Checker, IceCredentials, Role};
///
/// let local = IceCredentials { fragment: "evtj", password: "asd88fgpdd777uzjYhagZg" };
/// let remote = IceCredentials { fragment: "h6vY", password: "VOkJxbRl1RmTxUk/WvJxBt" };
/// # let tie_breaker = 5; // yours must be random
/// let checker = Checker::new(local, remote, tie_breaker, Role::Controlling)?;
/// assert_eq!(format!("{local:?}"), "IceCredentials { fragment: \"evtj\", .. }");
/// # Ok::<(), seatcrane_stun::endpoint::ice::BuildError>(())
/// ```
#[derive(Clone, Copy, PartialEq, Eq, Hash)]
pub struct IceCredentials<'a> {
    /// The username fragment: 4 to 256 bytes, without a colon.
    pub fragment: &'a str,
    /// The password: 22 to 256 bytes.
    pub password: &'a str,
}

impl<'a> IceCredentials<'a> {
    fn core(self) -> checker::Credentials<'a> {
        checker::Credentials {
            name: self.fragment,
            password: self.password,
        }
    }
}

/// Shows the fragment, but not the password.
impl fmt::Debug for IceCredentials<'_> {
    fn fmt(&self, f: &mut fmt::Formatter<'_>) -> fmt::Result {
        let mut shown = f.debug_struct("IceCredentials");
        shown
            .field("fragment", &self.fragment)
            .finish_non_exhaustive()
    }
}

impl<'a> From<(&'a str, &'a str)> for IceCredentials<'a> {
    fn from((fragment, password): (&'a str, &'a str)) -> IceCredentials<'a> {
        IceCredentials { fragment, password }
    }
}

/// One agent in a session with one peer: its own credentials, the credentials of the peer once they
/// are known, the tie-breaker, and the role that the agent has now.
///
/// The [module](self) has an example.
pub struct Checker(checker::Checker<Global>);

/// Shows the role, but not the passwords.
impl fmt::Debug for Checker {
    fn fmt(&self, f: &mut fmt::Formatter<'_>) -> fmt::Result {
        let mut shown = f.debug_struct("Checker");
        shown.field("role", &self.role()).finish_non_exhaustive()
    }
}

impl Checker {
    /// Creates an agent. `local` and `remote` are the username fragment and the password of each
    /// side, `tie_breaker` is a random number, and `role` is the role in which the agent begins. If
    /// the credentials of the peer are not known yet, use [`offer`](Self::offer).
    ///
    /// # Errors
    ///
    /// Returns the first of these errors that applies:
    ///
    /// - [`BuildError::NameLength`]: a username fragment has fewer than 4 or more than 256 bytes.
    /// - [`BuildError::ColonInName`]: a username fragment has a colon.
    /// - [`BuildError::PasswordLength`]: a password has fewer than 22 or more than 256 bytes.
    /// - [`BuildError::OutOfMemory`]: an allocation failed.
    pub fn new<'a>(
        local: impl Into<IceCredentials<'a>>,
        remote: impl Into<IceCredentials<'a>>,
        tie_breaker: u64,
        role: Role,
    ) -> Result<Checker, BuildError> {
        let (local, remote) = (local.into().core(), remote.into().core());
        checker::Checker::new(Global, local, remote, tie_breaker, role).map(Checker)
    }

    /// Creates an agent that does not know the credentials of its peer yet, because it makes the
    /// offer and the answer has not arrived. It answers the checks of the peer at once, but writes
    /// checks of its own only after you have called [`set_remote`](Self::set_remote). The
    /// [module](self) has an example.
    ///
    /// # Errors
    ///
    /// Returns the first of these errors that applies:
    ///
    /// - [`BuildError::NameLength`]: the username fragment has fewer than 4 or more than 256 bytes.
    /// - [`BuildError::ColonInName`]: the username fragment has a colon.
    /// - [`BuildError::PasswordLength`]: the password has fewer than 22 or more than 256 bytes.
    /// - [`BuildError::OutOfMemory`]: an allocation failed.
    pub fn offer<'a>(
        local: impl Into<IceCredentials<'a>>,
        tie_breaker: u64,
        role: Role,
    ) -> Result<Checker, BuildError> {
        checker::Checker::offer(Global, local.into().core(), tie_breaker, role).map(Checker)
    }

    /// Sets the credentials of the peer, or replaces them. If they are replaced, answers to checks
    /// that were written with the earlier credentials are dropped, so cancel those of these checks
    /// that are outstanding.
    ///
    /// # Errors
    ///
    /// Returns the first of these errors that applies. The agent is then unchanged.
    ///
    /// - [`BuildError::NameLength`]: the username fragment has fewer than 4 or more than 256 bytes.
    /// - [`BuildError::ColonInName`]: the username fragment has a colon.
    /// - [`BuildError::PasswordLength`]: the password has fewer than 22 or more than 256 bytes.
    /// - [`BuildError::OutOfMemory`]: an allocation failed.
    pub fn set_remote<'a>(
        &mut self,
        remote: impl Into<IceCredentials<'a>>,
    ) -> Result<(), BuildError> {
        self.0.set_remote(remote.into().core())
    }

    /// Returns `true` if the credentials of the peer are known, so that [`check`](Self::check) does
    /// not fail with [`CheckError::NoRemote`].
    #[must_use]
    pub fn has_remote(&self) -> bool {
        self.0.has_remote()
    }

    /// Returns the role that the agent has now.
    #[must_use]
    pub fn role(&self) -> Role {
        self.0.role()
    }

    /// Sets the role. Call it if the answer to an offer says that the peer is lite, because this
    /// agent then must have the controlling role (RFC 8445, section 6.1.1). Also call it to undo a
    /// switch of roles, if you cannot send the answer to the check that made the agent switch. Do
    /// not call it after a role conflict, because the agent switches by itself. An outstanding
    /// check still states the role in which it was written.
    pub fn set_role(&mut self, role: Role) {
        self.0.set_role(role);
    }

    /// Returns the tie-breaker.
    #[must_use]
    pub fn tie_breaker(&self) -> u64 {
        self.0.tie_breaker()
    }

    /// Replaces the tie-breaker. After [`Outcome::RoleConflict`] an agent must have a new random
    /// tie-breaker before its next check (RFC 8445, section 16.1).
    pub fn set_tie_breaker(&mut self, tie_breaker: u64) {
        self.0.set_tie_breaker(tie_breaker);
    }

    /// Writes a check. Send it to the address `to`, and retransmit it until its answer arrives (RFC
    /// 8445, section 7.2.4).
    ///
    /// The transaction ID must be random and new. If the peer learns a new peer-reflexive candidate
    /// from this check, the candidate has the priority `priority` (section 7.1.1). The check
    /// nominates its pair if `nominate` is true and this agent has the controlling role.
    ///
    /// # Errors
    ///
    /// - [`CheckError::NoRemote`]: the credentials of the peer, with which a check is signed, are
    ///   not known yet. Call [`set_remote`](Self::set_remote) when the answer arrives.
    /// - [`CheckError::OutOfMemory`]: an allocation failed.
    pub fn check(
        &self,
        id: TransactionId,
        to: SocketAddr,
        priority: u32,
        nominate: bool,
    ) -> Result<Check, CheckError> {
        let check = Check(self.0.check(id.0, to, priority, nominate)?);
        event!(%id, %to, nominates = check.nominates(), "wrote a check");
        Ok(check)
    }

    /// Writes a check like [`check`](Self::check), with further attributes before its signature.
    /// The peer refuses the check with a 420 if it does not know the type of one of these
    /// attributes, and this type is below 0x8000.
    ///
    /// # Errors
    ///
    /// Returns the first of these errors that applies:
    ///
    /// - [`NewCheckError::NoRemote`]: the credentials of the peer are not known yet.
    /// - [`NewCheckError::Attribute`]: one of the attributes cannot be added. The check has an
    ///   attribute of this type already, or would not fit into a message, or the attribute is an
    ///   integrity attribute or FINGERPRINT. Or it is USE-CANDIDATE, ICE-CONTROLLED or
    ///   ICE-CONTROLLING, which the arguments and the role of the agent decide.
    /// - [`NewCheckError::OutOfMemory`]: an allocation failed.
    ///
    /// # Examples
    ///
    /// The cost of the network, as libwebrtc sends it:
    ///
    /// ```
    /// use seatcrane_stun::endpoint::ice::{Check, Checker, NewCheckError};
    /// use seatcrane_stun::types::attribute::{AttributeType, RawAttribute};
    /// use seatcrane_stun::types::message::TransactionId;
    /// use std::net::SocketAddr;
    ///
    /// fn check(
    ///     checker: &Checker,
    ///     id: TransactionId,
    ///     to: SocketAddr,
    ///     (network, cost): (u16, u16),
    /// ) -> Result<Check, NewCheckError> {
    ///     let value = [network.to_be_bytes(), cost.to_be_bytes()].concat();
    ///     let network_cost = RawAttribute::new(AttributeType(0xc057), &value);
    ///     checker.check_with(id, to, 0x6e00_01ff, false, &[network_cost])
    /// }
    /// ```
    pub fn check_with(
        &self,
        id: TransactionId,
        to: SocketAddr,
        priority: u32,
        nominate: bool,
        attributes: &[RawAttribute<'_>],
    ) -> Result<Check, NewCheckError> {
        let page = self.0.begin_check(id.0, priority, nominate)?;
        let mut page = MessageWriteVec::of_core(page);
        for attribute in attributes {
            if OWN.contains(&attribute.get_type()) {
                return Err(NewCheckError::Attribute(StunWriteError::NotAllowed));
            }
            page.add_attribute(attribute)?;
        }
        let check = Check(self.0.finish_check(page.into_core(), id.0, to, nominate)?);
        event!(%id, %to, nominates = check.nominates(), "wrote a check");
        Ok(check)
    }

    /// Writes a Binding indication with FINGERPRINT, which keeps the path of a selected pair open
    /// (RFC 8445, section 11). It is not signed, and the peer does not answer it. An agent that
    /// asks for [`Consent`] needs no keepalives, because its checks keep the path open.
    ///
    /// # Examples
    ///
    /// ```
    /// use seatcrane_stun::endpoint::ice::Checker;
    /// use seatcrane_stun::types::message::{Message, TransactionId};
    ///
    /// let id = TransactionId::from([7; 12]); // must be random: `TransactionId::generate`
    /// let message = Checker::keepalive(id);
    /// assert_eq!(Message::from_bytes(&message)?.transaction_id(), id);
    /// # Ok::<(), seatcrane_stun::types::message::StunParseError>(())
    /// ```
    #[must_use]
    pub fn keepalive(id: TransactionId) -> Vec<u8> {
        let page = Message::builder_indication_with_id(BINDING, id, MessageWriteVec::new());
        // The message fits, because it has only a header and one attribute.
        finish_with_fingerprint(page).unwrap_or_default()
    }

    /// Judges a datagram, and writes the answer if the datagram is a check.
    ///
    /// `from` is the address that the datagram came from. `check` is the stored check that has the
    /// transaction ID of the datagram, or `None` if you have no such check. The two forms of an
    /// IPv4 address, `a.b.c.d` and `::ffff:a.b.c.d`, count as the same address.
    ///
    /// - Bytes that are not a message, messages without a valid FINGERPRINT, and methods other than
    ///   Binding are dropped.
    /// - A check is accepted if its USERNAME begins with the name of this agent and a colon, and it
    ///   is signed with the password of this agent. It must have PRIORITY, and no attribute that
    ///   must be understood but is not. If it states that the peer has the same role as this agent,
    ///   the agent with the larger tie-breaker gets the controlling role (RFC 8445, section
    ///   7.3.1.1). If the tie-breakers are equal, this agent gets it. If this agent does not have
    ///   the role that follows from this, it switches its role. Otherwise its answer is a 487,
    ///   which asks the peer to switch. The answer is the same whether or not the credentials of
    ///   the peer are known.
    /// - A response is dropped if it does not answer `check`, or is not signed by the peer.
    ///   Otherwise it ends the check. After a 487 this agent has the opposite of the role in which
    ///   the check was sent (section 7.2.5.1).
    /// - An indication is dropped if it has an attribute that must be understood but is not.
    pub fn receive<'a>(
        &mut self,
        bytes: &'a [u8],
        from: SocketAddr,
        check: Option<&Check>,
    ) -> Received<'a> {
        let mut buffer = KitVec::new(Global);
        let check = check.map(|check| &check.0);
        let received = self.0.receive_into(bytes, from, check, &mut buffer);
        let received = self.of_core(received, buffer.into_std());
        record!(bytes, from, received, || None);
        received
    }

    /// Judges a datagram like [`receive`](Self::receive), and writes the answer to a check into a
    /// buffer that you keep between datagrams, replacing its contents. The buffer is empty
    /// afterwards if there is no answer. Once the buffer is large enough, a check is judged and
    /// answered without an allocation.
    ///
    /// # Examples
    ///
    /// ```
    /// use seatcrane_stun::endpoint::ice::{Checker, Received};
    /// use std::net::UdpSocket;
    ///
    /// /// Answers the checks of the peer that are waiting.
    /// fn answer(checker: &mut Checker, socket: &UdpSocket) -> std::io::Result<()> {
    ///     let (mut datagram, mut buffer) = ([0; 2048], Vec::with_capacity(128));
    ///     while let Ok((length, from)) = socket.recv_from(&mut datagram) {
    ///         let received =
    ///             checker.receive_into(&datagram[..length], from, None, &mut buffer);
    ///         if let Received::Check { answer, .. } = received {
    ///             socket.send_to(answer, from)?;
    ///         }
    ///     }
    ///     Ok(())
    /// }
    /// ```
    pub fn receive_into<'a, 'b>(
        &mut self,
        bytes: &'a [u8],
        from: SocketAddr,
        check: Option<&Check>,
        buffer: &'b mut Vec<u8>,
    ) -> Received<'a, &'b [u8]> {
        let check = check.map(|check| &check.0);
        let received = lent(buffer, |buffer| {
            self.0.receive_into(bytes, from, check, buffer)
        });
        let received = self.of_core(received, buffer.as_slice());
        record!(bytes, from, received, || None);
        received
    }

    /// Converts an outcome of the core to the type of this module, with the bytes of the answer.
    fn of_core<'a, B>(
        &self,
        received: Result<received::ReceivedInto<'a>, AllocError>,
        answer: B,
    ) -> Received<'a, B> {
        use received::ReceivedInto;

        match received {
            Ok(ReceivedInto::Check { message, judged }) => Received::Check {
                fragment: self.0.sender(&message),
                message: Message(message),
                answer,
                judged,
            },
            Ok(ReceivedInto::Response(outcome)) => Received::Response(outcome.into()),
            Ok(ReceivedInto::Indication(message)) => Received::Indication(Message(message)),
            Ok(ReceivedInto::Dropped(why)) => Received::Dropped(why.into()),
            Err(_) => Received::Dropped(DropReason::OutOfMemory),
        }
    }
}

/// A check: the bytes to send, and the values that are needed to judge the answer. Store it until
/// its answer arrives or it times out. [`Checker::check`] makes it.
///
/// # Examples
///
/// ```
/// use seatcrane_stun::endpoint::ice::Check;
/// use seatcrane_stun::types::message::TransactionId;
/// use std::collections::HashMap;
/// use std::net::UdpSocket;
///
/// /// Sends a check, and stores it until its answer arrives.
/// fn send(
///     socket: &UdpSocket,
///     checks: &mut HashMap<TransactionId, Check>,
///     check: Check,
/// ) {
///     drop(socket.send_to(check.bytes(), check.to()));
///     checks.insert(check.id(), check);
/// }
/// ```
#[must_use = "send the check, and store it until its answer arrives"]
pub struct Check(check::Check<Global>);

impl Clone for Check {
    fn clone(&self) -> Check {
        Check(copy(&self.0))
    }
}

impl fmt::Debug for Check {
    fn fmt(&self, f: &mut fmt::Formatter<'_>) -> fmt::Result {
        f.debug_struct("Check")
            .field("id", &self.id())
            .field("to", &self.to())
            .field("role", &self.role())
            .field("nominates", &self.nominates())
            .finish_non_exhaustive()
    }
}

impl Check {
    /// Returns the transaction ID, which the answer has too.
    #[must_use]
    pub fn id(&self) -> TransactionId {
        TransactionId(self.0.id())
    }

    /// Returns the address to send the check to, as it was passed to [`Checker::check`].
    #[must_use]
    pub fn to(&self) -> SocketAddr {
        self.0.to()
    }

    /// Returns the role that the check states for its sender.
    #[must_use]
    pub fn role(&self) -> Role {
        self.0.role()
    }

    /// Returns `true` if the check nominates its pair.
    #[must_use]
    pub fn nominates(&self) -> bool {
        self.0.nominates()
    }

    /// Returns the bytes to send.
    #[must_use]
    pub fn bytes(&self) -> &[u8] {
        self.0.bytes()
    }
}

/// The result of [`Checker::receive`]. The bytes of an answer are a `Vec`, or a slice of the buffer
/// that was passed to [`Checker::receive_into`].
///
/// # Examples
///
/// ```
/// use seatcrane_stun::endpoint::ice::Received;
///
/// /// The answer to send to where the datagram came from, if it was a check.
/// fn answer(received: Received<'_>) -> Option<Vec<u8>> {
///     match received {
///         Received::Check { answer, judged, .. } => {
///             println!("{judged}");
///             Some(answer)
///         }
///         Received::Response(outcome) => {
///             println!("a check of this agent has ended: {outcome}");
///             None
///         }
///         _ => None, // an indication, or dropped
///     }
/// }
/// ```
#[must_use = "it may be an answer to send"]
#[derive(Debug)]
#[non_exhaustive]
pub enum Received<'a, B = Vec<u8>> {
    /// A check of the peer. Send the answer to the address that the check came from.
    Check {
        /// The check itself, in case you need its other attributes.
        message: Message<'a>,
        /// The username fragment of the peer. In USERNAME it comes after the fragment of this agent
        /// and a colon. Each accepted check has one. If an offer has several answers, this fragment
        /// says to which of the answers the check belongs.
        fragment: Option<&'a [u8]>,
        /// The bytes to send.
        answer: B,
        /// The outcome of the check.
        judged: Judged,
    },
    /// The answer to a check of yours, which ends it.
    Response(Outcome),
    /// A Binding indication, as peers send to keep a path open (RFC 8445, section 11). It is not
    /// signed, and needs no answer.
    Indication(Message<'a>),
    /// The datagram is dropped, for this reason. If it belongs to a check of yours, that check
    /// continues.
    Dropped(DropReason),
}

/// How the peer's answer ends a check.
///
/// # Examples
///
/// ```
/// use seatcrane_stun::endpoint::ice::Outcome;
///
/// fn log(outcome: Outcome) {
///     match outcome {
///         Outcome::Valid { mapped } => println!("valid, seen from {mapped}"),
///         Outcome::RoleConflict { switched } => {
///             println!("role conflict, switched: {switched}")
///         }
///         failed => println!("{failed}"),
///     }
/// }
/// ```
#[derive(Clone, Copy, Debug, PartialEq, Eq, Hash)]
#[non_exhaustive]
pub enum Outcome {
    /// The check succeeded, and the pair is valid.
    Valid {
        /// The address from which the peer saw the check arrive. If it is not one of your
        /// candidates, it is a new peer-reflexive candidate (RFC 8445, section 7.2.5.3.1).
        mapped: SocketAddr,
    },
    /// The peer has the role that the check states for this agent, and does not switch. This agent
    /// now has the opposite role. Set a new tie-breaker (RFC 8445, section 16.1).
    RoleConflict {
        /// Whether this agent has switched its role because of this answer. If it has, check the
        /// pair again (RFC 8445, section 7.2.5.1). If it has not, the answer is late: this agent
        /// had already switched, because of a check of the peer or of another answer, and the
        /// conflict is over. The pair then needs another check only if no check of the pair was
        /// started after the switch.
        switched: bool,
    },
    /// The check failed.
    Failed(Failure),
}

impl From<received::Outcome> for Outcome {
    fn from(outcome: received::Outcome) -> Outcome {
        match outcome {
            received::Outcome::Valid(mapped) => Outcome::Valid {
                mapped: mapped.address(),
            },
            received::Outcome::RoleConflict { switched } => Outcome::RoleConflict { switched },
            received::Outcome::Failed(failure) => Outcome::Failed(failure.into()),
        }
    }
}

/// Writes the outcome of the check, for a log.
impl fmt::Display for Outcome {
    fn fmt(&self, f: &mut fmt::Formatter<'_>) -> fmt::Result {
        match self {
            Outcome::Valid { mapped } => write!(f, "the pair is valid, seen from {mapped}"),
            Outcome::RoleConflict { switched: true } => {
                f.write_str("both agents had the same role, and this agent has switched")
            }
            Outcome::RoleConflict { switched: false } => {
                f.write_str("both agents had the same role, before this agent switched")
            }
            Outcome::Failed(failure) => write!(f, "the check failed: {failure}"),
        }
    }
}

/// Writes the code of the answer and its reason phrase, such as `401 Unauthenticated`.
impl fmt::Display for Refusal {
    fn fmt(&self, f: &mut fmt::Formatter<'_>) -> fmt::Result {
        let phrase = match self {
            Refusal::BadRequest => "Bad Request",
            Refusal::Unauthenticated => "Unauthenticated",
            Refusal::UnknownAttribute => "Unknown Attribute",
        };
        write!(f, "{} {phrase}", self.code())
    }
}

/// Writes the outcome of the check, for a log.
impl fmt::Display for Judged {
    fn fmt(&self, f: &mut fmt::Formatter<'_>) -> fmt::Result {
        match self {
            Judged::Accepted { nominated, .. } => {
                let nominates = if *nominated {
                    ", and nominates its pair"
                } else {
                    ""
                };
                write!(f, "the check is accepted{nominates}")
            }
            Judged::RoleConflict => f.write_str("the check is refused: 487 Role Conflict"),
            Judged::Refused(refusal) => write!(f, "the check is refused: {refusal}"),
        }
    }
}

/// Why a check failed.
///
/// # Examples
///
/// ```
/// use seatcrane_stun::endpoint::ice::{Failure, Outcome};
///
/// /// Returns whether the failure may be temporary, so that the pair is worth retrying.
/// fn is_temporary(outcome: Outcome) -> bool {
///     matches!(outcome, Outcome::Failed(Failure::Error(500)))
/// }
/// # assert!(!is_temporary(Outcome::Failed(Failure::OtherPath)));
/// ```
#[derive(Clone, Copy, Debug, PartialEq, Eq, Hash)]
#[non_exhaustive]
pub enum Failure {
    /// The answer is an error with this code.
    Error(u16),
    /// The answer did not come from the address that the check was sent to, or, with [`Checks`],
    /// did not arrive at the address that the check was sent from (RFC 8445, section 7.2.5.2.1).
    OtherPath,
    /// The answer has an attribute of this type, which must be understood but is not.
    NotUnderstood(AttributeType),
    /// The answer has no well-formed XOR-MAPPED-ADDRESS, or no well-formed ERROR-CODE if it is an
    /// error.
    Malformed,
}

impl From<received::Failure> for Failure {
    fn from(failure: received::Failure) -> Failure {
        match failure {
            received::Failure::Error(code) => Failure::Error(code),
            received::Failure::OtherPath => Failure::OtherPath,
            received::Failure::NotUnderstood(kind) => Failure::NotUnderstood(kind),
            received::Failure::Malformed => Failure::Malformed,
        }
    }
}

impl fmt::Display for Failure {
    fn fmt(&self, f: &mut fmt::Formatter<'_>) -> fmt::Result {
        match self {
            Failure::Error(code) => write!(f, "the peer answered with the error {code}"),
            Failure::OtherPath => f.write_str("the answer came by another path than the check"),
            Failure::NotUnderstood(kind) => {
                write!(
                    f,
                    "the answer has attribute {kind}, which is not understood"
                )
            }
            Failure::Malformed => f.write_str("the answer is malformed"),
        }
    }
}

/// Why a datagram is dropped.
///
/// # Examples
///
/// ```
/// use seatcrane_stun::endpoint::ice::DropReason;
///
/// let mut dropped = [0; DropReason::COUNT];
/// let why = DropReason::WrongSignature;
/// dropped[why.index()] += 1;
/// assert_eq!(why.name(), "WrongSignature");
/// ```
#[derive(Clone, Copy, Debug, PartialEq, Eq, Hash)]
#[non_exhaustive]
pub enum DropReason {
    /// The datagram does not begin with the header of a STUN message.
    NotStun,
    /// The datagram begins with the header of a STUN message, but does not have the length that the
    /// header states, or its attributes do not fill that length exactly.
    Malformed,
    /// The datagram has no FINGERPRINT, or a wrong one, so it is damaged or belongs to another
    /// protocol.
    WrongFingerprint,
    /// The method of the message is not Binding.
    OtherMethod,
    /// The datagram is an indication with an attribute that must be understood but is not.
    UnknownAttribute,
    /// The datagram is a response, but does not answer the check that was passed or, with
    /// [`Checks`], any outstanding check.
    NotAsked,
    /// The datagram is a response whose signature is missing or invalid, or a response that arrives
    /// before the credentials of the peer are known. A 400 or 401 is not signed, so a check that
    /// the peer refuses with one of these times out.
    WrongSignature,
    /// An allocation failed. The peer retransmits its check.
    OutOfMemory,
}

impl DropReason {
    /// The number of reasons.
    pub const COUNT: usize = 8;

    /// Returns an index below [`COUNT`](Self::COUNT), for an array of counters.
    #[must_use]
    pub fn index(self) -> usize {
        self as usize
    }

    /// Returns the name of this variant, such as `Malformed`.
    #[must_use]
    pub fn name(self) -> &'static str {
        match self {
            DropReason::NotStun => "NotStun",
            DropReason::Malformed => "Malformed",
            DropReason::WrongFingerprint => "WrongFingerprint",
            DropReason::OtherMethod => "OtherMethod",
            DropReason::UnknownAttribute => "UnknownAttribute",
            DropReason::NotAsked => "NotAsked",
            DropReason::WrongSignature => "WrongSignature",
            DropReason::OutOfMemory => "OutOfMemory",
        }
    }
}

impl fmt::Display for DropReason {
    fn fmt(&self, f: &mut fmt::Formatter<'_>) -> fmt::Result {
        f.write_str(match self {
            DropReason::NotStun => "the datagram has no STUN header",
            DropReason::Malformed => "the message is not what its header says",
            DropReason::WrongFingerprint => "the FINGERPRINT is missing or wrong",
            DropReason::OtherMethod => "the method is not Binding",
            DropReason::UnknownAttribute => "an indication has an attribute that is not understood",
            DropReason::NotAsked => "the response answers no check",
            DropReason::WrongSignature => "the signature of the response is missing or invalid",
            DropReason::OutOfMemory => "an allocation failed",
        })
    }
}

impl From<received::DropReason> for DropReason {
    fn from(why: received::DropReason) -> DropReason {
        match why {
            received::DropReason::NotStun => DropReason::NotStun,
            received::DropReason::Malformed => DropReason::Malformed,
            received::DropReason::WrongFingerprint => DropReason::WrongFingerprint,
            received::DropReason::OtherMethod => DropReason::OtherMethod,
            received::DropReason::UnknownAttribute => DropReason::UnknownAttribute,
            received::DropReason::NotAsked => DropReason::NotAsked,
            received::DropReason::WrongSignature => DropReason::WrongSignature,
        }
    }
}
