//! Connectivity checks with their timers.

use super::{Check, CheckError, Checker, DropReason, Judged, Outcome, Received};
use crate::Instant;
use crate::agent::{StunAgent, StunAgentPollRet};
use crate::endpoint::Retransmission;
use crate::exported::stun_extra::canonical_address::canonical;
use crate::message::{Message, MessageHeader};
use crate::transaction::TransactionId;
use crate::types::TransportType;
use crate::types::attribute::{AttributeType, RawAttribute};
use crate::types::message::StunWriteError;
use alloc::collections::{BTreeMap, VecDeque};
use alloc::vec::Vec;
use core::fmt;
use core::net::{Ipv4Addr, SocketAddr};
use core::time::Duration;

/// The checks of a session with their timers: a [`Checker`], and the times at which to retransmit
/// each check of this agent and to give up on it.
///
/// Each check that is started ends exactly once: [`receive`](Self::receive) returns the outcome of
/// its answer, [`poll`](Self::poll) reports that no answer came in time, or
/// [`cancel`](Self::cancel) ends it. After any other call, and when a wait is over, call
/// [`poll`](Self::poll) until it returns [`ChecksOutput::Wait`].
///
/// The candidates, the pairs, the order and pace of new checks (at most one every 50 ms; RFC 8445,
/// section 14.2) and nomination are up to you. This type is tested, and not proved, but the calls
/// that it makes are proved.
///
/// # Examples
///
/// ```
/// use seatcrane_stun::Instant;
/// use seatcrane_stun::endpoint::ice::*;
/// use seatcrane_stun::types::message::TransactionId;
/// use std::net::SocketAddr;
///
/// let left = ("evtj", "asd88fgpdd777uzjYhagZg");
/// let right = ("h6vY", "VOkJxbRl1RmTxUk/WvJxBt");
/// let mut here = Checks::new(Checker::new(left, right, 1, Role::Controlling)?);
/// let mut there = Checks::new(Checker::new(right, left, 2, Role::Controlled)?);
/// let a: SocketAddr = "192.0.2.1:5000".parse()?;
/// let b: SocketAddr = "192.0.2.2:5000".parse()?;
///
/// let id = TransactionId::from([7; 12]); // must be random: `TransactionId::generate`
/// here.start(&NewCheck::new(id, a, b, 0x6e00_01ff).nominate(true), Instant::ZERO)?;
/// let check = match here.poll(Instant::ZERO) {
///     ChecksOutput::Transmit { from, to, bytes } => {
///         assert_eq!((from, to), (a, b)); // send the bytes from the socket at `from`
///         bytes.to_vec()
///     }
///     _ => unreachable!("a check was started"),
/// };
///
/// // At the peer.
/// let received = there.receive(&check, b, a, Instant::ZERO);
/// let ChecksInput::Check { answer, .. } = received else {
///     panic!("no check")
/// };
///
/// // Back here, 20 ms later: the pair is valid.
/// let now = Instant::ZERO + std::time::Duration::from_millis(20);
/// let ChecksInput::Ended(ended) = here.receive(&answer, a, b, now) else {
///     panic!("no answer")
/// };
/// assert_eq!(ended.outcome, Outcome::Valid { mapped: a });
/// assert_eq!((ended.check.id(), ended.elapsed), (id, now - Instant::ZERO));
/// assert!(matches!(here.poll(now), ChecksOutput::Wait(None)));
/// # Ok::<(), Box<dyn std::error::Error>>(())
/// ```
pub struct Checks {
    checker: Checker,
    /// The agent is used only for the timers of the checks, so its own address does not matter.
    timers: StunAgent,
    sent: BTreeMap<TransactionId, Sent>,
    /// The checks that have not been sent yet.
    unsent: VecDeque<TransactionId>,
}

/// A check that may be answered.
struct Sent {
    check: Check,
    from: SocketAddr,
    at: Instant,
}

impl fmt::Debug for Checks {
    fn fmt(&self, f: &mut fmt::Formatter<'_>) -> fmt::Result {
        f.debug_struct("Checks")
            .field("checker", &self.checker)
            .field("outstanding", &self.outstanding())
            .finish_non_exhaustive()
    }
}

/// A check to start.
///
/// # Examples
///
/// A check for consent is sent once, and its answer may arrive up to 30 seconds later (RFC 7675,
/// section 5.1):
///
/// ```
/// use seatcrane_stun::endpoint::Retransmission;
/// use seatcrane_stun::endpoint::ice::NewCheck;
/// use seatcrane_stun::types::message::TransactionId;
/// use std::net::SocketAddr;
/// use std::time::Duration;
///
/// fn consent(
///     id: TransactionId,
///     from: SocketAddr,
///     to: SocketAddr,
///     priority: u32,
/// ) -> NewCheck {
///     let seconds = Duration::from_secs;
///     let once = Retransmission::new(seconds(30), seconds(30), 1, seconds(30));
///     NewCheck::new(id, from, to, priority).retransmission(once)
/// }
/// ```
#[must_use = "it is passed to `Checks::start`"]
#[derive(Clone, Debug, PartialEq, Eq)]
pub struct NewCheck {
    id: TransactionId,
    from: SocketAddr,
    to: SocketAddr,
    priority: u32,
    nominates: bool,
    retransmission: Retransmission,
    attributes: Vec<(AttributeType, Vec<u8>)>,
}

impl NewCheck {
    /// Returns a check from an address of this agent to an address of the peer. `from` is the base
    /// of the local candidate: the address of its socket, or, if the candidate is relayed, the
    /// relayed address. The only condition is that you pass the same address to [`Checks::receive`]
    /// as `at` when a datagram arrives at this candidate. So for a socket that is bound to all
    /// addresses of a machine, you can choose any one of these addresses. The transaction ID must
    /// be random and new. If the peer learns a new peer-reflexive candidate from this check, the
    /// candidate has the priority `priority` (RFC 8445, section 7.1.1).
    pub fn new(id: TransactionId, from: SocketAddr, to: SocketAddr, priority: u32) -> NewCheck {
        NewCheck {
            id,
            from,
            to,
            priority,
            nominates: false,
            retransmission: Retransmission::default(),
            attributes: Vec::new(),
        }
    }

    /// Sets whether the check nominates its pair, if this agent has the controlling role. By
    /// default it does not.
    pub fn nominate(mut self, nominates: bool) -> NewCheck {
        self.nominates = nominates;
        self
    }

    /// Sets when the check is retransmitted, and how long to wait for its answer. The default is
    /// the plan of RFC 8489, section 6.2.1. By RFC 8445, section 14.3, the wait after the first
    /// transmission grows with the number of pairs.
    pub fn retransmission(mut self, retransmission: Retransmission) -> NewCheck {
        self.retransmission = retransmission;
        self
    }

    /// Adds an attribute to those of ICE, such as NETWORK-COST (0xC057). The peer refuses the check
    /// if it does not know the type, and the type is below 0x8000.
    pub fn attribute(mut self, kind: AttributeType, value: impl Into<Vec<u8>>) -> NewCheck {
        self.attributes.push((kind, value.into()));
        self
    }
}

/// Why a check was not written, or not started.
///
/// # Examples
///
/// ```
/// use seatcrane_stun::Instant;
/// use seatcrane_stun::endpoint::ice::{Checks, NewCheck, NewCheckError};
///
/// /// Starts a check, unless the answer to the offer has not arrived yet.
/// fn start(
///     checks: &mut Checks,
///     check: &NewCheck,
///     now: Instant,
/// ) -> Result<bool, NewCheckError> {
///     match checks.start(check, now) {
///         Ok(()) => Ok(true),
///         Err(NewCheckError::NoRemote) => Ok(false),
///         Err(other) => Err(other),
///     }
/// }
/// ```
#[derive(Clone, Copy, Debug, PartialEq, Eq)]
#[non_exhaustive]
pub enum NewCheckError {
    /// The credentials of the peer are not known yet.
    NoRemote,
    /// A check with this transaction ID is outstanding, or was canceled since the last
    /// [`Checks::poll`].
    IdInUse,
    /// One of the further attributes cannot be added.
    Attribute(StunWriteError),
    /// An allocation failed.
    OutOfMemory,
}

impl fmt::Display for NewCheckError {
    fn fmt(&self, f: &mut fmt::Formatter<'_>) -> fmt::Result {
        match self {
            NewCheckError::NoRemote => {
                f.write_str("the credentials of the peer are not known yet")
            }
            NewCheckError::IdInUse => {
                f.write_str("a check with this transaction ID is outstanding")
            }
            NewCheckError::Attribute(why) => write!(f, "an attribute cannot be added: {why}"),
            NewCheckError::OutOfMemory => f.write_str("an allocation failed"),
        }
    }
}

impl core::error::Error for NewCheckError {}

impl From<StunWriteError> for NewCheckError {
    fn from(why: StunWriteError) -> NewCheckError {
        match why {
            StunWriteError::OutOfMemory => NewCheckError::OutOfMemory,
            why => NewCheckError::Attribute(why),
        }
    }
}

impl From<CheckError> for NewCheckError {
    fn from(why: CheckError) -> NewCheckError {
        match why {
            CheckError::NoRemote => NewCheckError::NoRemote,
            _ => NewCheckError::OutOfMemory,
        }
    }
}

/// A check of this agent that was answered.
///
/// # Examples
///
/// ```
/// use seatcrane_stun::endpoint::ice::{EndedCheck, Outcome};
///
/// fn log(ended: &EndedCheck) {
///     println!("{} to {}: {}", ended.from, ended.check.to(), ended.outcome);
///     if let Outcome::Valid { .. } = ended.outcome {
///         println!("answered after {} ms", ended.elapsed.as_millis());
///     }
/// }
/// ```
#[derive(Clone, Debug)]
#[non_exhaustive]
pub struct EndedCheck {
    /// The check.
    pub check: Check,
    /// The address of this agent from which the check was sent.
    pub from: SocketAddr,
    /// How the answer ends the check. After [`Outcome::RoleConflict`], set a new tie-breaker
    /// ([`Checker::set_tie_breaker`]). If this agent has switched its role because of the answer,
    /// also start another check on the pair.
    pub outcome: Outcome,
    /// The time from the start of the check to its answer. This is the round-trip time if the check
    /// was sent only once.
    pub elapsed: Duration,
}

/// The outcome of a datagram.
///
/// # Examples
///
/// ```
/// use seatcrane_stun::endpoint::ice::{ChecksInput, Judged};
///
/// fn log(input: &ChecksInput<'_>) {
///     match input {
///         ChecksInput::Check { judged: Judged::Accepted { nominated, .. }, .. } => {
///             println!("a check, which nominates: {nominated}");
///         }
///         ChecksInput::Check { judged, .. } => println!("{judged}"),
///         ChecksInput::Ended(ended) => println!("{}", ended.outcome),
///         ChecksInput::Dropped(why) => println!("dropped: {why}"),
///         _ => {} // an indication, which keeps the path open
///     }
/// }
/// ```
#[must_use = "it may be an answer to send, or the end of a check"]
#[derive(Debug)]
#[non_exhaustive]
pub enum ChecksInput<'a, B = Vec<u8>> {
    /// A check of the peer. Send the answer from the address at which the check arrived to the
    /// address from which it came.
    Check {
        /// The check itself, in case you need its other attributes.
        message: Message<'a>,
        /// The username fragment of the peer, as in [`Received::Check`].
        fragment: Option<&'a [u8]>,
        /// The bytes to send.
        answer: B,
        /// The outcome of the check.
        judged: Judged,
    },
    /// A check of this agent was answered, and has ended.
    Ended(EndedCheck),
    /// A Binding indication, as peers send to keep a path open.
    Indication(Message<'a>),
    /// The datagram is dropped, for this reason. If it belongs to a check, that check continues.
    Dropped(DropReason),
}

/// The next thing to do.
///
/// # Examples
///
/// ```
/// use seatcrane_stun::Instant;
/// use seatcrane_stun::endpoint::ice::{Checks, ChecksOutput};
/// use std::net::UdpSocket;
///
/// /// Sends what is due, and returns when there is more to do.
/// fn send(
///     checks: &mut Checks,
///     socket: &UdpSocket,
///     now: Instant,
/// ) -> Option<Instant> {
///     loop {
///         match checks.poll(now) {
///             ChecksOutput::Transmit { to, bytes, .. } => {
///                 drop(socket.send_to(bytes, to))
///             }
///             ChecksOutput::TimedOut { check, .. } => {
///                 println!("no answer from {}", check.to())
///             }
///             ChecksOutput::Wait(until) => return until,
///             _ => {}
///         }
///     }
/// }
/// ```
#[must_use = "it may be a check to send, or the end of one"]
#[derive(Debug)]
#[non_exhaustive]
pub enum ChecksOutput<'a> {
    /// Send these bytes.
    Transmit {
        /// The address of this agent to send from.
        from: SocketAddr,
        /// The address of the peer.
        to: SocketAddr,
        /// The check.
        bytes: &'a [u8],
    },
    /// A check has ended: no answer came in time.
    TimedOut {
        /// The check.
        check: Check,
        /// The address of this agent from which the check was sent.
        from: SocketAddr,
    },
    /// Wait until a datagram arrives, or until this time. The time is `None` if no check is
    /// outstanding.
    Wait(Option<Instant>),
}

impl Checks {
    /// Creates the checks of a session, without any outstanding check.
    #[must_use]
    pub fn new(checker: Checker) -> Checks {
        let nowhere = SocketAddr::from((Ipv4Addr::UNSPECIFIED, 0));
        Checks {
            checker,
            timers: StunAgent::builder(TransportType::Udp, nowhere).build(),
            sent: BTreeMap::new(),
            unsent: VecDeque::new(),
        }
    }

    /// Returns the agent that writes and judges checks.
    pub fn checker(&self) -> &Checker {
        &self.checker
    }

    /// Returns the agent that writes and judges checks, to set the credentials of the peer, the
    /// role or the tie-breaker.
    pub fn checker_mut(&mut self) -> &mut Checker {
        &mut self.checker
    }

    /// Returns the number of checks that have not ended.
    pub fn outstanding(&self) -> usize {
        self.sent.len()
    }

    /// Returns the check with this transaction ID, or `None` if it has ended or was never started.
    pub fn check(&self, id: TransactionId) -> Option<&Check> {
        self.sent.get(&id).map(|sent| &sent.check)
    }

    /// Starts a check. [`poll`](Self::poll) then returns it for you to send.
    ///
    /// # Errors
    ///
    /// Returns the first of these errors that applies. A call that fails changes nothing.
    ///
    /// - [`NewCheckError::NoRemote`]: the credentials of the peer are not known yet. Set them with
    ///   [`Checker::set_remote`].
    /// - [`NewCheckError::Attribute`]: one of the further attributes cannot be added, for example
    ///   because the agent itself writes an attribute of this type into each check.
    /// - [`NewCheckError::IdInUse`]: a check with this transaction ID is outstanding, or was
    ///   canceled since the last [`poll`](Self::poll). Use a new random ID.
    /// - [`NewCheckError::OutOfMemory`]: an allocation failed.
    pub fn start(&mut self, new: &NewCheck, now: Instant) -> Result<(), NewCheckError> {
        let (id, from, to) = (new.id, new.from, new.to);
        let attributes = new.attributes.iter();
        let attributes: Vec<_> = attributes
            .map(|(kind, value)| RawAttribute::new(*kind, value))
            .collect();
        let (priority, nominates) = (new.priority, new.nominates);
        let check = self.checker.check_with(id, to, priority, nominates, &attributes)?;
        let is_new = self.timers.request_transaction(id).is_none();
        if !is_new || self.sent.contains_key(&id) {
            return Err(NewCheckError::IdInUse);
        }
        let started = self.timers.send_request(check.bytes(), to, now).is_ok();
        if !started {
            return Err(NewCheckError::OutOfMemory);
        }
        if let Some(mut request) = self.timers.mut_request_transaction(id) {
            let (first, most, sends, last) = new.retransmission.parts();
            request.configure_timeout_with_max(first, sends, last, most);
        }
        let at = now;
        self.sent.insert(id, Sent { check, from, at });
        self.unsent.push_back(id);
        Ok(())
    }

    /// Stops retransmitting a check, but an answer still ends the check. Call this for a check that
    /// is no longer needed, for example because a triggered check takes its place (RFC 8445,
    /// section 7.3.1.4). If no answer arrives, the check times out when it would have timed out
    /// before. Returns `false` if there is no such check.
    pub fn stop_sending(&mut self, id: TransactionId) -> bool {
        self.unsent.retain(|unsent| *unsent != id);
        if let Some(mut request) = self.timers.mut_request_transaction(id) {
            request.cancel_retransmissions();
        }
        self.sent.contains_key(&id)
    }

    /// Ends a check, and returns it, or `None` if there is no such check. No later call returns
    /// anything about this check.
    pub fn cancel(&mut self, id: TransactionId) -> Option<Check> {
        self.end(id).map(|sent| sent.check)
    }

    /// Ends a check and returns it, or returns `None` if there is no such check. The next poll
    /// removes its timer.
    fn end(&mut self, id: TransactionId) -> Option<Sent> {
        let sent = self.sent.remove(&id)?;
        self.unsent.retain(|unsent| *unsent != id);
        if let Some(mut request) = self.timers.mut_request_transaction(id) {
            request.cancel();
        }
        Some(sent)
    }

    /// Judges a datagram that was sent from the address `from` and arrived at this agent's address
    /// `at`, and writes the answer if the datagram is a check. The two forms of an IPv4 address,
    /// `a.b.c.d` and `::ffff:a.b.c.d`, count as the same address.
    ///
    /// The answer to a check must come from the address that the check was sent to, and arrive at
    /// the address from which the check was sent. If the peer's answer took another path, the check
    /// fails with [`OtherPath`](super::Failure::OtherPath) (RFC 8445, section 7.2.5.2.1). In all
    /// other respects this is like [`Checker::receive`].
    pub fn receive<'a>(
        &mut self,
        bytes: &'a [u8],
        at: SocketAddr,
        from: SocketAddr,
        now: Instant,
    ) -> ChecksInput<'a> {
        let sent = awaited(&self.sent, bytes);
        let (id, source) = (sent.map(|sent| sent.check.id()), source_of(sent, at, from));
        let check = sent.map(|sent| &sent.check);
        let received = self.checker.receive(bytes, source, check);
        self.received(received, id, now)
    }

    /// Judges a datagram like [`receive`](Self::receive), and writes the answer into a buffer that
    /// you keep between datagrams, replacing its contents. The buffer is empty afterwards if there
    /// is no answer.
    pub fn receive_into<'a, 'b>(
        &mut self,
        bytes: &'a [u8],
        at: SocketAddr,
        from: SocketAddr,
        now: Instant,
        buffer: &'b mut Vec<u8>,
    ) -> ChecksInput<'a, &'b [u8]> {
        let sent = awaited(&self.sent, bytes);
        let (id, source) = (sent.map(|sent| sent.check.id()), source_of(sent, at, from));
        let check = sent.map(|sent| &sent.check);
        let received = self.checker.receive_into(bytes, source, check, buffer);
        self.received(received, id, now)
    }

    /// Ends the check with this ID if the datagram was its answer, and converts the outcome.
    fn received<'a, B>(
        &mut self,
        received: Received<'a, B>,
        id: Option<TransactionId>,
        now: Instant,
    ) -> ChecksInput<'a, B> {
        match received {
            Received::Check {
                message,
                fragment,
                answer,
                judged,
            } => ChecksInput::Check {
                message,
                fragment,
                answer,
                judged,
            },
            Received::Response(outcome) => match id.and_then(|id| self.end(id)) {
                Some(Sent { check, from, at }) => ChecksInput::Ended(EndedCheck {
                    check,
                    from,
                    outcome,
                    elapsed: now - at,
                }),
                None => ChecksInput::Dropped(DropReason::NotAsked),
            },
            Received::Indication(message) => ChecksInput::Indication(message),
            Received::Dropped(why) => ChecksInput::Dropped(why),
        }
    }

    /// Returns the next thing to do. Call it until it returns [`ChecksOutput::Wait`]: after each
    /// other call, and when the wait is over.
    pub fn poll(&mut self, now: Instant) -> ChecksOutput<'_> {
        match self.due(now) {
            Some(id) => match self.sent.get(&id) {
                Some(sent) => ChecksOutput::Transmit {
                    from: sent.from,
                    to: sent.check.to(),
                    bytes: sent.check.bytes(),
                },
                None => ChecksOutput::Wait(Some(now)),
            },
            None => self.timed_out(now),
        }
    }

    /// Returns the next check to send, or `None` if no check is due.
    fn due(&mut self, now: Instant) -> Option<TransactionId> {
        if let Some(id) = self.unsent.pop_front() {
            return Some(id);
        }
        loop {
            let again = self.timers.poll_transmit(now)?;
            let id = MessageHeader::from_bytes(again.data).ok()?.transaction_id();
            if self.sent.contains_key(&id) {
                return Some(id);
            }
        }
    }

    /// Ends the next check that was not answered in time.
    fn timed_out(&mut self, now: Instant) -> ChecksOutput<'static> {
        loop {
            match self.timers.poll(now) {
                StunAgentPollRet::TransactionTimedOut(id)
                | StunAgentPollRet::TransactionCancelled(id) => {
                    // A check that has ended before is no longer stored.
                    if let Some(Sent { check, from, .. }) = self.sent.remove(&id) {
                        return ChecksOutput::TimedOut { check, from };
                    }
                }
                StunAgentPollRet::WaitUntil(next) => {
                    return ChecksOutput::Wait(Some(next).filter(|_| !self.sent.is_empty()));
                }
            }
        }
    }
}

/// Returns the outstanding check that a response may answer. Returns `None` if there is no such
/// check, or if the datagram is not a response.
fn awaited<'a>(sent: &'a BTreeMap<TransactionId, Sent>, bytes: &[u8]) -> Option<&'a Sent> {
    let header = MessageHeader::from_bytes(bytes).ok()?;
    let is_response = header.get_type().is_response();
    sent.get(&header.transaction_id()).filter(|_| is_response)
}

/// Returns the address from which a datagram is judged to come. If an answer arrived at an address
/// from which the check was not sent, it is judged like an answer from an address to which the
/// check was not sent. So the check fails before anything else in the answer is read (RFC 8445,
/// section 7.2.5.2.1).
fn source_of(sent: Option<&Sent>, at: SocketAddr, from: SocketAddr) -> SocketAddr {
    match sent {
        Some(sent) if canonical(sent.from) != canonical(at) => {
            let mut elsewhere = sent.check.to();
            elsewhere.set_port(!elsewhere.port());
            elsewhere
        }
        _ => from,
    }
}
