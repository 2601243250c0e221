//! The peer's consent to receive (RFC 7675).

use crate::Instant;
use core::time::Duration;

/// How long consent lasts (RFC 7675, section 5.1).
const LASTS: Duration = Duration::from_secs(30);

/// The timers of consent on a selected pair (RFC 7675, section 5.1): you send a check every 4 to 6
/// seconds, and consent ends when no check has been answered for 30 seconds. After that you must
/// send nothing more to the peer.
///
/// Create it when a pair is selected, and call [`poll`](Self::poll) until it returns
/// [`ConsentStep::Wait`]. Send the checks once each, and call [`answered`](Self::answered) when the
/// answer to any of them is [`Outcome::Valid`](super::Outcome::Valid). Checks for consent also keep
/// the path open, so you need no [`keepalive`](super::Checker::keepalive). This type is tested, and
/// not proved.
///
/// # Examples
///
/// ```
/// use seatcrane_stun::Instant;
/// use seatcrane_stun::endpoint::ice::{Consent, ConsentStep};
/// use std::time::Duration;
///
/// let start = Instant::ZERO;
/// let random = || 1 << 31; // yours must be random
/// let mut consent = Consent::new(start, random());
/// assert_eq!(
///     consent.poll(start, random()),
///     ConsentStep::Wait(start + Duration::from_secs(5))
/// );
///
/// let now = start + Duration::from_secs(5);
/// assert_eq!(consent.poll(now, random()), ConsentStep::Ask); // send a check
/// consent.answered(now + Duration::from_millis(40));
///
/// // The peer is gone.
/// let until = now + Duration::from_millis(30_040);
/// assert_eq!(consent.poll(until, random()), ConsentStep::Over);
/// ```
#[derive(Clone, Copy, Debug, PartialEq, Eq)]
pub struct Consent {
    until: Instant,
    next: Instant,
}

/// The next thing to do for consent.
///
/// # Examples
///
/// ```
/// use seatcrane_stun::endpoint::ice::ConsentStep;
///
/// let step = ConsentStep::Over;
/// assert!(matches!(step, ConsentStep::Over)); // send nothing more to the peer
/// ```
#[must_use = "send a check, or nothing more, as it says"]
#[derive(Clone, Copy, Debug, PartialEq, Eq)]
pub enum ConsentStep {
    /// Send a check on the pair, once.
    Ask,
    /// No check has been answered for 30 seconds. Send nothing more to the peer.
    Over,
    /// Wait until this time.
    Wait(Instant),
}

impl Consent {
    /// Creates the timers. The answer that made the pair valid counts as the first consent.
    /// `random` is a random number, which decides when the first check is due: 4 to 6 seconds after
    /// `now`.
    #[must_use]
    pub fn new(now: Instant, random: u32) -> Consent {
        Consent {
            until: now + LASTS,
            next: now + wait(random),
        }
    }

    /// Returns the next thing to do. `random` is a random number. It is used only if the result is
    /// [`ConsentStep::Ask`], and decides when the next check is due: 4 to 6 seconds after this one.
    pub fn poll(&mut self, now: Instant, random: u32) -> ConsentStep {
        if now >= self.until {
            ConsentStep::Over
        } else if now >= self.next {
            self.next = now + wait(random);
            ConsentStep::Ask
        } else {
            ConsentStep::Wait(self.next.min(self.until))
        }
    }

    /// Renews consent for 30 seconds. Call it when a check on the pair has succeeded
    /// ([`Outcome::Valid`](super::Outcome::Valid)). Does nothing if consent is over.
    pub fn answered(&mut self, now: Instant) {
        if now < self.until {
            self.until = self.until.max(now + LASTS);
        }
    }
}

/// Returns the time to the next check: 0.8 to 1.2 times 5 seconds.
fn wait(random: u32) -> Duration {
    Duration::from_nanos(4_000_000_000 + ((2_000_000_000 * u64::from(random)) >> 32))
}
