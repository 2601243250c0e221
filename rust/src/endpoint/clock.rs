//! The clock of a client.

use crate::Instant;
use core::time::Duration;

/// A clock that never goes back, for the times that clients and ICE agents take.
///
/// # Examples
///
/// ```
/// use seatcrane_stun::Instant;
/// use seatcrane_stun::endpoint::Clock;
/// use std::time::Duration;
///
/// let clock = Clock::start();
/// let due = clock.now() + Duration::from_secs(1);
/// assert!(clock.timeout(Some(due)).unwrap() <= Duration::from_secs(1));
/// assert!(clock.timeout(Some(Instant::ZERO)).unwrap() > Duration::ZERO); // never zero
/// assert_eq!(clock.timeout(None), None);
/// ```
#[derive(Clone, Copy, Debug)]
pub struct Clock(std::time::Instant);

impl Clock {
    /// Starts a clock.
    #[must_use]
    pub fn start() -> Clock {
        Clock(std::time::Instant::now())
    }

    /// Returns the current time.
    #[must_use]
    pub fn now(&self) -> Instant {
        Instant::from_std(self.0)
    }

    /// Converts a time that you have already read from the standard library's clock to a time of
    /// this clock. A time before the clock was started becomes [`Instant::ZERO`].
    ///
    /// # Examples
    ///
    /// ```
    /// use seatcrane_stun::endpoint::Clock;
    ///
    /// let clock = Clock::start();
    /// let now = std::time::Instant::now(); // once for all that is to be done now
    /// assert_eq!(clock.to_std(clock.at(now)), now);
    /// ```
    #[must_use]
    pub fn at(&self, time: std::time::Instant) -> Instant {
        Instant::ZERO + time.saturating_duration_since(self.0)
    }

    /// Converts a time of this clock to a time of the standard library, for example for a timer.
    #[must_use]
    pub fn to_std(&self, at: Instant) -> std::time::Instant {
        at.to_std(self.0)
    }

    /// Returns the duration until this time, but at least a millisecond, because
    /// [`UdpSocket::set_read_timeout`](std::net::UdpSocket::set_read_timeout) fails if the timeout
    /// is zero. If `until` is `None`, the result is `None`, which means to wait without limit.
    #[must_use]
    pub fn timeout(&self, until: Option<Instant>) -> Option<Duration> {
        let left = until?.saturating_duration_since(self.now());
        Some(left.max(Duration::from_millis(1)))
    }
}
