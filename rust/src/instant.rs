//! The parts of `Instant` that the exported core lacks.

use crate::Instant;
use core::ops::{AddAssign, Sub, SubAssign};
use core::time::Duration;

impl Instant {
    /// Returns the time that has elapsed since `start` on the standard library's clock.
    ///
    /// Choose one `start` for the whole program, so that all times can be compared.
    ///
    /// # Examples
    ///
    /// ```
    /// use seatcrane_stun::Instant;
    ///
    /// let start = std::time::Instant::now(); // once
    /// let before = Instant::from_std(start);
    /// let after = Instant::from_std(start);
    /// assert!(before <= after);
    /// ```
    #[cfg(feature = "std")]
    #[cfg_attr(docsrs, doc(cfg(feature = "std")))]
    #[must_use]
    pub fn from_std(start: std::time::Instant) -> Instant {
        Instant::ZERO + start.elapsed()
    }

    /// Returns this time on the standard library's clock, for a timer such as `sleep_until`.
    /// `start` is the time that was passed to [`from_std`](Instant::from_std).
    ///
    /// # Panics
    ///
    /// Panics if the standard library's clock cannot represent the time. If its times have 64 bits
    /// of seconds, as on Linux, it can represent all of them.
    ///
    /// # Examples
    ///
    /// ```
    /// use seatcrane_stun::Instant;
    /// use std::time::Duration;
    ///
    /// let start = std::time::Instant::now(); // once
    /// let until = Instant::ZERO + Duration::from_secs(2);
    /// assert_eq!(until.to_std(start), start + Duration::from_secs(2));
    /// ```
    #[cfg(feature = "std")]
    #[cfg_attr(docsrs, doc(cfg(feature = "std")))]
    #[must_use]
    pub fn to_std(self, start: std::time::Instant) -> std::time::Instant {
        start + (self - Instant::ZERO)
    }

    /// Returns the time elapsed since `earlier`, or zero if `earlier` is later than `self`.
    #[must_use]
    pub fn duration_since(self, earlier: Instant) -> Duration {
        self - earlier
    }

    /// Returns the time elapsed since `earlier`, or zero if `earlier` is later than `self`.
    ///
    /// [`duration_since`](Instant::duration_since) returns the same. Both names exist because the
    /// standard library has both.
    #[must_use]
    pub fn saturating_duration_since(self, earlier: Instant) -> Duration {
        self - earlier
    }

    /// Returns the time elapsed since `earlier`, or `None` if `earlier` is later than `self`.
    #[must_use]
    pub fn checked_duration_since(self, earlier: Instant) -> Option<Duration> {
        (earlier <= self).then(|| self - earlier)
    }

    /// Returns the time `span` later, or `None` if that is after [`Instant::MAX`].
    pub fn checked_add(self, span: Duration) -> Option<Instant> {
        let nanos = u64::try_from(span.as_nanos()).ok()?;
        self.as_nanos().checked_add(nanos).map(Instant::from_nanos)
    }

    /// Returns the time `span` earlier, or `None` if that is before [`Instant::ZERO`].
    pub fn checked_sub(self, span: Duration) -> Option<Instant> {
        let nanos = u64::try_from(span.as_nanos()).ok()?;
        self.as_nanos().checked_sub(nanos).map(Instant::from_nanos)
    }
}

/// Adds a duration. The sum stops at [`Instant::MAX`].
impl AddAssign<Duration> for Instant {
    fn add_assign(&mut self, span: Duration) {
        *self = *self + span;
    }
}

/// Returns the time `span` earlier. The difference stops at [`Instant::ZERO`].
impl Sub<Duration> for Instant {
    type Output = Instant;

    fn sub(self, span: Duration) -> Instant {
        self.checked_sub(span).unwrap_or(Instant::ZERO)
    }
}

/// Subtracts a duration. The difference stops at [`Instant::ZERO`].
impl SubAssign<Duration> for Instant {
    fn sub_assign(&mut self, span: Duration) {
        *self = *self - span;
    }
}

/// The default is [`Instant::ZERO`].
impl Default for Instant {
    fn default() -> Instant {
        Instant::ZERO
    }
}
