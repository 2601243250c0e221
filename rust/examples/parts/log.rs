//! The lines of a server's log, each with the time.

use std::fmt;
use std::sync::atomic::{AtomicBool, Ordering::Relaxed};
use std::time::{SystemTime, UNIX_EPOCH};

const NAME: &str = env!("CARGO_BIN_NAME");
static IS_SERVING: AtomicBool = AtomicBool::new(false);

/// Makes error messages begin with the time from now on. Earlier messages are about how the server
/// was started.
pub fn serve() {
    IS_SERVING.store(true, Relaxed);
}

/// Prints a line on standard error.
pub fn complain(what: fmt::Arguments<'_>) {
    match IS_SERVING.load(Relaxed) {
        true => eprintln!("{Now} {NAME}: {what}"),
        false => eprintln!("{NAME}: {what}"),
    }
}

/// Prints as the current time in UTC, such as `2026-11-28T19:41:07.250Z`, without an allocation.
pub struct Now;

impl fmt::Display for Now {
    fn fmt(&self, f: &mut fmt::Formatter<'_>) -> fmt::Result {
        let since = SystemTime::now().duration_since(UNIX_EPOCH);
        let since = since.unwrap_or_default();
        let (seconds, millis) = (since.as_secs(), since.subsec_millis());
        let (year, month, day) = date(seconds / 86_400);
        let (hour, minute, second) = (seconds / 3600 % 24, seconds / 60 % 60, seconds % 60);
        write!(
            f,
            "{year:04}-{month:02}-{day:02}T{hour:02}:{minute:02}:{second:02}.{millis:03}Z"
        )
    }
}

/// Returns the year, the month and the day that is this many days after 1970-01-01.
fn date(mut days: u64) -> (u64, u64, u64) {
    let is_leap = |year: u64| year % 4 == 0 && (year % 100 != 0 || year % 400 == 0);
    let mut year = 1970;
    while days >= 365 + u64::from(is_leap(year)) {
        days -= 365 + u64::from(is_leap(year));
        year += 1;
    }
    let february = 28 + u64::from(is_leap(year));
    let mut month = 1;
    for length in [31, february, 31, 30, 31, 30, 31, 31, 30, 31, 30, 31] {
        if days < length {
            break;
        }
        days -= length;
        month += 1;
    }
    (year, month, days + 1)
}
