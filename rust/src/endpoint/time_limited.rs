//! Users whose names contain the time at which they expire.

use super::UnixTime;
use crate::copies::granted;
use crate::credentials::LongTermCredentials;
use crate::exported::stun_judging::named_user::NamedUser;
use crate::exported::stun_types::message::hmac_sha1;
use crate::kit::alloc::Global;
use crate::kit::base64::STANDARD;
use crate::kit::prelude::String as KitString;
use alloc::string::{String, ToString};
use alloc::vec::Vec;
use core::fmt;

/// Users with time-limited names, as TURN servers for WebRTC use them. A name is `EXPIRY:USER`,
/// where EXPIRY is a Unix timestamp in seconds. The password is the HMAC-SHA1 of the name under a
/// secret, in base64. The service that issues names and the servers that accept them share the
/// secret, and neither stores a user. No RFC describes this form, but coturn and many services use
/// it.
///
/// The server cannot find a user by the hash of such a name, so switch off
/// [`user_hashes`](super::LongTerm::user_hashes). A user with two names looks like two users to the
/// server. To count users, use [`user_in`](Self::user_in).
///
/// # Examples
///
/// ```
/// use seatcrane_stun::endpoint::{Answer, Identified, LongTerm, Received, Server};
/// use seatcrane_stun::endpoint::{TimeLimitedUsers, UnixTime};
/// use std::net::SocketAddr;
///
/// # let secret = [7; 32];
/// let settings = LongTerm::new("example.org", secret).user_hashes(false);
/// let server = Server::builder(settings).build()?;
/// let users = TimeLimitedUsers::new("a secret of the servers and the service");
///
/// // The service:
/// let credentials = users.credentials("alice", UnixTime::from_secs(1_800_000_000));
/// assert_eq!(credentials.username(), "1800000000:alice");
///
/// // A server:
/// fn answer(
///     (server, users): (&Server, &TimeLimitedUsers),
///     bytes: &[u8],
///     from: SocketAddr,
///     now: UnixTime,
/// ) -> Option<Answer> {
///     let user;
///     let received = match server.identify(bytes, from, now) {
///         Identified::Done(received) => received,
///         Identified::Lookup(lookup) => {
///             user = users.find(lookup.user_id(), now).map(|found| server.user(found));
///             server.resume(lookup, user.as_ref())
///         }
///     };
///     match received {
///         Received::Answer(answer) => Some(answer),
///         _ => None, // a request to respond to, an indication, a response, or a drop
///     }
/// }
/// # let from = "192.0.2.1:4242".parse()?;
/// # assert!(answer((&server, &users), b"any", from, UnixTime::from_secs(1)).is_none());
/// # Ok::<(), Box<dyn std::error::Error>>(())
/// ```
#[derive(Clone)]
pub struct TimeLimitedUsers {
    secret: Vec<u8>,
}

impl fmt::Debug for TimeLimitedUsers {
    fn fmt(&self, f: &mut fmt::Formatter<'_>) -> fmt::Result {
        f.write_str("TimeLimitedUsers { .. }")
    }
}

impl TimeLimitedUsers {
    /// Returns the users whose passwords are made with this secret. Anybody who has the secret can
    /// make valid names, and anybody who has a name with its password can try secrets on it, so the
    /// secret must be long and random.
    pub fn new(secret: impl Into<Vec<u8>>) -> TimeLimitedUsers {
        TimeLimitedUsers {
            secret: secret.into(),
        }
    }

    /// Returns a name and a password for a user, which are valid until this time.
    #[must_use]
    pub fn credentials(&self, user: &str, until: UnixTime) -> LongTermCredentials {
        self.signed(alloc::format!("{}:{user}", until.as_secs()))
    }

    /// Returns the name and the password of the user whom a request names, or `None` if the request
    /// has a hash of the name, if the name does not begin with a time, or if that time has passed.
    #[must_use]
    pub fn find(&self, user: NamedUser<'_>, now: UnixTime) -> Option<LongTermCredentials> {
        let NamedUser::ByName(name) = user else {
            return None;
        };
        let until = TimeLimitedUsers::expiry_in(name)?;
        (until > now).then(|| self.signed(name.to_string()))
    }

    /// Returns the time until which a name is valid, or `None` if the name does not begin with a
    /// time.
    #[must_use]
    pub fn expiry_in(name: &str) -> Option<UnixTime> {
        let (seconds, _) = name.split_once(':').unwrap_or((name, ""));
        let is_number = seconds.bytes().all(|byte| byte.is_ascii_digit());
        let seconds = seconds.parse().ok().filter(|_| is_number)?;
        Some(UnixTime::from_secs(seconds))
    }

    /// Returns the user in a name, which is the part after the first colon, or the whole name if it
    /// has no colon.
    #[must_use]
    pub fn user_in(name: &str) -> &str {
        name.split_once(':').map_or(name, |(_, user)| user)
    }

    /// Returns a name with its password.
    fn signed(&self, name: String) -> LongTermCredentials {
        let digest = hmac_sha1(&self.secret, &[name.as_bytes()]);
        let mut password = KitString::new(Global);
        granted(STANDARD.encode_string(&digest, &mut password));
        LongTermCredentials::new(name, String::from(password.as_str()))
    }
}
