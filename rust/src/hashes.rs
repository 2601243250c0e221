//! `Hash` of types of the core, for maps of counters.

use crate::exported::stun_endpoint::{received, server::Cause};
use crate::exported::stun_extra::{fingerprint::Fingerprint, framing::Frame};
use crate::exported::stun_ice::received::{Judged, Refusal};
use crate::exported::stun_ice::role::Role;
use crate::exported::stun_judging::named_user::NamedUser;
use core::hash::{Hash, Hasher};
use core::mem::discriminant;

macro_rules! hash {
    ($($name:ty: $parts:expr;)*) => {$(
        impl Hash for $name {
            fn hash<H: Hasher>(&self, state: &mut H) {
                discriminant(self).hash(state);
                $parts(*self).hash(state);
            }
        }
    )*};
}

hash! {
    Cause: |_| ();
    Fingerprint: |_| ();
    received::Refusal: |_| ();
    Refusal: |_| ();
    Role: |_| ();
    Frame: |frame| match frame {
        Frame::Message(length) | Frame::Need(length) => length,
        Frame::NotStun => 0,
    };
    NamedUser<'_>: |user| match user {
        NamedUser::ByName(name) => (Some(name), None),
        NamedUser::ByHash(hash) => (None, Some(hash)),
    };
    Judged: |judged| match judged {
        Judged::Accepted { priority, nominated, switched } => Some((priority, nominated, switched)),
        Judged::RoleConflict | Judged::Refused(_) => None,
    };
}
