//! Emits `tracing` events if the `tracing` feature is enabled.

use crate::message::Message;
#[cfg(feature = "tracing")]
use crate::message::MessageHeader;
#[cfg(feature = "tracing")]
use crate::transaction::TransactionId;
use core::fmt::Debug;
#[cfg(feature = "tracing")]
use tracing::field::DisplayValue;

/// Records an event with the level DEBUG and the target `seatcrane_stun`.
macro_rules! event {
    ($($words:tt)*) => {
        #[cfg(feature = "tracing")]
        ::tracing::debug!(target: "seatcrane_stun", $($words)*);
    };
}
pub(crate) use event;

/// Records the outcome of a datagram that came from an address. `received` is the outcome, and
/// `cause` returns why a server refused the datagram.
macro_rules! record {
    ($bytes:expr, $from:expr, $received:expr, $cause:expr) => {
        #[cfg(feature = "tracing")]
        crate::endpoint::verdict::record($bytes, $from, &$received, $cause);
    };
}
pub(crate) use record;

/// Records the verdict of an authenticator on a message, and returns the verdict.
#[cfg_attr(not(feature = "tracing"), allow(unused_variables))]
pub(crate) fn judged<V: Debug, E: Debug>(
    message: &Message<'_>,
    verdict: Result<V, E>,
) -> Result<V, E> {
    event!(id = %message.transaction_id(), class = %message.class(), ?verdict, "judged");
    verdict
}

/// Returns the transaction ID of a message in the form in which events record it, or `None` if the
/// bytes do not begin with a STUN header.
#[cfg(feature = "tracing")]
pub(crate) fn id_in(bytes: &[u8]) -> Option<DisplayValue<TransactionId>> {
    let header = MessageHeader::from_bytes(bytes).ok()?;
    Some(tracing::field::display(header.transaction_id()))
}
