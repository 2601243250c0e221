//! The handles that a caller in C owns: a flag, followed by a pointer to a value on the heap.

use crate::kit::alloc::Global;
use crate::kit::prelude::Box;
use alloc::boxed;
use core::mem;
use core::ptr;

/// A handle: all zero if it is empty, and otherwise what `put` wrote.
#[repr(C)]
pub struct Handle<T> {
    is_full: bool,
    at: *mut T,
}

impl<T> Handle<T> {
    const EMPTY: Handle<T> = Handle {
        is_full: false,
        at: ptr::null_mut(),
    };

    /// Takes the value out, if there is one, and leaves the handle empty.
    pub fn take(&mut self, _alloc: Global) -> Option<Box<T>> {
        let Handle { is_full, at } = mem::replace(self, Handle::EMPTY);
        // SAFETY: a full handle has the pointer that `put` wrote, and no call leaves two handles
        // with the same pointer.
        let taken = || unsafe { boxed::Box::from_raw(ptr::slice_from_raw_parts_mut(at, 1)) };
        is_full.then(|| Box::from_std(taken()))
    }

    /// Puts a value into an empty handle.
    pub fn put(&mut self, _alloc: Global, value: Box<T>) {
        let at = boxed::Box::into_raw(value.into_std()).cast();
        *self = Handle { is_full: true, at };
    }
}

pub mod endpoint {
    //! The handle of a server, a table of users or a client of `include/stunp_endpoint.h`, or of an
    //! ICE agent.

    use crate::exported::stun_client_calls::endpoint::ClientEndpoint;
    use crate::exported::stun_endpoint::open::OpenServer;
    use crate::exported::stun_endpoint::server::Server;
    use crate::exported::stun_endpoint::short_term::{ShortTermServer, ShortTermUsers};
    use crate::exported::stun_endpoint::users::Users;
    use crate::exported::stun_ice::checker::Checker;

    /// A value on the heap: a server, a table of users, an ICE agent, or a client.
    #[allow(clippy::large_enum_variant, reason = "a handle keeps it on the heap, and there are few")]
    pub enum Kept {
        Server(Server),
        Users(Users),
        ShortTerm(ShortTermServer),
        ShortTermUsers(ShortTermUsers),
        Open(OpenServer),
        Checker(Checker),
        Client(ClientEndpoint),
    }

    /// The handle of a value of one of these types.
    pub type EndpointHandle = super::Handle<Kept>;
}
