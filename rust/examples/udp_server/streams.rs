//! The TCP connections of a listener. At most [`MOST`] of them are open at a time.

use std::net::{Shutdown, TcpStream};
use std::sync::{Arc, Mutex, MutexGuard, PoisonError};
use std::time::Instant;

/// The maximum number of open connections.
pub const MOST: usize = 64;

/// How many threads serve a listener: one for each connection, and some that wait for the next.
pub const THREADS: usize = MOST + 8;

/// A connection that is open.
pub struct Open {
    pub stream: TcpStream,
    since: Mutex<Instant>,
}

impl Open {
    /// Returns when the last complete message arrived, or the connection began.
    pub fn since(&self) -> Instant {
        *locked(&self.since)
    }

    /// Notes that a complete message has arrived.
    pub fn note_message(&self) {
        *locked(&self.since) = Instant::now();
    }
}

/// The open connections of a listener.
#[derive(Default)]
pub struct Streams(Mutex<Vec<Arc<Open>>>);

impl Streams {
    /// Adds a connection. If there are too many, the connection that has been silent for longest
    /// ends. Its thread notices that at once, and is then free for the next connection.
    pub fn add(&self, stream: TcpStream) -> Arc<Open> {
        let mut all = locked(&self.0);
        if all.len() >= MOST {
            let oldest = (0..all.len()).min_by_key(|&index| all[index].since());
            let oldest = oldest.map(|index| all.swap_remove(index));
            // A connection that its client has ended is gone already.
            oldest.map(|oldest| oldest.stream.shutdown(Shutdown::Both).ok());
        }
        let one = Arc::new(Open {
            stream,
            since: Mutex::new(Instant::now()),
        });
        all.push(one.clone());
        one
    }

    /// Removes a connection that has ended, if `add` has not done so.
    pub fn remove(&self, ended: &Arc<Open>) {
        locked(&self.0).retain(|one| !Arc::ptr_eq(one, ended));
    }
}

fn locked<T>(value: &Mutex<T>) -> MutexGuard<'_, T> {
    value.lock().unwrap_or_else(PoisonError::into_inner)
}
