//! A batch of datagrams, whose responses are in one buffer.

use super::{Answer, Received, Server, UnixTime, Users};
use alloc::vec::Vec;
use core::net::SocketAddr;
use core::ops::Range;

/// The responses to a batch of datagrams, one after another in one buffer. Pass it with the next
/// batch too, so that its memory is used again.
///
/// [`Server::receive_many`] has an example.
#[derive(Clone, Debug, Default)]
pub struct Answers {
    bytes: Vec<u8>,
    /// The response that was written last. The next response reuses its memory.
    page: Vec<u8>,
}

impl Answers {
    /// Returns a buffer without responses. It does not allocate.
    #[must_use]
    pub fn new() -> Answers {
        Answers::default()
    }

    /// Returns the bytes of all responses, each at its [`range`](Answer::range).
    #[must_use]
    pub fn bytes(&self) -> &[u8] {
        &self.bytes
    }
}

impl Answer<Range<usize>> {
    /// Returns the range of the response in [`Answers::bytes`].
    #[must_use]
    pub fn range(&self) -> Range<usize> {
        self.bytes.clone()
    }
}

impl Server {
    /// Judges the datagrams of a batch, each like [`receive`](Self::receive), and writes the
    /// responses one after another into one buffer, replacing its contents. Use it with a socket
    /// that receives several datagrams at once (`recvmmsg`, UDP GRO) and sends several at once
    /// (`sendmmsg`).
    ///
    /// The iterator judges a datagram when you ask it for the next result. The k-th result is what
    /// `receive` would return for the k-th datagram at the time `now`. No other datagram of the
    /// batch changes this result, so the order of the datagrams does not matter. If an allocation
    /// fails, only the datagram that needed it is [dropped](super::DropReason::OutOfMemory). Once
    /// the buffer has grown to the size of a batch, a response needs one allocation, for its nonce,
    /// as it does in [`receive_into`](Self::receive_into).
    ///
    /// With a batch you need no separate buffer for each response that has not been sent yet. If
    /// you send each response before you judge the next datagram, call `receive_into`: a batch does
    /// the same work for each datagram, and then copies the response once more.
    ///
    /// # Examples
    ///
    /// ```
    /// use seatcrane_stun::endpoint::{Answers, LongTerm, Received, Server, UnixTime};
    ///
    /// # let secret = [1; 32]; // yours must be random
    /// let settings = LongTerm::new("example.org", secret).open_binding(true);
    /// let server = Server::builder(settings).build()?;
    /// let (users, mut answers) = (server.users(), Answers::new());
    ///
    /// // What a socket with GRO returns: datagrams of one source and of one length.
    /// let arrived = b"\0\x01\0\0\x21\x12\xa4\x42 any 12 byte\
    ///     \0\x01\0\0\x21\x12\xa4\x42 of the next";
    /// let from = "192.0.2.1:4242".parse()?;
    /// let datagrams = arrived.chunks(20).map(|bytes| (bytes, from));
    ///
    /// let mut to_send = Vec::new(); // keep it between batches too
    /// for received in server.receive_many(datagrams, UnixTime::now(), &users, &mut answers) {
    ///     match received {
    ///         Received::Answer(answer) => to_send.push((answer.to(), answer.range())),
    ///         Received::Dropped(why) => eprintln!("dropped: {why}"),
    ///         _ => {} // a request with another method than Binding, or no request
    ///     }
    /// }
    /// for (to, range) in to_send.drain(..) {
    ///     let response = &answers.bytes()[range];
    ///     println!("{} bytes to {to}", response.len()); // or all by one `sendmmsg`
    /// }
    /// # assert_eq!(answers.bytes().len(), 64);
    /// # Ok::<(), Box<dyn std::error::Error>>(())
    /// ```
    pub fn receive_many<'a, D>(
        &self,
        datagrams: D,
        now: UnixTime,
        users: &'a Users,
        answers: &mut Answers,
    ) -> impl Iterator<Item = Received<'a, Range<usize>>>
    where
        D: IntoIterator<Item = (&'a [u8], SocketAddr)>,
    {
        answers.bytes.clear();
        let datagrams = datagrams.into_iter();
        datagrams.map(move |(bytes, from)| self.receive_onto(bytes, from, now, users, answers))
    }

    /// Judges a datagram, and appends its response to the answers.
    fn receive_onto<'a>(
        &self,
        bytes: &'a [u8],
        from: SocketAddr,
        now: UnixTime,
        users: &'a Users,
        answers: &mut Answers,
    ) -> Received<'a, Range<usize>> {
        let Answers { bytes: all, page } = answers;
        self.receive_into(bytes, from, now, users, page)
            .moved(|response| {
                let start = all.len();
                all.try_reserve(response.len()).ok()?;
                all.extend_from_slice(response);
                Some(start..all.len())
            })
    }
}
