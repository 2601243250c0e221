//! Splits a stream into messages.

use crate::exported::stun_extra::framing::{Frame, next_frame, next_turn_frame};
use alloc::vec::Vec;
use core::fmt;

/// A buffer that splits the bytes of a stream, such as a TCP connection, into messages (RFC 8489,
/// section 6.2.2), or into messages and [`ChannelData`](crate::extra::turn::ChannelData) (RFC 8656,
/// section 12.5).
///
/// # Examples
///
/// ```
/// use seatcrane_stun::endpoint::{FrameBuffer, StreamError};
///
/// # fn main() -> Result<(), StreamError> {
/// let message = b"\0\x01\0\0\x21\x12\xa4\x42 any 12 byte";
/// let mut buffer = FrameBuffer::new();
/// buffer.push(&message[..7]);
/// assert_eq!(buffer.pop()?, None);
/// buffer.push(&message[7..]);
/// assert_eq!(buffer.pop()?, Some(&message[..]));
/// assert_eq!(buffer.pop()?, None);
/// # Ok(())
/// # }
/// ```
#[derive(Clone)]
pub struct FrameBuffer {
    bytes: Vec<u8>,
    /// The number of bytes at the front that [`pop`](FrameBuffer::pop) has returned.
    popped: usize,
    longest: usize,
    has_channels: bool,
}

/// Returns an empty buffer, like [`FrameBuffer::new`].
impl Default for FrameBuffer {
    fn default() -> FrameBuffer {
        FrameBuffer::new()
    }
}

/// Shows the number of bytes in the buffer that have not been returned yet, but not the bytes
/// themselves.
impl fmt::Debug for FrameBuffer {
    fn fmt(&self, f: &mut fmt::Formatter<'_>) -> fmt::Result {
        f.debug_struct("FrameBuffer")
            .field("waiting", &self.waiting())
            .field("longest", &self.longest)
            .finish_non_exhaustive()
    }
}

/// Why a stream cannot be read any further. Close the connection.
///
/// # Examples
///
/// ```
/// use seatcrane_stun::endpoint::{FrameBuffer, StreamError};
///
/// let mut buffer = FrameBuffer::new();
/// buffer.push(b"GET / HTTP/1.1");
/// assert_eq!(buffer.pop(), Err(StreamError::NotStun));
/// ```
#[derive(Clone, Copy, Debug, PartialEq, Eq, Hash)]
#[non_exhaustive]
pub enum StreamError {
    /// The stream carries something other than STUN (or, if [`FrameBuffer::for_turn`] made the
    /// buffer, something other than STUN and ChannelData).
    NotStun,
    /// A message is longer than [`FrameBuffer::longest`] allows.
    TooLong,
}

impl fmt::Display for StreamError {
    fn fmt(&self, f: &mut fmt::Formatter<'_>) -> fmt::Result {
        f.write_str(match self {
            StreamError::NotStun => "the stream carries something else than STUN",
            StreamError::TooLong => "a message of the stream is too long",
        })
    }
}

impl core::error::Error for StreamError {}

impl FrameBuffer {
    /// Returns an empty buffer for a stream of messages.
    #[must_use]
    pub fn new() -> FrameBuffer {
        FrameBuffer {
            bytes: Vec::new(),
            popped: 0,
            longest: usize::MAX,
            has_channels: false,
        }
    }

    /// Returns an empty buffer for a stream of TURN, which also carries ChannelData.
    /// [`pop`](Self::pop) returns ChannelData with its header and its padding, so you recognize it
    /// by its first byte, which is from 0x40 to 0x7F.
    ///
    /// # Examples
    ///
    /// ```
    /// use seatcrane_stun::endpoint::{FrameBuffer, StreamError};
    /// use seatcrane_stun::extra::turn::ChannelData;
    ///
    /// # fn main() -> Result<(), StreamError> {
    /// let mut buffer = FrameBuffer::for_turn().longest(2048);
    /// buffer.push(b"\x40\0\0\x05media\0\0\0\x40\0\xff\xff");
    /// let frame = buffer.pop()?.and_then(ChannelData::from_bytes).unwrap();
    /// assert_eq!((frame.channel(), frame.data()), (0x4000, &b"media"[..]));
    /// // The second ChannelData is too long, which its header already says.
    /// assert_eq!(buffer.pop(), Err(StreamError::TooLong));
    /// # Ok(())
    /// # }
    /// ```
    #[must_use]
    pub fn for_turn() -> FrameBuffer {
        FrameBuffer {
            has_channels: true,
            ..FrameBuffer::new()
        }
    }

    /// Sets the length of the longest message that is allowed, in bytes and including its header.
    /// By default any length is allowed, so a peer can make the buffer store 65,552 bytes in
    /// addition to those that one [`push`](Self::push) adds. If a message is longer,
    /// [`pop`](Self::pop) fails as soon as its header has arrived.
    #[must_use]
    pub fn longest(mut self, bytes: usize) -> FrameBuffer {
        self.longest = bytes;
        self
    }

    /// Appends bytes that were read. Call [`pop`](Self::pop) until it returns `None` before you
    /// call `push` again, because otherwise the buffer grows.
    pub fn push(&mut self, bytes: &[u8]) {
        // The bytes that were not returned are moved only if they are at most half of the buffer,
        // so each byte is moved once on average.
        if self.popped >= self.bytes.len() - self.popped {
            self.bytes.drain(..self.popped);
            self.popped = 0;
        }
        self.bytes.extend_from_slice(bytes);
    }

    /// Returns the number of bytes in the buffer that [`pop`](Self::pop) has not returned yet.
    #[must_use]
    pub fn waiting(&self) -> usize {
        self.bytes.len() - self.popped
    }

    /// Removes the first message and returns it, or returns `None` if the message is not complete
    /// yet. Call it until it returns `None`.
    ///
    /// # Errors
    ///
    /// After one of these errors, all further calls fail too.
    ///
    /// - [`StreamError::NotStun`]: the bytes after the last message are not the beginning of a
    ///   message.
    /// - [`StreamError::TooLong`]: the message is longer than [`longest`](Self::longest) allows.
    pub fn pop(&mut self) -> Result<Option<&[u8]>, StreamError> {
        let begin = self.popped;
        let rest = &self.bytes[begin..];
        let frame = if self.has_channels {
            next_turn_frame(rest)
        } else {
            next_frame(rest)
        };
        let (length, is_whole) = match frame {
            Frame::Message(length) => (length, true),
            Frame::Need(more) => (rest.len() + more, false),
            Frame::NotStun => return Err(StreamError::NotStun),
        };
        if length > self.longest {
            return Err(StreamError::TooLong);
        }
        if !is_whole {
            return Ok(None);
        }
        self.popped += length;
        Ok(Some(&self.bytes[begin..self.popped]))
    }
}
