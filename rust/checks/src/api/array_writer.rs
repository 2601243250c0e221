//! A writer that the tests define, over an array.

use crate::exported::stun_types::data::OwnedBytes;
use crate::exported::stun_types::message::StunWriteError;
use crate::exported::stun_types::prelude::*;

/// Writes a message of at most `N` bytes to an array of its own.
pub struct ArrayWriter<const N: usize> {
    buffer: [u8; N],
    written: usize,
}

impl<const N: usize> ArrayWriter<N> {
    /// Creates an empty writer, in which each byte that is not written yet is 0xff.
    pub fn new() -> ArrayWriter<N> {
        ArrayWriter {
            buffer: [0xff; N],
            written: 0,
        }
    }
}

impl<const N: usize> OwnedBytes for ArrayWriter<N> {
    fn bytes(&self) -> &[u8] {
        &self.buffer[..self.written]
    }
}

impl<const N: usize> MessageWrite for ArrayWriter<N> {
    type Output = ArrayWriter<N>;

    fn data(&self) -> &[u8] {
        &self.buffer[..self.written]
    }

    fn room(&self) -> usize {
        N - self.written
    }

    fn reserve(&mut self, additional: usize) -> Result<(), StunWriteError> {
        if self.room() < additional {
            return Err(StunWriteError::TooSmall);
        }
        Ok(())
    }

    fn append(&mut self, tail: &[u8]) {
        let start = self.written;
        let end = start + tail.len();
        let buffer = &mut self.buffer[..];
        buffer[start..end].copy_from_slice(tail);
        self.written = end;
    }

    fn set_length(&mut self, message_length: u16) {
        let [high, low] = message_length.to_be_bytes();
        self.buffer[2] = high;
        self.buffer[3] = low;
    }

    fn finish(self) -> ArrayWriter<N> {
        self
    }
}
