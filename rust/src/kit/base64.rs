//! Base64 (RFC 4648, section 4), with an allocator.

use super::alloc::{AllocError, Allocator};
use super::string::String;

const LETTERS: &[u8; 64] = b"ABCDEFGHIJKLMNOPQRSTUVWXYZabcdefghijklmnopqrstuvwxyz0123456789+/";

/// The alphabet of RFC 4648, section 4, with padding.
#[derive(Clone, Copy, Debug)]
pub struct Standard;

/// The alphabet of RFC 4648, section 4, with padding.
pub const STANDARD: Standard = Standard;

/// The error if a text does not consist of groups of four base64 characters, or if its bytes do not
/// fit into the slice.
#[derive(Clone, Copy, Debug, PartialEq, Eq)]
pub struct NotDecoded;

/// The error if the characters do not fit into the slice.
#[derive(Clone, Copy, Debug, PartialEq, Eq)]
pub struct NoRoom;

impl Standard {
    /// Decodes a text into `bytes`, and returns the number of decoded bytes. Only whole groups of
    /// four characters without padding are decoded, because the sources need no others.
    pub fn decode_slice(self, letters: &[u8], bytes: &mut [u8]) -> Result<usize, NotDecoded> {
        let length = letters.len() / 4 * 3;
        if letters.len() % 4 != 0 || length > bytes.len() {
            return Err(NotDecoded);
        }
        for (group, bytes) in letters.chunks_exact(4).zip(bytes.chunks_exact_mut(3)) {
            let mut bits = 0u32;
            for letter in group {
                let six = LETTERS.iter().zip(0..).find(|(other, _)| *other == letter);
                bits = bits << 6 | six.ok_or(NotDecoded)?.1;
            }
            bytes.copy_from_slice(&bits.to_be_bytes()[1..]);
        }
        Ok(length)
    }

    /// Appends the base64 of `bytes` to a text, with padding.
    pub fn encode_string<A: Allocator>(
        self,
        bytes: &[u8],
        text: &mut String<A>,
    ) -> Result<(), AllocError> {
        for group in bytes.chunks(3) {
            for letter in letters_of(group) {
                text.push(char::from(letter))?;
            }
        }
        Ok(())
    }

    /// Writes the base64 of `bytes` at the start of `letters`, with padding, and returns its
    /// length.
    pub fn encode_slice(self, bytes: &[u8], letters: &mut [u8]) -> Result<usize, NoRoom> {
        let length = bytes.len().div_ceil(3) * 4;
        let room = letters.get_mut(..length).ok_or(NoRoom)?;
        for (group, four) in bytes.chunks(3).zip(room.chunks_exact_mut(4)) {
            four.copy_from_slice(&letters_of(group));
        }
        Ok(length)
    }
}

/// Returns the four characters of a group of one to three bytes.
fn letters_of(group: &[u8]) -> [u8; 4] {
    let mut whole = [0; 4];
    whole[1..=group.len()].copy_from_slice(group);
    let bits = u32::from_be_bytes(whole);
    let mut letters = [b'='; 4];
    for (letter, place) in letters.iter_mut().zip(0..=group.len()) {
        *letter = LETTERS[(bits >> (18 - 6 * place) & 63) as usize];
    }
    letters
}

/// Why a text was not decoded into memory from an allocator.
#[derive(Clone, Copy, Debug, PartialEq, Eq)]
pub enum DecodeAllocError {
    NotDecoded,
    OutOfMemory,
}

impl Standard {
    /// Decodes base64 with padding.
    pub fn decode<A: Allocator>(
        self,
        alloc: A,
        letters: &[u8],
    ) -> Result<super::prelude::Vec<u8, A>, DecodeAllocError> {
        let pads = letters.iter().rev().take(2).take_while(|letter| **letter == b'=').count();
        let bare = &letters[..letters.len() - pads];
        let mut bytes = super::prelude::Vec::with_capacity(alloc, bare.len() / 4 * 3 + 3)
            .map_err(|_| DecodeAllocError::OutOfMemory)?;
        if letters.len() % 4 != 0 {
            return Err(DecodeAllocError::NotDecoded);
        }
        for group in bare.chunks(4) {
            let mut bits = 0u32;
            for place in 0..4 {
                let six = match group.get(place) {
                    Some(letter) => LETTERS.iter().zip(0..).find(|(other, _)| *other == letter)
                        .ok_or(DecodeAllocError::NotDecoded)?.1,
                    None => 0,
                };
                bits = bits << 6 | six;
            }
            let count = group.len() - 1;
            let [_, whole @ ..] = bits.to_be_bytes();
            if whole[count..].iter().any(|byte| *byte != 0) {
                return Err(DecodeAllocError::NotDecoded);
            }
            for byte in &whole[..count] {
                bytes.push(*byte).map_err(|_| DecodeAllocError::OutOfMemory)?;
            }
        }
        Ok(bytes)
    }
}
