//! Plays messages that are written step by step: `write NAME WORD ..`.

mod begin;
mod steps;
mod tell;

use super::names::{type_number, write_error};
use super::signing::copied;
use super::stage::Stage;
use super::{Answer, Heap};
use crate::exported::stun_types::message::{MessageWriteMutSlice, MessageWriteVec, StunWriteError};
use crate::exported::stun_types::prelude::*;

/// The value of each byte of a slice that is not written.
const UNTOUCHED: u8 = 0xff;

/// The message that is being written.
pub enum Writer<'a> {
    None,
    Vector(MessageWriteVec<&'a Heap>),
    Slice(Slice),
}

/// A message in the first bytes of an array, as far as it is written.
pub struct Slice {
    size: usize,
    written: Vec<u8>,
}

impl Slice {
    /// Makes a call of a writer of this message, over an array, and stores the message. `touched`
    /// comes before the answer if a byte after the message has changed.
    fn with<T>(
        &mut self,
        call: impl FnOnce(&mut MessageWriteMutSlice<'_>) -> Option<T>,
    ) -> Option<(T, &'static str)> {
        let mut room = [UNTOUCHED; 256];
        let writer = MessageWriteMutSlice::new(room.get_mut(..self.size)?);
        let mut writer = copied(&self.written, writer)?;
        let answer = call(&mut writer)?;
        let length = writer.finish().len();
        let (written, rest) = room.split_at_checked(length)?;
        self.written = written.to_vec();
        Some((answer, touched(rest)))
    }
}

/// Returns `touched` if bytes after a message have changed.
fn touched(rest: &[u8]) -> &'static str {
    match rest.iter().all(|byte| *byte == UNTOUCHED) {
        true => "",
        false => "touched ",
    }
}

/// Returns an empty text, or the error of a call that writes, with the type if an attribute exists
/// already.
fn made_text(made: Result<(), StunWriteError>) -> String {
    match made {
        Ok(()) => String::new(),
        Err(StunWriteError::AttributeExists(kind)) => {
            format!("AttributeExists {}", type_number(kind))
        }
        Err(error) => write_error(error).to_string(),
    }
}

/// Plays `write NAME WORD ..`.
pub fn call(stage: &mut Stage<'_>, words: &[&str]) -> Answer {
    match words {
        ["new"] => begin::empty(stage),
        ["begin", words @ ..] => begin::in_vector(stage, words),
        ["begin-in", room, words @ ..] => begin::in_slice(stage, room, words),
        ["add", attribute] => steps::add(stage, attribute),
        ["sign", way, algorithm, secret @ ..] => steps::sign(stage, way, algorithm, secret),
        ["check", way, secret @ ..] => tell::check(stage, way, secret),
        words => tell::call(stage, words),
    }
}
