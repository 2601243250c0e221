//! Collects what `Debug` writes of a value that contains a secret.
use crate::host::Fail;
use crate::kit::alloc::{AllocError, Global};
use crate::kit::prelude::String;
use std::fmt::{self, Debug, Write};

/// A writer that stores all text that it is passed, and fails from the given call on.
pub struct FailingWriter {
    text: String,
    calls: u32,
}

impl Write for FailingWriter {
    fn write_str(&mut self, text: &str) -> fmt::Result {
        if let Err(AllocError) = self.text.push_str(text) {
            return Err(fmt::Error);
        }
        if self.calls == 0 {
            return Err(fmt::Error);
        }
        self.calls -= 1;
        Ok(())
    }
}

/// Returns the text that is passed to a writer that fails after `calls` calls, with each option of
/// a formatter in turn. The text includes what is passed after the failure.
fn cut<T: Debug>(alloc: Global, value: &T, calls: u32) -> String {
    let mut writer = FailingWriter {
        text: String::new(alloc),
        calls,
    };
    let _answer = write!(writer, "{value:?}");
    writer.calls = calls;
    let _answer = write!(writer, "{value:#?}");
    writer.calls = calls;
    let _answer = write!(writer, "{value:40?}");
    writer.calls = calls;
    let _answer = write!(writer, "{value:040?}");
    writer.calls = calls;
    let _answer = write!(writer, "{value:*<40?}");
    writer.calls = calls;
    let _answer = write!(writer, "{value:.3?}");
    writer.calls = calls;
    let _answer = write!(writer, "{value:+?}");
    let FailingWriter { text, calls: _ } = writer;
    text
}

/// Returns the texts of a value: plain, in lines, with a width, and inside another value. The other
/// texts are those that a failing writer is passed, with each option.
pub fn shown<T: Debug>(alloc: Global, value: &T) -> Result<[String; 8], Fail> {
    let nested = Some(value);
    Ok([
        crate::host::format_in!(alloc; "{value:?}")?,
        crate::host::format_in!(alloc; "{value:#?}")?,
        crate::host::format_in!(alloc; "{value:40?}")?,
        crate::host::format_in!(alloc; "{nested:#?}")?,
        cut(alloc, value, 0),
        cut(alloc, value, 1),
        cut(alloc, value, 2),
        cut(alloc, value, u32::MAX),
    ])
}

/// Returns whether none of these texts contains a word of the secret.
pub fn are_silent(texts: &[String], secrets: &[&str]) -> bool {
    texts
        .iter()
        .all(|text| secrets.iter().all(|secret| !text.contains(*secret)))
}
