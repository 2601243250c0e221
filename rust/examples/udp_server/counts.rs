//! The outcomes of datagrams, counters of them, and the file in which Prometheus finds these.

use seatcrane_stun::endpoint::{Answer, Cause, DropReason, Refusal};
use std::fmt;
use std::fs::{self, File};
use std::io::{self, Cursor, Write};
use std::net::SocketAddr;
use std::sync::atomic::{AtomicU64, Ordering::Relaxed};

const CODES: [(u16, &str); 4] = [(400, "400"), (401, "401"), (420, "420"), (438, "438")];
/// The reasons for which a server with these settings drops a datagram.
const REASONS: [DropReason; 5] = [
    DropReason::NotStun,
    DropReason::Malformed,
    DropReason::WrongFingerprint,
    DropReason::UnknownAttribute,
    DropReason::OutOfMemory,
];
const LONGEST_FILE: usize = 4096;

pub enum Outcome {
    /// A success, or an error with this code, to send to this address. If it must leave from a
    /// socket other than the one at which the datagram arrived, it has the number of that socket.
    Answer(u16, Vec<u8>, SocketAddr, Option<usize>),
    Dropped(DropReason),
    /// An accepted message that is not a Binding request.
    Other,
}

impl From<Answer> for Outcome {
    fn from(answer: Answer) -> Outcome {
        let (code, to) = (answer.refusal().map_or(200, Refusal::code), answer.to());
        Outcome::Answer(code, answer.into_bytes(), to, None)
    }
}

impl fmt::Display for Outcome {
    fn fmt(&self, f: &mut fmt::Formatter<'_>) -> fmt::Result {
        match self {
            Outcome::Answer(code, ..) => write!(f, "{code}"),
            Outcome::Dropped(why) => write!(f, "dropped: {why}"),
            Outcome::Other => f.write_str("dropped: no Binding request"),
        }
    }
}

#[derive(Default)]
pub struct Counts {
    answered: AtomicU64,
    refused: [AtomicU64; CODES.len()],
    dropped: [AtomicU64; REASONS.len() + 1],
    causes: [AtomicU64; Cause::COUNT],
    not_binding: AtomicU64,
}

/// Counters of the same kind, which have the same name and differ in the value of a label.
struct Kind(&'static str, &'static str, &'static str);

impl Counts {
    /// Counts an outcome, and the cause if the message was refused.
    pub fn note(&self, outcome: &Outcome, cause: Option<Cause>) {
        let count = match outcome {
            Outcome::Answer(code, ..) => {
                let refused = CODES.iter().position(|one| one.0 == *code);
                refused.map_or(&self.answered, |index| &self.refused[index])
            }
            Outcome::Dropped(why) => {
                let index = REASONS.iter().position(|one| one == why);
                &self.dropped[index.unwrap_or(REASONS.len())]
            }
            Outcome::Other => &self.not_binding,
        };
        count.fetch_add(1, Relaxed);
        if let Some(cause) = cause {
            self.causes[cause.index()].fetch_add(1, Relaxed);
        }
    }

    /// Shows each counter: its kind, the value of its label, and the number.
    fn each(&self, mut show: impl FnMut(&Kind, &str, u64) -> fmt::Result) -> fmt::Result {
        let kind = Kind("answered", "", "Requests that succeeded.");
        show(&kind, "", self.answered.load(Relaxed))?;
        let kind = Kind("refused", "code", "Requests answered by an error.");
        for ((_, code), count) in CODES.iter().zip(&self.refused) {
            show(&kind, code, count.load(Relaxed))?;
        }
        let kind = Kind("dropped", "reason", "Datagrams without an answer.");
        let reasons = REASONS.iter().map(|why| why.name()).chain(["Other"]);
        for (reason, count) in reasons.zip(&self.dropped) {
            show(&kind, reason, count.load(Relaxed))?;
        }
        let help = "Refused requests, by the first failed check.";
        let kind = Kind("cause", "check", help);
        for (cause, count) in Cause::ALL.iter().zip(&self.causes) {
            show(&kind, cause.name(), count.load(Relaxed))?;
        }
        let kind = Kind("not_binding", "", "Other than Binding requests.");
        show(&kind, "", self.not_binding.load(Relaxed))
    }

    /// Writes the counters to a new file and renames it to `file`, so that a reader of `file` never
    /// sees an incomplete file. If the new file exists already, it is removed first, so that a link
    /// is not followed.
    pub fn write(&self, file: &str, new: &str) -> io::Result<()> {
        let mut text = Cursor::new([0; LONGEST_FILE]);
        write!(text, "{}", Metrics(self))?;
        let length = text.position() as usize;
        let _ = fs::remove_file(new);
        File::create_new(new)?.write_all(&text.get_ref()[..length])?;
        fs::rename(new, file)
    }
}

/// Writes the counters in one line, as `NAME=VALUE`.
impl fmt::Display for Counts {
    fn fmt(&self, f: &mut fmt::Formatter<'_>) -> fmt::Result {
        let mut between = "";
        self.each(|Kind(name, ..), value, count| {
            let underscore = if value.is_empty() { "" } else { "_" };
            write!(f, "{between}{name}{underscore}{value}={count}")?;
            between = " ";
            Ok(())
        })
    }
}

/// The counters in the text format of Prometheus.
struct Metrics<'a>(&'a Counts);

impl fmt::Display for Metrics<'_> {
    fn fmt(&self, f: &mut fmt::Formatter<'_>) -> fmt::Result {
        let mut last = "";
        self.0.each(|Kind(name, label, help), value, count| {
            if last != *name {
                writeln!(f, "# HELP stun_{name}_total {help}")?;
                writeln!(f, "# TYPE stun_{name}_total counter")?;
            }
            last = name;
            match *label {
                "" => writeln!(f, "stun_{name}_total {count}"),
                _ => writeln!(f, "stun_{name}_total{{{label}=\"{value}\"}} {count}"),
            }
        })
    }
}
