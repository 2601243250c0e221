//! Parses transcripts: paragraphs with empty lines between them, and the lines of a paragraph.

use std::collections::HashMap;

/// A transcript, and the names that it defines.
pub struct Transcript<'a> {
    text: &'a str,
    /// The words that a line `@NAME WORD ..` gives to a name.
    meanings: HashMap<&'a str, Vec<&'a str>>,
}

impl<'a> Transcript<'a> {
    /// Parses a transcript.
    pub fn new(text: &'a str) -> Transcript<'a> {
        let text = text.strip_suffix('\n').unwrap_or(text);
        let named = text.lines().filter(|line| line.starts_with('@'));
        let meanings = named.filter_map(|line| {
            let (name, words) = line.split_once(' ')?;
            Some((name, words.split(' ').collect()))
        });
        Transcript {
            text,
            meanings: meanings.collect(),
        }
    }

    /// Returns its paragraphs.
    pub fn paragraphs(&self) -> impl Iterator<Item = &'a str> + use<'a> {
        self.text.split("\n\n")
    }

    /// Returns the words of a name that begins with `@`.
    pub fn meaning(&self, name: &str) -> Option<Vec<&'a str>> {
        self.meanings.get(name).cloned()
    }

    /// Returns the paragraph that begins with the line `NAME:`, unless it begins with another
    /// paragraph itself, because then no paragraph may begin with it.
    pub fn beginning(&self, name: &str) -> Option<&'a str> {
        let found = self.paragraphs().find(|paragraph| {
            let first = paragraph.lines().next().unwrap_or_default();
            first.strip_suffix(':') == Some(name)
        })?;
        (!found.contains("\nlike ")).then_some(found)
    }
}

/// Returns `true` if a line is played: it is not a comment, the name of a paragraph or the
/// definition of a name.
pub fn is_played(line: &str) -> bool {
    !line.starts_with(['#', '@']) && !line.ends_with(':')
}

/// Returns the call of a line, and the answer that is written after it.
pub fn parts(line: &str) -> (&str, Option<&str>) {
    match line.split_once("->") {
        Some((call, answer)) => (call, Some(answer)),
        None => (line, None),
    }
}
