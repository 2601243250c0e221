//! The process that is passed to programs and tests.

use crate::kit::alloc::{AllocError, AllocFailed, Allocator, Global};
use crate::kit::prelude::{String, Vec};
use std::cell::Cell;
use std::fmt::{Debug, Display};

/// The process.
#[derive(Clone, Copy)]
pub struct HostRuntime;

impl HostRuntime {
    pub fn alloc(&self) -> Global {
        Global
    }

    pub fn reader(&self) -> io::StdinLock<'static> {
        io::stdin().lock()
    }

    pub fn stderr(&self) -> io::Stderr {
        io::stderr()
    }
}

pub trait Files {}
impl Files for HostRuntime {}

pub trait Env {}
impl Env for HostRuntime {}

pub trait AllocGlobal {
    fn alloc(&self) -> Global;
}

impl AllocGlobal for HostRuntime {
    fn alloc(&self) -> Global {
        Global
    }
}

/// The permission to stop the process, which every process has here.
pub trait Abort {}
impl Abort for HostRuntime {}
impl<T: Abort> Abort for &T {}

pub mod io {
    pub use std::io::*;

    /// A reader with a buffer.
    pub struct BufReader<R>(std::io::BufReader<R>);

    impl<R: Read> BufReader<R> {
        pub fn new<A>(_alloc: A, reader: R) -> Result<Self> {
            Ok(BufReader(std::io::BufReader::new(reader)))
        }
    }

    impl<R: Read> Read for BufReader<R> {
        fn read(&mut self, bytes: &mut [u8]) -> Result<usize> {
            self.0.read(bytes)
        }
    }

    /// Standard output. Every write is flushed, because `Stdout` keeps the end of a write that
    /// was cut short, and its error is lost when the process ends.
    pub struct Out(Stdout);

    impl Write for Out {
        fn write(&mut self, bytes: &[u8]) -> Result<usize> {
            let count = self.0.write(bytes)?;
            self.0.flush()?;
            Ok(count)
        }

        fn flush(&mut self) -> Result<()> {
            self.0.flush()
        }
    }

    /// Standard output.
    pub fn writer(_rt: &super::HostRuntime) -> Out {
        Out(stdout())
    }
}

pub mod fs {
    use super::io;

    /// Opens a file for reading.
    pub fn open(_files: &impl super::Files, name: &str) -> io::Result<std::fs::File> {
        std::fs::File::open(name)
    }
}

pub mod env {
    use super::{Env, Global, String, Vec, io};

    /// Returns the arguments of the command line, beginning with the name of the program.
    pub fn args(_rt: &impl Env) -> io::Result<std::vec::IntoIter<String>> {
        let mut words = Vec::new(Global);
        for word in std::env::args_os() {
            let word = word.into_string().map_err(|_| io::ErrorKind::InvalidData)?;
            words.push(String::from_str(Global, &word)?)?;
        }
        Ok(words.into_iter())
    }
}

/// Hexadecimal digits.
pub mod hex {
    use super::{AllocError, Allocator, String, Vec};

    #[derive(Clone, Copy, Debug, PartialEq, Eq)]
    pub enum FromHexError {
        InvalidHexCharacter { c: char, index: usize },
        OddLength,
        OutOfMemory,
    }

    impl From<AllocError> for FromHexError {
        fn from(_: AllocError) -> Self {
            FromHexError::OutOfMemory
        }
    }

    /// Decodes hexadecimal digits.
    pub fn decode<A: Allocator>(alloc: A, digits: &[u8]) -> Result<Vec<u8, A>, FromHexError> {
        if digits.len() % 2 != 0 {
            return Err(FromHexError::OddLength);
        }
        let mut bytes = Vec::with_capacity(alloc, digits.len() / 2)?;
        let mut high = 0;
        for (index, digit) in digits.iter().enumerate() {
            let c = char::from(*digit);
            let Some(four) = c.to_digit(16) else {
                return Err(FromHexError::InvalidHexCharacter { c, index });
            };
            if index % 2 == 1 {
                bytes
                    .push((high << 4 | four) as u8)
                    .map_err(AllocError::from)?;
            }
            high = four;
        }
        Ok(bytes)
    }

    /// Returns bytes as hexadecimal digits, in lower case.
    pub fn encode<A: Allocator>(alloc: A, bytes: &[u8]) -> Result<String<A>, AllocError> {
        let mut digits = String::new(alloc);
        for byte in bytes {
            write!(digits, "{byte:02x}")?;
        }
        Ok(digits)
    }
}

/// Like `format!`, but allocates the text with an allocator.
macro_rules! format_in {
    ($alloc:expr; $($words:tt)*) => {{
        let mut text = $crate::kit::prelude::String::new($alloc);
        text.write_fmt(format_args!($($words)*)).map(|()| text)
    }};
}
pub(crate) use format_in;

/// Collects items into memory of an allocator.
pub trait CollectIn: Iterator + Sized {
    fn collect_in<A: Allocator>(self, alloc: A) -> Result<Vec<Self::Item, A>, AllocError> {
        let mut items = Vec::new(alloc);
        for item in self {
            items.push(item)?;
        }
        Ok(items)
    }
}

impl<I: Iterator> CollectIn for I {}

/// Converts values to text in memory of an allocator.
pub trait ToStringIn: Display {
    fn to_string_in<A: Allocator>(&self, alloc: A) -> Result<String<A>, AllocError> {
        format_in!(alloc; "{self}")
    }
}

impl<T: Display + ?Sized> ToStringIn for T {}

impl From<AllocError> for io::Error {
    fn from(_: AllocError) -> Self {
        io::ErrorKind::OutOfMemory.into()
    }
}

impl<T> From<AllocFailed<T>> for io::Error {
    fn from(_: AllocFailed<T>) -> Self {
        io::ErrorKind::OutOfMemory.into()
    }
}

/// Why a test failed.
pub struct Fail {
    why: std::string::String,
}

impl Fail {
    pub fn new<D: Display>(why: D) -> Fail {
        Fail {
            why: why.to_string(),
        }
    }
}

impl<E: Debug> From<E> for Fail {
    fn from(error: E) -> Fail {
        Fail {
            why: format!("{error:?}"),
        }
    }
}

/// What a test returns.
pub trait Verdict {
    fn check(self);
}

impl Verdict for () {
    fn check(self) {}
}

impl Verdict for Result<(), Fail> {
    fn check(self) {
        if let Err(fail) = self {
            panic!("{}", fail.why);
        }
    }
}

/// Runs a test.
pub fn run<V: Verdict>(test: impl FnOnce(HostRuntime) -> V) {
    test(HostRuntime).check();
}

/// A heap with a limited number of bytes, which it allocates in blocks of 16.
#[derive(Debug, PartialEq, Eq)]
pub struct LocalHeap {
    size: usize,
    used: Cell<usize>,
}

impl LocalHeap {
    pub fn new(_alloc: Global, size: usize) -> Result<LocalHeap, AllocError> {
        Ok(LocalHeap {
            size,
            used: Cell::new(0),
        })
    }

    pub fn used(&self) -> usize {
        self.used.get()
    }
}

impl Allocator for LocalHeap {
    fn allocate(&self, size: usize, _align: usize) -> Result<(), AllocError> {
        let used = self.used.get() + size.next_multiple_of(16);
        if used > self.size {
            return Err(AllocError);
        }
        self.used.set(used);
        Ok(())
    }

    fn deallocate(&self, size: usize, _align: usize) {
        self.used.set(self.used.get() - size.next_multiple_of(16));
    }
}

impl<A: Allocator> io::Write for Vec<u8, A> {
    fn write(&mut self, bytes: &[u8]) -> io::Result<usize> {
        self.extend_from_slice(bytes)?;
        Ok(bytes.len())
    }

    fn flush(&mut self) -> io::Result<()> {
        Ok(())
    }
}
