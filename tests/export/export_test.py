#!/usr/bin/env python3
"""Tests the rules of export.py: odd forms with what must come of them, and forms that must stop it.

Blanks and ends of lines do not count, since rustfmt sets them.
"""
import re
import sys
from pathlib import Path

sys.path.insert(0, str(Path(__file__).resolve().parents[2] / "tools" / "export"))
import export

PLACES = {"stun_base": "crate::exported::stun_base", "stun_auth": "crate::exported::stun_auth",
          "stun_tool": "crate::programs::stun_tool", "stun_cli": "crate::programs::stun_cli"}

CASES = [
    ("results that are not to be ignored, unless the call changes something", "stun_base", """
impl Row {
    /// Returns the bytes.
    pub fn bytes(&self, more: [u8; 2]) -> [u8; 3] { self.0 }
    pub fn of(
        number: u16,
    ) -> Option<Row>
    where
        u16: Copy,
    { None }
    pub fn take(&mut self) -> u8 { 0 }
    pub fn fill(&self, into: &'a mut [u8]) -> u8 { 0 }
    pub fn read(&self) -> Result<u8, Error> { Ok(0) }
    pub(crate) fn own(&self) -> u8 { 0 }
    pub fn nothing(&self) { }
}
""", """
impl Row {
    /// Returns the bytes.
    #[must_use]
    pub fn bytes(&self, more: [u8; 2]) -> [u8; 3] { self.0 }
    #[must_use]
    pub fn of(
        number: u16,
    ) -> Option<Row>
    where
        u16: Copy,
    { None }
    pub fn take(&mut self) -> u8 { 0 }
    pub fn fill(&self, into: &'a mut [u8]) -> u8 { 0 }
    pub fn read(&self) -> Result<u8, Error> { Ok(0) }
    pub(crate) fn own(&self) -> u8 { 0 }
    pub fn nothing(&self) { }
}
"""),
    ("what may have a further case, and a constant call", "stun_base", """
pub enum IntegrityAlgorithm {
    Sha1,
}
pub struct StoredKeys {
    pub sha1: u8,
}
pub enum Other {
    One,
}
impl Method {
    pub fn new(number: u16) -> Option<Method> { None }
}
""", """
#[non_exhaustive]
pub enum IntegrityAlgorithm {
    Sha1,
}
#[non_exhaustive]
pub struct StoredKeys {
    pub sha1: u8,
}
pub enum Other {
    One,
}
impl Method {
    #[must_use]
    pub const fn new(number: u16) -> Option<Method> { None }
}
"""),
    ("a hasher after a block, for which the kit has a type", "stun_base", """
use sha1::Sha1;
use sha1::Sha1 as BegunSha1;
use sha2::Sha256 as BegunSha256;
""", """
use crate::kit::hashes::Sha1;
use crate::kit::hashes::BegunSha1;
use crate::kit::hashes::BegunSha256;
"""),
    ("a table that keeps its layout", "stun_base", """
#[rattlefmt::skip]
static TABLE: [u32; 2] = [
    1, 2,
];
""", """
#[rustfmt::skip]
static TABLE: [u32; 2] = [
    1, 2,
];
"""),
    ("clauses with braces in texts, characters and comments", "stun_base", """
/// Adds.
fn add(&mut self, c: char) -> bool
    requires { c ≢ '{' × "}{" ≡ "}" }
    ensures* lends { sem 𝓛 { a } }
    ensures { (λ x. x' ≡ f'(x)) } // a brace: }
{
    if c == '{' { "ensures { no clause }".len() > 1 } else { c != '\\'' }
}
""", """
/// Adds.
fn add(&mut self, c: char) -> bool
    // a brace: }
{
    if c == '{' { "ensures { no clause }".len() > 1 } else { c != '\\'' }
}
"""),
    ("a clause with a comment above, before a signature of a trait ends", "stun_base", """
trait T {
    ghost holds: { Self → List ℕ };
    // Only the prover reads this.
    ghost digest = { λ a, b. (a; b) };
    fn feed(&mut self)
        ensures a { x }

        // So it is.
        ensures b { y };
}
""", """
trait T {
    fn feed(&mut self)
        ;
}
"""),
    ("ghost items that begin with pub, over lines", "stun_base", """
pub ghost use A.{
    b, c};
pub(crate) ghost use A.B.{c};
struct S {
    ghost first: { ℕ },
    second: u8,
}
""", "struct S { second: u8, }"),
    ("a question mark, a negation, an else and a branch stay", "stun_base", """
#[tactic(auto, using(crate::proofs::X::y))]
fn f(a: Option<u8>) -> Option<u8>
    ensures { !x? }
{
    let b = !a.is_none();
    if !b { return None; } else if b { a?; } else { prove!(a? > 1); }
    match a { Some(0) => None, _ => a }
}
""", """
fn f(a: Option<u8>) -> Option<u8>
{
    let b = !a.is_none();
    if !b { return None; } else if b { a?; } else { debug_assert!(a? > 1); }
    match a { Some(0) => None, _ => a }
}
"""),
    ("what a type is to a proof", "stun_base", """
use std::marker::{Brand, Model};
use std::marker::Model;
use std::fmt;
#[derive(Clone, Copy, Drop)]
struct S(u8);
impl<A: Allocator> Model for S<A> {
    ghost view = { λ s. s.0 };
}
impl S {}
""", """
use crate::kit::ledger::Brand; use core::fmt;
#[derive(Clone, Copy)]
struct S(u8);
impl S {}
"""),
    ("laws are not called, and nothing is said of a call", "stun_auth", """
//! A file.
//! | `laws` | what holds |
// So that they are found.
pub use crate::laws::{one_law, other_law};
use stun_base::laws as base_laws;
use crate::{feature, laws};
fn f(words: [u32; 16]) -> u8 {
    // It does nothing
    // when it runs.
    one_law();
    // Nor does this.
    base_laws::some_law();
    stun_base::laws::some_law();
    laws::some_law();
    words_are_sixteen(words);

    // This is a number.
    let laws = other_law_of(1);
    laws
}
/// There are sixteen.
fn words_are_sixteen(words: [u32; 16])
    ensures { length words ≡ 16 }
{}
""", """
//! A file.
use crate::exported::stun_auth::{feature};
fn f(words: [u32; 16]) -> u8 {
    // This is a number.
    let laws = other_law_of(1);
    laws
}
"""),
    ("a law whose argument is a call stays, so that rustc refuses it", "stun_auth", """
fn law(x: u8) {}
fn f() { law(next());
    g(law);
}
""", "fn f() { law(next()); g(law); }"),
    ("what doc comments say of contracts", "stun_base", """
/// A number.
///
/// Contracts see it as a number
/// of RFC 8489, section 6.2.1.
///
/// It is even. Contracts see that.
struct A(u8);
/// Contracts see its bytes. `Debug` shows none of them. The clause `one` says so, and the law
/// `two` beside it.
const fn f() { g("Contracts see it. The law `x`.") } // Contracts see it.
/// None is left out (law `three`).
/// A contract sees
/// them. The count takes no bytes, and contracts alone see it. The law
/// `four` says so.
struct B;
""", """
/// A number.
///
/// It is even.
struct A(u8);
/// The sources' contracts see its bytes. `Debug` shows none of them.
const fn f() { g("Contracts see it. The law `x`.") } // Contracts see it.
/// None is left out.
/// A contract of the sources sees
/// them. The count takes no bytes, and the sources' contracts alone see it.
struct B;
"""),
    ("promises that a value may go away", "stun_cli", """
#[derive(Drop)]
struct S<T: Drop, U: Copy + Drop> { inner: T, other: U }
impl<T: Drop> Drop for S<T> {
    fn drop(self) {
        let Self {
            inner: _,
            other: _,
        } = self;
    }
}
fn f<T: Drop>(drop: T) {}
fn g() { let Drop = 1; }
""", """
struct S<T, U: Copy> { inner: T, other: U }
fn g() { let Drop = 1; }
"""),
    ("allocators", "stun_cli", """
use std::alloc::{AllocError, Allocator};
unsafe impl<B: Allocator> Allocator for R<B> {
    ghost dealloc_token = { λ _ _ _. ffalse };
    fn allocate(&self, size: usize, align: usize) -> Result<*mut u8, AllocError> {
        self.inner.allocate(size, align)
    }
    unsafe fn deallocate(&self, ptr: *mut u8, size: usize, align: usize) {
        self.inner.deallocate(ptr, size, align);
    }
}
unsafe impl Send for R {}
""", """
use crate::kit::alloc::{AllocError, Allocator};
impl<B: Allocator> Allocator for R<B> {
    fn allocate(&self, size: usize, align: usize) -> Result<(), AllocError> {
        self.inner.allocate(size, align)
    }
    fn deallocate(&self, size: usize, align: usize) {
        self.inner.deallocate(size, align);
    }
}
unsafe impl Send for R {}
"""),
    ("copies that can fail", "stun_base", """
#[derive(Clone, Debug)]
pub struct Counts { a: u64 }
impl<A: Allocator> Clone for Key<A> {
    fn clone(&self) -> Result<Self, AllocError> { Ok(Key(self.0.clone()?)) }
}
""", """
use crate::kit::prelude::TryClone;
#[derive(Clone, Debug)]
pub struct Counts { a: u64 }
impl TryClone for Counts {
fn try_clone(&self) -> Result<Self, crate::kit::alloc::AllocError> {
Ok(Clone::clone(self))
}
}
impl<A: Allocator> TryClone for Key<A> {
    fn try_clone(&self) -> Result<Self, AllocError> { Ok(Key(self.0.try_clone()?)) }
}
"""),
    ("what is derived without conditions", "stun_base", """
#[derive(Drop)]
#[derive_where(Debug, PartialEq, Eq)]
pub enum Step<A: Allocator = Global> {
    /// Bytes, with a comma.
    Sent(Vec<u8, A>, u8),
    Timed { id: [u8; 12], at: Option<(u8, u8)> },
    End
}
#[derive_where(Debug)]
struct Agent<'a, A: Allocator> {
    #[derive_where(skip(Debug))]
    pub(crate) alloc: &'a A,
    count: usize,
}
#[derive_where(PartialEq, Eq)]
struct Plain { a: u8 }
""", """
use crate::kit::prelude::Vec;
pub enum Step<A: Allocator = Global> {
    /// Bytes, with a comma.
    Sent(Vec<u8, A>, u8),
    Timed { id: [u8; 12], at: Option<(u8, u8)> },
    End
}
impl<A: Allocator> core::fmt::Debug for Step<A> {
fn fmt(&self, f: &mut core::fmt::Formatter<'_>) -> core::fmt::Result {
match self { Step::Sent(the_0, the_1) =>
f.debug_tuple("Sent").field(the_0).field(the_1).finish(),
Step::Timed { id: the_id, at: the_at } =>
f.debug_struct("Timed").field("id", the_id).field("at", the_at).finish(),
Step::End => f.debug_tuple("End").finish(),
}
}
}
impl<A: Allocator> PartialEq for Step<A> {
fn eq(&self, other: &Self) -> bool {
match (self, other) { (Step::Sent(a_0, a_1), Step::Sent(b_0, b_1)) => a_0 == b_0 && a_1 == b_1,
(Step::Timed { id: a_id, at: a_at }, Step::Timed { id: b_id, at: b_at }) =>
a_id == b_id && a_at == b_at,
(Step::End, Step::End) => true,
_ => false,
}
}
}
impl<A: Allocator> Eq for Step<A> {
}
struct Agent<'a, A: Allocator> {
    pub(crate) alloc: &'a A,
    count: usize,
}
impl<'a, A: Allocator> core::fmt::Debug for Agent<'a, A> {
fn fmt(&self, f: &mut core::fmt::Formatter<'_>) -> core::fmt::Result {
let Agent { count: the_count, .. } = self;
f.debug_struct("Agent").field("count", the_count).finish_non_exhaustive()
}
}
#[derive(PartialEq, Eq)]
struct Plain { a: u8 }
"""),
    ("errors", "stun_base", """
use thiserror::Error;
#[derive(Debug, Error)]
pub enum E {
    /// Missing, or (not) there.
    #[error("attribute {0} is \\"missing\\", {1:?}")]
    Missing(AttributeType, u8),
    #[error(transparent)]
    Parse(ParseError),
    #[error("at {at}, not { no field }")]
    Named { at: u8, id: u8 },
    #[error("out of memory")]
    Memory,
}
#[derive(Clone, Copy, Debug, Error)]
#[error("no room")]
pub struct NoRoom;
#[derive(Debug, Error)]
#[error("{needed} of {0}")]
pub struct Few { needed: usize, there: usize }
""", """
#[derive(Debug)]
pub enum E {
    /// Missing, or (not) there.
    Missing(AttributeType, u8),
    Parse(ParseError),
    Named { at: u8, id: u8 },
    Memory,
}
impl core::fmt::Display for E {
fn fmt(&self, f: &mut core::fmt::Formatter<'_>) -> core::fmt::Result {
match self { E::Missing(the_0, the_1) =>
write!(f, "attribute {the_0} is \\"missing\\", {the_1:?}"),
E::Parse(the_0) => core::fmt::Display::fmt(the_0, f),
E::Named { at: the_at, .. } => write!(f, "at {the_at}, not { no field }"),
E::Memory => write!(f, "out of memory"),
}
}
}
impl core::error::Error for E {
}
#[derive(Clone, Copy, Debug)]
pub struct NoRoom;
impl core::fmt::Display for NoRoom {
fn fmt(&self, f: &mut core::fmt::Formatter<'_>) -> core::fmt::Result {
write!(f, "no room")
}
}
impl core::error::Error for NoRoom {
}
#[derive(Debug)]
pub struct Few { needed: usize, there: usize }
impl core::fmt::Display for Few {
fn fmt(&self, f: &mut core::fmt::Formatter<'_>) -> core::fmt::Result {
let Few { needed: the_needed, .. } = self;
write!(f, "{the_needed} of {the_0}")
}
}
impl core::error::Error for Few {
}
"""),
    ("a program and its tests", "stun_tool", """
//! A program.
#![tactic(auto)]
#[cfg(test)]
mod tests;
#[cfg(test)]
use std::net::SocketAddr;
use std::{env, io};
use stun_cli::words::words_of;
fn main(rt: HostRuntime) -> ExitCode {
    println!(rt; "rt; {}", 1);
}
#[test]
fn each(rt: HostRuntime) -> Result<(), Fail> {
    assert_eq!(rt; "}", "a", "after {left}");
    assert!(
        rt;
        words.collect(rt.alloc())?.is_empty() && a.iter().collect().b(),
    );
    let text = format!(in rt.alloc(); "format!(in {}", 1)?;
    Ok(())
}
impl fmt::Display for T {
    fn fmt<W: fmt::Write>(&self, f: &mut fmt::Formatter<W>) -> fmt::Result { Ok(()) }
    final fn g() {}
}
""", """
//! A program.
use crate::host::CollectIn;
use crate::host::HostRuntime;
#[cfg(all(test, feature = "checks"))]
mod tests;
#[cfg(test)]
use std::net::SocketAddr;
use crate::host::env; use crate::host::io;
use crate::programs::stun_cli::words::words_of;
/// Runs the program.
pub fn main() -> ExitCode {
    let rt = HostRuntime;
    println!("rt; {}", 1);
}
#[test]
fn each() {
    crate::host::run(|rt: HostRuntime| -> Result<(), Fail> {
    assert_eq!("}", "a", "after {left}");
    assert!(words.collect_in(rt.alloc())?.is_empty() && a.iter().collect().b(),
    );
    let text = crate::host::format_in!(rt.alloc(); "format!(in {}", 1)?;
    Ok(())
});
}
impl fmt::Display for T {
    fn fmt(&self, f: &mut fmt::Formatter<'_>) -> fmt::Result { Ok(()) }
    fn g() {}
}
"""),
    ("paths in code alone", "stun_base", """
use rand_core::{Rng, utils};
use smallvec::SmallVec;
use std::str;
use stun_auth as auth;
/// `std::alloc::Global`, crate::key, sha1::Sha1.
fn sha1(hex: &str, crc: self::sha1::Sha1) -> Sha1 {
    let sha1 = self.sha1 + hex.len();
    let text = "std::alloc::Global";
    str::from_utf8(md5::Digest::new(), crate::key::of(stun_auth::auth::X), std::mem::take(x));
    simdutf8::basic::from_utf8(Duration::from_nanos_u128(1), Duration::from_nanos(1))
}
""", """
use crate::kit::random::{Rng, utils};
use crate::kit::inline::SmallVec;
use crate::exported::stun_auth as auth;
/// `std::alloc::Global`, crate::key, sha1::Sha1.
fn sha1(hex: &str, crc: self::sha1::Sha1) -> Sha1 {
    let sha1 = self.sha1 + hex.len();
    let text = "std::alloc::Global";
    core::str::from_utf8(crate::kit::hashes::Digest::new(),
    crate::exported::stun_base::key::of(crate::exported::stun_auth::auth::X), core::mem::take(x));
    core::str::from_utf8(crate::kit::convert::from_nanos_u128(1), Duration::from_nanos(1))
}
"""),
]

CASES += [
    ("paragraphs of doc comments that are marked as on contracts", "stun_base", """
//! Contracts: all of this module's clauses stand in `specs/`,
//! as those of each do.
//!
//! A module.

/// Adds.
///
/// Contracts: `added` gives the sum.
/// It is exact; a law says so.
///
/// Fails with `Full` if no room is left.
fn add() { 1 }

/// Counts.
///
/// Contracts: its clause says how many.
#[must_use]
fn count() { 1 }
    /// Contracts: a law.
    fn last() { 1 }
""", """
//! A module.

/// Adds.
///
/// Fails with `Full` if no room is left.
fn add() { 1 }

/// Counts.
#[must_use]
fn count() { 1 }
    fn last() { 1 }
"""),
]

# Forms that must stop the export.
REFUSED = [
    ("a ghost argument", "fn f() { g(1, ghost { x }) }"),
    ("a clause that is not closed", "fn f()\n    ensures { (x }\n{}"),
    ("a clause without braces", "fn f()\n    ensures x ≡ y\n{}"),
    ("a word of proofs in a place that no rule knows", "fn f() { let ghost x = 1; }\ntactic!();"),
    ("a drop that does something",
     "impl Drop for S {\n    fn drop(self) {\n        self.heap.leave();\n    }\n}"),
    ("a doc comment on contracts that no rule knows", "/// Its law is short.\nstruct S;\n"),
    ("a trait that cannot be derived without conditions",
     "#[derive_where(Hash)]\nstruct S<A: Allocator> { a: A }"),
]


# An example is put behind the comment of its item, and is left where there is no such item.
PAGES = """
/// A role.
#[derive(Clone)]
pub enum Role {}

/// Not this one.
pub enum Roles {}
""", {"Role": "```\n\nuse a::Role;\n```", "Lost": "```\n```"}, """
/// A role.
///
/// # Examples
///
/// ```
///
/// use a::Role;
/// ```
#[derive(Clone)]
pub enum Role {}

/// Not this one.
pub enum Roles {}
"""


def plain(text):
    """The text without blanks, but for those that part words."""
    return re.sub(r" ?(\W) ?", r"\1", re.sub(r"\s+", " ", text)).strip()


def main():
    wrong = 0
    for name, crate, source, wanted in CASES:
        made = export.exported(source.lstrip("\n"), crate, PLACES)
        if plain(made) != plain(wanted):
            wrong += 1
            print(f"{name}: made was\n{made}")
    for name, source in REFUSED:
        try:
            made = export.exported(source, "stun_base", PLACES)
        except export.Unknown:
            continue
        wrong += 1
        print(f"{name}: was not refused, but became\n{made}")
    source, examples, wanted = PAGES
    made = export.with_examples(source, examples)
    if made != wanted or list(examples) != ["Lost"]:
        wrong += 1
        print(f"examples of {list(examples)} are left, and made was\n{made}")
    try:
        export.with_examples(wanted, {"Role": "```\n```"})
        wrong += 1
        print("a second example was not refused")
    except export.Unknown:
        pass
    print(f"{len(CASES) + len(REFUSED) + 2} odd forms, {wrong} wrong")
    return 1 if wrong else 0


if __name__ == "__main__":
    sys.exit(main())
