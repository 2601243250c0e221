//! Compares each collection with the standard one while memory is refused, and tests the other
//! modules with known values.

extern crate std;

use super::alloc::{AllocError, AllocFailed, Allocator, Global};
use super::collections::{BTreeMap, BTreeSet, BinaryHeap};
use super::convert::{AsSlice, TryClone, from_nanos_u128};
use super::hashes::{BegunSha1, BegunSha256, Digest, Md5, Sha1, Sha256};
use super::prelude::{Box, String, Vec};
use super::{base64, inline, random, utf8};
use core::cell::{Cell, RefCell};
use core::ops::Bound;
use core::time::Duration;
use std::borrow::ToOwned;
use std::{collections, format, string, vec};

/// Refuses every n-th allocation, and records the sizes of those that were granted.
#[derive(Debug, Default)]
pub(super) struct Sparse {
    every: u64,
    asked: Cell<u64>,
    granted: RefCell<collections::BTreeMap<(usize, usize), u64>>,
}

impl Sparse {
    pub(super) fn new(every: u64) -> Self {
        Sparse {
            every,
            ..Sparse::default()
        }
    }

    /// Counts an allocation although nothing is allocated, for a game that does not allocate.
    pub(super) fn ask(&self) {
        self.asked.set(self.asked.get() + 1);
    }

    /// Returns how many bytes are granted now.
    pub(super) fn bytes(&self) -> usize {
        let granted = self.granted.borrow();
        granted
            .iter()
            .map(|((size, _), blocks)| size * *blocks as usize)
            .sum()
    }
}

impl Allocator for Sparse {
    fn allocate(&self, size: usize, align: usize) -> Result<(), AllocError> {
        self.asked.set(self.asked.get() + 1);
        if self.every > 0 && self.asked.get() % self.every == 0 {
            return Err(AllocError);
        }
        *self.granted.borrow_mut().entry((size, align)).or_default() += 1;
        Ok(())
    }

    fn deallocate(&self, size: usize, align: usize) {
        let mut granted = self.granted.borrow_mut();
        let blocks = granted
            .get_mut(&(size, align))
            .expect("no such block was granted");
        *blocks -= 1;
        if *blocks == 0 {
            granted.remove(&(size, align));
        }
    }
}

/// Numbers that look random.
pub(super) struct Dice(u64);

impl Dice {
    pub(super) fn roll(&mut self, sides: u64) -> u64 {
        self.0 ^= self.0 << 13;
        self.0 ^= self.0 >> 7;
        self.0 ^= self.0 << 17;
        (self.0 >> 8) % sides
    }
}

const EVERY: [u64; 4] = [0, 2, 3, 7];

/// Plays this many turns for each rate of refusals, and asserts that all memory is freed.
pub(super) fn play(turns: u64, mut game: impl FnMut(&Sparse, &mut Dice, u64)) {
    for every in EVERY {
        let heap = Sparse::new(every);
        game(&heap, &mut Dice(88_172_645_463_325_252 + every), turns);
        assert!(heap.asked.get() > 0, "the allocator is asked");
        assert_eq!(heap.bytes(), 0, "all that was granted is given back");
    }
}

#[test]
fn a_map_is_as_the_standard_one() {
    for keys in [8, 100, 5000] {
        play(10_000, |heap, dice, turns| {
            let mut ours = BTreeMap::new(heap);
            let mut other = collections::BTreeMap::new();
            for turn in 0..turns {
                let key = if dice.roll(16) == 0 {
                    turn + keys
                } else {
                    dice.roll(keys)
                };
                match dice.roll(16) {
                    0..=6 => match ours.insert(key, turn) {
                        Ok(before) => assert_eq!(before, other.insert(key, turn)),
                        Err(AllocFailed { value }) => {
                            assert_eq!(value, (key, turn));
                            assert!(heap.every > 0 && !other.contains_key(&key));
                        }
                    },
                    7..=11 => assert_eq!(ours.remove_entry(&key), other.remove_entry(&key)),
                    12 => assert_eq!(ours.get_mut(&key), other.get_mut(&key)),
                    15 if dice.roll(4) == 0 => assert_eq!(ours.pop_first(), other.pop_first()),
                    13 => {
                        let start = match dice.roll(4) {
                            0 => Bound::Unbounded,
                            1 => Bound::Excluded(key),
                            _ => Bound::Included(key),
                        };
                        let range = (start, Bound::Excluded(key + dice.roll(70) + 1));
                        assert!(ours.range(range).eq(other.range(range)));
                    }
                    14 if dice.roll(100) == 0 => {
                        let rest = 2 + dice.roll(20);
                        ours.retain(|key, value| (*key + *value) % rest == 0);
                        other.retain(|key, value| (*key + *value) % rest == 0);
                    }
                    _ => assert_eq!(ours.get(&key), other.get(&key)),
                }
                assert_eq!(ours.contains_key(&key), other.contains_key(&key));
                assert_eq!(ours.len(), other.len());
                assert_eq!(ours.is_empty(), other.is_empty());
                if turn % 200 == 0 {
                    assert!(ours.iter().eq(other.iter()));
                }
            }
            assert_eq!(format!("{ours:?}"), format!("{other:?}"));
        });
    }
}

/// Nodes that are nearly empty are merged, so that a shrinking map frees memory.
#[test]
fn a_map_that_shrinks_gives_back_memory() {
    let heap = Sparse::new(0);
    let mut map = BTreeMap::new(&heap);
    for key in 0..10_000_u64 {
        map.insert(key, [0u8; 64]).unwrap();
    }
    let full = heap.bytes();
    map.retain(|key, _| key % 32 == 0);
    assert!(heap.bytes() < full / 4);
    for key in 0..9_000 {
        map.remove(&key);
    }
    assert!(heap.bytes() < full / 20);
    assert!(
        map.iter()
            .map(|(key, _)| *key)
            .eq((9_000..10_000).filter(|key| key % 32 == 0))
    );
}

/// Replacing a value does not allocate, even in a tree whose nodes are full.
#[test]
fn a_key_that_is_there_takes_no_memory() {
    let heap = Sparse::new(0);
    let mut map = BTreeMap::new(&heap);
    for key in 0..3_000_u64 {
        map.insert(key, key).unwrap();
        let asked = heap.asked.get();
        for again in [0, key / 3, key] {
            assert!(map.insert(again, key).unwrap().is_some());
        }
        assert_eq!(heap.asked.get(), asked);
    }
}

/// A node may lose all entries while the next one is full. The keys after it are still found then.
#[test]
fn a_map_stands_with_an_empty_node() {
    let mut map = BTreeMap::new(Global);
    for key in 0..200_u64 {
        map.insert(key, key).unwrap();
    }
    let gone = 40..120;
    for key in gone.clone() {
        assert_eq!(map.remove(&key), Some(key));
    }
    assert!((0..200).all(|key| map.contains_key(&key) != gone.contains(&key)));
}

/// Entries are inserted and removed in runs, so that nodes are split at their ends, and whole
/// nodes at each height become empty.
#[test]
fn a_map_of_runs_is_as_the_standard_one() {
    play(600, |heap, dice, turns| {
        let mut ours = BTreeMap::new(heap);
        let mut other = collections::BTreeMap::new();
        for turn in 0..turns {
            let first = dice.roll(30_000);
            let longest = if dice.roll(4) == 0 { 9_000 } else { 300 };
            let run = first..first + dice.roll(longest);
            match dice.roll(6) {
                0..=2 => {
                    let mut insert = |key| match ours.insert(key, turn) {
                        Ok(before) => assert_eq!(before, other.insert(key, turn)),
                        Err(AllocFailed { value }) => assert_eq!(value, (key, turn)),
                    };
                    match dice.roll(2) {
                        0 => run.clone().for_each(&mut insert),
                        _ => run.clone().rev().for_each(&mut insert),
                    }
                }
                3 => run
                    .clone()
                    .for_each(|key| assert_eq!(ours.remove(&key), other.remove(&key))),
                4 => run
                    .clone()
                    .rev()
                    .for_each(|key| assert_eq!(ours.remove(&key), other.remove(&key))),
                _ => {
                    let mut seen = vec![];
                    ours.retain(|key, _| {
                        seen.push(*key);
                        !run.contains(key)
                    });
                    assert!(seen.iter().eq(other.keys()));
                    other.retain(|key, _| !run.contains(key));
                }
            }
            assert_eq!(ours.len(), other.len());
            for start in [run.start, run.end, dice.roll(40_000)] {
                let from = (Bound::Included(start), Bound::Unbounded);
                assert!(ours.range(from).take(100).eq(other.range(from).take(100)));
                let past = (Bound::Excluded(start), Bound::Excluded(start + 2_000));
                assert!(ours.range(past).eq(other.range(past)));
            }
            if turn % 20 == 0 {
                assert!(ours.iter().eq(other.iter()));
            }
        }
        assert!(ours.iter().eq(other.iter()));
        while let Some(key) = other.keys().next_back().copied() {
            assert_eq!(ours.remove_entry(&key), other.remove_entry(&key));
        }
        assert!(ours.is_empty() && ours.iter().next().is_none());
        let left = 32 * size_of::<[u64; 4]>(); // with sizes of 64 bits, and less with shorter ones
        assert!(heap.bytes() <= left, "that of one node and of one block");
    });
}

#[test]
fn a_heap_is_as_the_standard_one() {
    play(3_000, |heap, dice, turns| {
        let mut ours = BinaryHeap::new(heap);
        let mut other = collections::BinaryHeap::new();
        for _ in 0..turns {
            let item = dice.roll(500);
            match dice.roll(5) {
                0 => {
                    let asked = heap.asked.get();
                    if ours.reserve(8).is_ok() {
                        let asked_before_pushing = heap.asked.get();
                        assert!(asked_before_pushing <= asked + 1);
                        for more in 0..8 {
                            ours.push(item + more).unwrap();
                            other.push(item + more);
                        }
                        assert_eq!(heap.asked.get(), asked_before_pushing);
                    }
                }
                1..=2 => match ours.push(item) {
                    Ok(()) => other.push(item),
                    Err(AllocFailed { value }) => assert_eq!(value, item),
                },
                _ => (0..3).for_each(|_| assert_eq!(ours.pop(), other.pop())),
            }
        }
        assert_eq!(format!("{ours:?}"), format!("{other:?}"));
        while let Some(item) = ours.pop() {
            assert_eq!(Some(item), other.pop());
        }
        assert!(other.is_empty());
    });
}

#[test]
fn a_set_is_as_the_standard_one() {
    play(3_000, |heap, dice, turns| {
        let mut ours = BTreeSet::new(heap);
        let mut other = collections::BTreeSet::new();
        for _ in 0..turns {
            let item = dice.roll(300);
            if dice.roll(3) > 0 {
                match ours.insert(item) {
                    Ok(is_new) => assert_eq!(is_new, other.insert(item)),
                    Err(AllocFailed { value }) => assert!(value == item && !other.contains(&item)),
                }
            } else {
                assert_eq!(ours.remove(&item), other.remove(&item));
            }
            assert_eq!(ours.contains(&item), other.contains(&item));
            assert_eq!(
                (ours.len(), ours.is_empty()),
                (other.len(), other.is_empty())
            );
            assert!(ours.range(item..).eq(other.range(item..)));
            assert!(item > 10 || ours.iter().eq(&other));
        }
        assert_eq!(format!("{ours:?}"), format!("{other:?}"));
    });
}

/// A number, and the next row, if there is one.
struct Row<'a>(u32, Option<Box<Row<'a>, &'a Sparse>>);

#[test]
fn a_box_keeps_one_value_and_what_it_leads_to() {
    let heap = Sparse::new(3);
    let two = Box::new(&heap, Row(2, None)).ok();
    let mut one = Box::new(&heap, Row(1, two)).ok().unwrap();
    assert_eq!(heap.bytes(), 2 * size_of::<Row<'_>>());
    let refused = Box::new(&heap, Row(3, None)).err().unwrap();
    assert_eq!(refused.value.0, 3);
    one.0 += 10;
    assert_eq!((one.0, one.1.as_ref().unwrap().0), (11, 2));
    one.1 = None;
    assert_eq!(heap.bytes(), size_of::<Row<'_>>());
    drop(one);
    assert_eq!(heap.bytes(), 0);
    let same = Box::from_std(Box::new(Global, 7u64).unwrap().into_std());
    assert_eq!((*same, format!("{same:?}")), (7, "7".to_owned()));
}

#[test]
fn a_vector_is_as_the_standard_one() {
    play(3_000, |heap, dice, turns| {
        let mut ours: Vec<u16, &Sparse> = Vec::new(heap);
        let mut other: vec::Vec<u16> = vec![];
        let items: vec::Vec<u16> = (0..40).collect();
        for turn in 0..turns {
            let count = dice.roll(40) as usize;
            let some = &items[..count];
            let before = other.clone();
            let result = match dice.roll(8) {
                0..=2 => {
                    other.push(turn as u16);
                    ours.push(turn as u16).map_err(|refused| {
                        assert_eq!(refused.value, turn as u16);
                        AllocError
                    })
                }
                3 => {
                    other.extend_from_slice(some);
                    ours.extend_from_slice(some)
                }
                4 => {
                    other.resize(count, 7);
                    ours.resize(count, 7)
                }
                5 => {
                    assert_eq!(ours.pop(), other.pop());
                    Ok(())
                }
                6 => {
                    other.truncate(count);
                    ours.truncate(count);
                    Ok(())
                }
                _ => match (ours.try_clone(), Vec::from_slice(heap, some)) {
                    (Ok(copy), Ok(made)) => {
                        assert!(copy == ours && made.as_slice() == some);
                        ours.clear();
                        other.clear();
                        ours.reserve(count)
                            .map(|()| assert!(ours.capacity() >= count))
                    }
                    _ => Err(AllocError),
                },
            };
            if result.is_err() {
                assert!(heap.every > 0);
                if ours.len() == before.len() {
                    other = before;
                }
            }
            assert_eq!(ours.as_slice(), other);
            assert!(ours.capacity() >= ours.len());
        }
        assert!(ours.into_iter().eq(other));
    });
}

#[test]
fn a_text_is_as_the_standard_one() {
    play(3_000, |heap, dice, turns| {
        let mut ours = String::new(heap);
        let mut other = string::String::new();
        for turn in 0..turns {
            let piece = ["", "a", "ö", "stun", "0123456789", "\u{1f600}"][dice.roll(6) as usize];
            let result = match dice.roll(5) {
                0..=2 => ours.push_str(piece).map(|()| other.push_str(piece)),
                3 => ours.push('é').map(|()| other.push('é')),
                _ => write!(ours, "{turn}").map(|()| other.push_str(&format!("{turn}"))),
            };
            if result.is_err() {
                assert!(heap.every > 0);
                // `write!` formats in pieces, and the first of them may have been appended.
                assert!(ours.as_str().starts_with(&other));
                other.clear();
                other.push_str(&ours);
            }
            assert_eq!(ours.as_str(), other);
            assert!(heap.bytes() >= ours.len());
            if dice.roll(50) == 0 {
                match (ours.try_clone(), String::from_str(heap, piece)) {
                    (Ok(copy), Ok(made)) => {
                        assert!(copy == ours && made.as_str() == piece && copy.cmp(&ours).is_eq());
                        assert_eq!(made.cmp(&ours), piece.cmp(&other));
                    }
                    _ => assert!(heap.every > 0),
                }
                ours.clear();
                other.clear();
            }
        }
        assert_eq!(ours.into_bytes().as_slice(), other.as_bytes());
    });
}

/// Bytes of any length become a text if they are UTF-8. If they are not UTF-8, they are returned,
/// wherever the first wrong byte is.
#[test]
fn bytes_that_are_no_text_come_back() {
    for length in [0, 1, 2, 15, 16, 17, 31, 32, 33, 63, 64, 65, 100, 763] {
        let heap = Sparse::new(0);
        let text = "aö€".repeat(length);
        let made = Vec::from_slice(&heap, text.as_bytes()).map(String::from_utf8);
        assert!(made.unwrap().unwrap().as_str() == text);
        for place in 0..text.len() {
            let mut bytes = text.as_bytes().to_owned();
            bytes[place] = 0xff;
            let kept = String::from_utf8(Vec::from_slice(&heap, &bytes).unwrap()).unwrap_err();
            assert_eq!(kept.as_slice(), bytes);
            assert!(heap.bytes() >= bytes.len());
        }
        assert_eq!(heap.bytes(), 0);
    }
}

#[test]
fn a_block_is_tested_at_each_place() {
    let is_utf8 = |block| {
        utf8::Checker::new()
            .step(utf8::u8x64::from_array(block))
            .finish()
    };
    assert!(is_utf8([b'a'; 64]));
    for place in 0..64 {
        let mut block = [b'a'; 64];
        block[place] = 0x80;
        assert!(!is_utf8(block));
        block[place] = 0xc3;
        assert!(!is_utf8(block));
        if place < 63 {
            block[place + 1] = 0xb6;
            assert!(is_utf8(block));
        }
    }
}

/// If the process cannot make an allocation that the allocator granted, the call fails and returns
/// the grant to the allocator.
#[test]
fn what_the_process_refuses_is_given_back() {
    let heap = Sparse::new(0);
    let most = usize::MAX / 4;
    assert!(Vec::<u16, _>::with_capacity(&heap, usize::MAX).is_err());
    assert!(Vec::<u8, _>::with_capacity(&heap, usize::MAX / 2 + 1).is_err());
    let mut vec = Vec::from_slice(&heap, &[1u64, 2]).unwrap();
    assert!(vec.reserve(usize::MAX).is_err() && vec.reserve(most).is_err());
    assert_eq!((vec.as_slice(), heap.bytes()), (&[1, 2][..], 16));
    drop(vec);
    assert_eq!(heap.bytes(), 0);
    let mut global = Vec::<u64>::new(Global);
    assert!(global.reserve(most).is_err() && global.push(1).is_ok());
}

#[test]
fn short_rows_take_so_many_items() {
    let row = inline::SmallVec::<u8, 3, Global>::from_slice(Global, &[1, 2]).unwrap();
    assert_eq!(row.as_slice(), [1, 2]);
    let full = inline::SmallVec::<u8, 3, Global>::from_slice(Global, &[1, 2, 3]).unwrap();
    assert_eq!(full.as_slice(), [1, 2, 3]);
    assert!(inline::SmallVec::<u8, 3, Global>::from_slice(Global, &[0; 4]).is_err());
    assert_eq!(AsSlice::as_slice(&[4u8, 5]), [4, 5]);
}

/// The examples of RFC 4648, section 10.
#[test]
fn base64_is_that_of_the_rfc() {
    let letters = [
        "", "Zg==", "Zm8=", "Zm9v", "Zm9vYg==", "Zm9vYmE=", "Zm9vYmFy",
    ];
    for (length, letters) in letters.into_iter().enumerate() {
        let mut text = String::new(Global);
        base64::STANDARD
            .encode_string(&b"foobar"[..length], &mut text)
            .unwrap();
        assert_eq!(text.as_str(), letters);
        let mut slice = [0; 8];
        let written = base64::STANDARD.encode_slice(&b"foobar"[..length], &mut slice);
        assert_eq!(written, Ok(letters.len()));
        assert_eq!(&slice[..letters.len()], letters.as_bytes());
        let mut bytes = [0; 6];
        let read = base64::STANDARD.decode_slice(letters.as_bytes(), &mut bytes);
        assert_eq!(
            read,
            if length % 3 == 0 {
                Ok(length)
            } else {
                Err(base64::NotDecoded)
            }
        );
        assert!(read.is_err() || bytes[..length] == b"foobar"[..length]);
    }
    let all: vec::Vec<u8> = (0..48).map(|i| (i * 85 + 16 * (i % 3)) as u8).collect();
    let mut text = String::new(Global);
    base64::STANDARD.encode_string(&all, &mut text).unwrap();
    let mut bytes = [0; 48];
    assert_eq!(
        base64::STANDARD.decode_slice(text.as_bytes(), &mut bytes),
        Ok(48)
    );
    assert_eq!(bytes.as_slice(), all);
    let mut refuse = |letters: &[u8], room: usize| {
        assert!(
            base64::STANDARD
                .decode_slice(letters, &mut bytes[..room])
                .is_err()
        );
    };
    refuse(b"AAAA", 2);
    refuse(b"AAAAA", 48);
    for byte in 0..=255u8 {
        if !byte.is_ascii_alphanumeric() && byte != b'+' && byte != b'/' {
            refuse(&[b'A', byte, b'A', b'A'], 48);
        }
    }
}

fn digits(bytes: &[u8]) -> string::String {
    bytes.iter().map(|byte| format!("{byte:02x}")).collect()
}

fn digest<H: Digest + TryClone>(pieces: &[&[u8]]) -> H::Bytes {
    let mut hasher = H::new();
    for piece in pieces {
        hasher.update(piece);
    }
    let copy = hasher.try_clone().unwrap();
    hasher.update(b"more");
    copy.finalize()
}

/// Returns the digest of a text, continued from the state after its first block. Another text has
/// been hashed from that state before.
fn begun_digest<B: From<H> + TryClone, H: Digest + From<B>>(text: &[u8], end: usize) -> H::Bytes {
    let mut hasher = H::new();
    hasher.update(&text[..64]);
    let begun = B::from(hasher);
    H::from(begun.try_clone().unwrap()).update(b"other");
    let mut hasher = H::from(begun);
    hasher.update(&text[64..end]);
    hasher.update(&text[end..]);
    hasher.finalize()
}

#[test]
fn hashers_start_after_a_block() {
    let text: vec::Vec<u8> = (0..=255).collect();
    for length in 64..text.len() {
        let (text, end) = (&text[..length], length - (length - 64) / 3);
        let sha1 = begun_digest::<BegunSha1, Sha1>(text, end);
        assert_eq!(sha1, digest::<Sha1>(&[text]));
        let sha256 = begun_digest::<BegunSha256, Sha256>(text, end);
        assert_eq!(sha256, digest::<Sha256>(&[text]));
    }
}

/// The examples of RFC 1321, section A.5, and those that NIST publishes for FIPS 180-4.
#[test]
fn digests_are_those_of_the_standards() {
    let abc: &[&[u8]] = &[b"a", b"bc"];
    assert_eq!(
        digits(&digest::<Md5>(abc)),
        "900150983cd24fb0d6963f7d28e17f72"
    );
    assert_eq!(
        digits(&digest::<Sha1>(abc)),
        "a9993e364706816aba3e25717850c26c9cd0d89d"
    );
    assert_eq!(
        digits(&digest::<Sha256>(abc)),
        "ba7816bf8f01cfea414140de5dae2223b00361a396177a9cb410ff61f20015ad"
    );
    assert_eq!(
        digits(&digest::<Md5>(&[])),
        "d41d8cd98f00b204e9800998ecf8427e"
    );
}

struct Counting(u32);

impl random::utils::NextWord<u32> for Counting {
    fn next_word(&mut self) -> u32 {
        self.0 += 0x0101_0102;
        self.0
    }
}

#[test]
fn words_make_numbers_and_bytes() {
    use random::utils::{fill_bytes_via_u32, next_u64_via_u32};
    assert_eq!(next_u64_via_u32(&mut Counting(0)), 0x0202_0204_0101_0102);
    let mut bytes = [0; 6];
    fill_bytes_via_u32(&mut Counting(0), &mut bytes);
    assert_eq!(bytes, [2, 1, 1, 1, 4, 2]);
}

#[test]
fn nanoseconds_make_durations() {
    for duration in [Duration::ZERO, Duration::MAX, Duration::new(5, 999_999_999)] {
        assert_eq!(from_nanos_u128(duration.as_nanos()), duration);
    }
}
