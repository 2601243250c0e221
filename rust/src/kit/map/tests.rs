//! Tests walks from key to key (which the map speeds up), the memory of a map with scattered keys,
//! and the heads of keys.

extern crate std;

use super::BTreeMap;
use super::key::Key;
use crate::exported::stun_base::transaction_id::TransactionId;
use crate::kit::alloc::Global;
use crate::kit::prelude::String;
use crate::kit::tests::{Dice, Sparse, play};
use core::net::SocketAddr;
use core::ops::Bound;
use std::{collections, format, string, thread, vec};

/// Successive calls are about one key, or about a key and the next one. Their results are the same
/// as those of the standard map.
#[test]
fn a_walk_by_single_keys_is_as_the_standard_one() {
    play(4, |heap, dice, turns| {
        let mut ours = BTreeMap::new(heap);
        let mut other = collections::BTreeMap::new();
        for turn in 0..turns {
            for _ in 0..4_000 {
                let key = dice.roll(6_000);
                if ours.insert(key, turn).is_ok() {
                    other.insert(key, turn);
                }
                assert_eq!(ours.get(&key), other.get(&key));
            }
            let mut start = Bound::Included(dice.roll(1_000));
            let rest = (start, Bound::Unbounded);
            let keys: vec::Vec<u64> = other.range(rest).map(|(key, _)| *key).collect();
            let mut seen = vec![];
            loop {
                let next = ours.range((start, Bound::Unbounded)).next().map(|e| *e.0);
                let Some(key) = next else { break };
                seen.push(key);
                match dice.roll(8) {
                    0..=2 => assert_eq!(ours.remove(&key), other.remove(&key)),
                    3 => assert_eq!(ours.get_mut(&key), other.get_mut(&key)),
                    4 => assert_eq!(ours.remove(&(key + 1)), other.remove(&(key + 1))),
                    5 if key > 0 => {
                        // The entries after this one move in their node.
                        assert_eq!(ours.remove(&(key - 1)), other.remove(&(key - 1)));
                    }
                    _ => {}
                }
                assert_eq!(ours.get(&key), other.get(&key));
                assert_eq!(ours.get_mut(&key), other.get_mut(&key));
                let from = (Bound::Included(key), Bound::Unbounded);
                assert!(ours.range(from).take(2).eq(other.range(from).take(2)));
                start = Bound::Excluded(key);
            }
            seen.iter().for_each(|key| assert!(keys.contains(key)));
            let left = other.range(rest).map(|(key, _)| key);
            assert!(left.copied().all(|key| seen.binary_search(&key).is_ok()));
            assert!(ours.iter().eq(other.iter()));
        }
    });
}

/// Threads that walk over one map at the same time share the recent entry, but each of them gets
/// its own next key.
#[test]
fn walks_by_threads_do_not_mix() {
    let mut map = BTreeMap::new(Global);
    let count = 4_000_u64;
    for key in 0..count {
        map.insert(key, ()).unwrap();
    }
    let walk = || {
        for key in (0..count - 1).cycle().take(400_000) {
            let rest = (Bound::Excluded(key), Bound::Unbounded);
            let next = map.range(rest).next().map(|e| *e.0);
            assert_eq!(next, Some(key + 1));
        }
    };
    thread::scope(|scope| (0..4).for_each(|_| drop(scope.spawn(walk))));
}

/// A full leaf moves entries to a neighbor with room before it is split. So the nodes need less
/// than 1.3 times the memory of the entries.
#[test]
fn a_map_of_scattered_keys_has_full_nodes() {
    let heap = Sparse::new(0);
    let mut map = BTreeMap::new(&heap);
    let count = 20_000_u64;
    for key in 0..count {
        let scattered = key.wrapping_mul(0x9E37_79B9_7F4A_7C15);
        assert_eq!(map.insert(scattered, [0_u64; 15]).unwrap(), None);
    }
    assert!(heap.bytes() * 10 < count as usize * size_of::<[u64; 16]>() * 13);
}

/// Returns an address of either family. Many of these addresses differ in a single byte.
fn address(dice: &mut Dice) -> SocketAddr {
    let mut octets = [0; 16];
    for _ in 0..dice.roll(3) {
        octets[dice.roll(16) as usize] = dice.roll(256) as u8;
    }
    let port = dice.roll(3) as u16;
    if dice.roll(2) == 0 {
        (octets, port).into()
    } else {
        let [a, b, c, d, ..] = octets;
        ([a, b, c, d], port).into()
    }
}

/// Returns a text. Many of these texts begin alike, and some of them have zero bytes.
fn text(dice: &mut Dice) -> string::String {
    let beginnings = ["", "a", "user", "user0000", "user00000000", "\0", "\u{ff}"];
    let beginning = beginnings[dice.roll(7) as usize];
    let ends = ["", "\0", "\0\0", "a"];
    format!(
        "{beginning}{}{}",
        dice.roll(40),
        ends[dice.roll(4) as usize]
    )
}

fn ordered<K: Key>(mut keys: vec::Vec<K>) {
    keys.sort();
    assert!(keys.is_sorted_by_key(K::head));
}

#[test]
fn the_head_of_a_lesser_key_is_no_greater() {
    play(20, |heap, dice, turns| {
        heap.ask();
        for _ in 0..turns {
            let texts: vec::Vec<_> = (0..200).map(|_| text(dice)).collect();
            for one in &texts {
                let owned = String::from(one.clone());
                assert_eq!(owned.head(), one.head());
                texts
                    .iter()
                    .filter(|other| one < other)
                    .for_each(|other| assert!(one.head() <= other.head()));
            }
            ordered((0..200).map(|_| address(dice)).collect());
            ordered((0..200).map(|_| dice.roll(1 << 56)).collect());
            let hash = |dice: &mut Dice| core::array::from_fn(|_| dice.roll(3) as u8);
            ordered((0..200).map(|_| (hash(dice), dice.roll(9))).collect());
            let number = |dice: &mut Dice| u128::from(dice.roll(1 << 56)) << dice.roll(40);
            let id = |dice: &mut Dice| TransactionId::from_u128(number(dice)).unwrap();
            ordered((0..200).map(|_| id(dice)).collect());
        }
    });
}

/// Keys with the same head are found by comparing the keys themselves, and are in order.
#[test]
fn a_map_of_keys_that_begin_alike_is_as_the_standard_one() {
    play(6_000, |heap, dice, turns| {
        let mut ours = BTreeMap::new(heap);
        let mut other = collections::BTreeMap::new();
        let mut places = BTreeMap::new(heap);
        let mut other_places = collections::BTreeMap::new();
        for turn in 0..turns {
            let (key, at) = (text(dice), address(dice));
            if dice.roll(3) > 0 {
                if ours.insert(String::from(key.clone()), turn).is_ok() {
                    other.insert(key.clone(), turn);
                }
                if places.insert(at, turn).is_ok() {
                    other_places.insert(at, turn);
                }
            } else if dice.roll(200) == 0 {
                ours.retain(|_, value| *value % 3 == 0);
                other.retain(|_, value| *value % 3 == 0);
                places.retain(|_, value| *value % 3 == 0);
                other_places.retain(|_, value| *value % 3 == 0);
            } else {
                assert_eq!(ours.remove(key.as_str()), other.remove(&key));
                assert_eq!(places.remove(&at), other_places.remove(&at));
            }
            let (key, at) = (text(dice), address(dice));
            assert_eq!(ours.get(key.as_str()), other.get(&key));
            assert_eq!(places.get_mut(&at), other_places.get_mut(&at));
            let from = (Bound::Excluded(at), Bound::Unbounded);
            assert!(
                places
                    .range(from)
                    .take(5)
                    .eq(other_places.range(from).take(5))
            );
            if turn % 100 == 0 {
                let ours = ours.iter().map(|(key, value)| (key.as_str(), value));
                assert!(ours.eq(other.iter().map(|(key, value)| (key.as_str(), value))));
                assert!(places.iter().eq(other_places.iter()));
            }
        }
    });
}

/// The entries that are left after a retain are moved together, and all memory after them is freed.
#[test]
fn what_is_retained_is_in_few_blocks() {
    for rest in 0..70 {
        let heap = Sparse::new(0);
        let mut map = BTreeMap::new(&heap);
        for key in 0..2_000_u64 {
            map.insert(key * 7 % 2_000, [key; 8]).unwrap();
        }
        let full = heap.bytes();
        map.retain(|key, _| key % 70 <= rest);
        assert!((0..2_000).all(|key| map.contains_key(&key) == (key % 70 <= rest)));
        assert!(map.iter().all(|(key, value)| value[0] * 7 % 2_000 == *key));
        assert!(heap.bytes() * 70 < full * (rest as usize + 1) + full * 10);
        map.retain(|_, _| false);
        assert!(map.is_empty() && map.iter().next().is_none());
        assert!(heap.bytes() < 32 * 100, "that of one node and of one block");
    }
}
