//! The nodes of a B-tree, and the paths to their entries.

use super::key::Key;
use crate::kit::alloc::{AllocError, Allocator};
use ::alloc::vec::Vec;
use core::cmp::Ordering;
use core::mem;
use core::ops::{Bound, Range};

/// The maximum number of entries in a node. Each node has the capacity for this number.
pub(super) const MOST: usize = 32;

/// The number of heads that a search in a node skips with one comparison.
const STEP: usize = 4;

/// The number of bits of an index in a path.
const INDEX_BITS: u32 = 6;

/// The path from the root to an entry. The path has the index of the child to follow in each node,
/// and then the index of the entry. Each index is stored plus one in six bits, beginning with the
/// lowest. Indices that no longer fit are dropped, so the caller must compare the row at the end of
/// the path.
#[derive(Clone, Copy)]
pub(super) struct Way {
    pub(super) indices: usize,
    bits: u32,
}

impl Way {
    pub(super) const ROOT: Way = Way {
        indices: 0,
        bits: 0,
    };

    /// Appends an index to the path.
    pub(super) fn push(&mut self, at: usize) {
        self.indices |= (at + 1).checked_shl(self.bits).unwrap_or(0);
        self.bits += INDEX_BITS;
    }

    /// Returns the first index of a path, and the rest of the path.
    fn first(indices: usize) -> (usize, usize) {
        let first = indices & ((1 << INDEX_BITS) - 1);
        (first.wrapping_sub(1), indices >> INDEX_BITS)
    }
}

/// What a search looks for: the head of a key, and a function that compares the key of a row with
/// that key.
pub(super) struct Sought<'a> {
    head: u64,
    order: &'a dyn Fn(usize) -> Ordering,
}

impl<'a> Sought<'a> {
    pub(super) fn new<Q: Key + ?Sized>(key: &Q, order: &'a dyn Fn(usize) -> Ordering) -> Self {
        let head = key.head();
        Sought { head, order }
    }

    /// Compares the key of an entry with the key that is sought.
    fn order(&self, entry: Entry) -> Ordering {
        let order = entry.head.cmp(&self.head);
        order.then_with(|| (self.order)(entry.row))
    }
}

/// An entry: the head of its key, and its row.
#[derive(Clone, Copy)]
struct Entry {
    head: u64,
    row: usize,
}

impl Entry {
    const NONE: Entry = Entry { head: 0, row: 0 };
}

/// Where an entry is: its node, and its index in this node.
#[derive(Clone, Copy)]
pub(super) struct Spot<'a> {
    node: &'a Node,
    at: usize,
}

impl Spot<'_> {
    /// Returns the row of the entry.
    pub(super) fn row(self) -> usize {
        self.node.entries[self.at].row
    }

    /// Returns the next entry, or `None` if it is not in the same leaf.
    pub(super) fn next_in_leaf(self) -> Option<Self> {
        let Spot { node, at } = self;
        let at = at + 1;
        (node.is_leaf() && at < node.len()).then_some(Spot { node, at })
    }
}

/// A node of the tree: a leaf, or a node with a child before, between and after its entries. All
/// leaves have the same number of nodes above them.
///
/// When an entry below a child is removed, the child is merged with a neighbor if both together
/// fill at most half a node. A node can still be empty if its neighbors are full.
///
/// A node has no type parameter, so maps of all types share its code.
pub(super) struct Node {
    entries: Vec<Entry>,
    children: Vec<Node>,
}

impl Node {
    /// Creates a leaf without memory.
    pub(super) const fn none() -> Self {
        Node {
            entries: Vec::new(),
            children: Vec::new(),
        }
    }

    /// Allocates the memory of an empty node.
    pub(super) fn new(is_leaf: bool, alloc: &dyn Allocator) -> Result<Self, AllocError> {
        let mut node = Node::none();
        alloc.allocate(Self::bytes(is_leaf), align_of::<Entry>())?;
        let mut reserved = node.entries.try_reserve_exact(MOST);
        if !is_leaf {
            reserved = reserved.and_then(|()| node.children.try_reserve_exact(MOST + 1));
        }
        if reserved.is_err() {
            alloc.deallocate(Self::bytes(is_leaf), align_of::<Entry>());
            return Err(AllocError);
        }
        Ok(node)
    }

    /// Returns the number of bytes that a node requests from its allocator.
    const fn bytes(is_leaf: bool) -> usize {
        let children = if is_leaf { 0 } else { MOST + 1 };
        MOST * size_of::<Entry>() + children * size_of::<Self>()
    }

    /// Tells the allocator that the memory of this node and of all nodes below it is no longer
    /// used.
    pub(super) fn leave(&self, alloc: &dyn Allocator) {
        self.children.iter().for_each(|child| child.leave(alloc));
        if self.has_memory() {
            let is_leaf = self.children.capacity() == 0;
            alloc.deallocate(Self::bytes(is_leaf), align_of::<Entry>());
        }
    }

    pub(super) fn has_memory(&self) -> bool {
        self.entries.capacity() > 0
    }

    pub(super) fn len(&self) -> usize {
        self.entries.len()
    }

    pub(super) fn is_full(&self) -> bool {
        self.len() == MOST
    }

    pub(super) fn is_leaf(&self) -> bool {
        self.children.is_empty()
    }

    /// Returns `Ok` with the index of a key, or `Err` with the index of the first entry after it,
    /// which is also the index of the child in which the key would be.
    pub(super) fn search(&self, sought: &Sought<'_>) -> Result<usize, usize> {
        let (entries, head) = (self.entries.as_slice(), sought.head);
        // A processor can load the next heads of these loops ahead of time. In a binary search each
        // step waits for the one before, which takes longer with so few heads.
        let mut at = 0;
        while entries.get(at + STEP - 1).is_some_and(|e| e.head < head) {
            at += STEP;
        }
        while entries.get(at).is_some_and(|e| e.head < head) {
            at += 1;
        }
        let alike = entries[at..].iter().take_while(|e| e.head == head).count();
        if alike == 0 {
            return Err(at);
        }
        // Only the keys with the same head are compared, and there is seldom more than one.
        let alike = &entries[at..at + alike];
        let found = alike.binary_search_by(|e| (sought.order)(e.row));
        found.map(|more| at + more).map_err(|more| at + more)
    }

    /// Returns the row of a key, and the path to it, or `None` if neither this node nor a node
    /// below it has the key.
    pub(super) fn find(&self, sought: &Sought<'_>) -> Option<(usize, Way)> {
        let (mut node, mut way) = (self, Way::ROOT);
        loop {
            match node.search(sought) {
                Ok(at) => {
                    way.push(at);
                    return Some((node.entries[at].row, way));
                }
                Err(at) => {
                    way.push(at);
                    node = node.children.get(at)?;
                }
            }
        }
    }

    /// Follows a path, and returns the entry at its end, or `None` if there is no entry or the
    /// entry does not have the given row. Also returns the path to the next entry, which is correct
    /// only if the entry is in a leaf.
    pub(super) fn follow(&self, way: usize, row: usize) -> Option<(Spot<'_>, usize)> {
        let (mut node, mut step) = (self, 1_usize);
        let (mut at, mut rest) = Way::first(way);
        while rest > 0 {
            node = node.children.get(at)?;
            (at, rest) = Way::first(rest);
            step <<= INDEX_BITS;
        }
        let is_found = node.entries.get(at)?.row == row;
        is_found.then_some((Spot { node, at }, way.wrapping_add(step)))
    }

    /// Returns the first entry whose key is not before `start`, and the path to it.
    pub(super) fn seek(&self, start: Bound<&Sought<'_>>) -> (Option<Spot<'_>>, Way) {
        let (mut node, mut way) = (self, Way::ROOT);
        let (mut found, mut found_way) = (None, way);
        loop {
            let at = match start {
                Bound::Included(key) => node.search(key).unwrap_or_else(|at| at),
                Bound::Excluded(key) => node.search(key).map_or_else(|at| at, |at| at + 1),
                Bound::Unbounded => 0,
            };
            way.push(at);
            if at < node.len() {
                // This entry is the result, unless the child before it has an entry that is not
                // before `start`.
                (found, found_way) = (Some(Spot { node, at }), way);
            }
            let Some(child) = node.children.get(at) else {
                return (found, found_way);
            };
            node = child;
        }
    }

    /// Returns `true` if the key is in this node or below, or if the leaf where it would be has
    /// room. Then no node has to be split for it.
    pub(super) fn has_room(&self, sought: &Sought<'_>) -> bool {
        let mut node = self;
        loop {
            match node.search(sought) {
                Ok(_) => return true,
                Err(_) if node.is_leaf() => return !node.is_full(),
                Err(at) => node = &node.children[at],
            }
        }
    }

    /// Returns the row of a key that a search has found (`Ok`). For a key that the search has not
    /// found (`Err`), inserts the key with `row` at the index where it can be, and returns `None`;
    /// the node must then not be full.
    pub(super) fn row_or_put(
        &mut self,
        place: Result<usize, usize>,
        sought: &Sought<'_>,
        row: usize,
    ) -> Option<usize> {
        match place {
            Ok(at) => Some(self.entries[at].row),
            Err(at) => {
                let head = sought.head;
                self.entries.insert(at, Entry { head, row });
                None
            }
        }
    }

    /// Makes a node the first child of this node, which must have no child.
    pub(super) fn adopt(&mut self, child: Node) {
        self.children.push(child);
    }

    /// Moves the entries in `range` to `other`, inserting them at index `at`.
    fn pass(&mut self, range: Range<usize>, other: &mut Self, at: usize) {
        let (count, end) = (range.len(), other.len());
        other.entries.resize(end + count, Entry::NONE);
        other.entries.copy_within(at..end, at + count);
        other.entries[at..at + count].copy_from_slice(&self.entries[range.clone()]);
        self.entries.copy_within(range.end.., range.start);
        self.entries.truncate(self.len() - count);
    }

    /// Returns the child at an index.
    pub(super) fn child(&mut self, at: usize) -> &mut Node {
        &mut self.children[at]
    }

    /// Moves entries of a full leaf to the neighbor with more room, so that both have about the
    /// same number, and returns `true`. If the child is not a leaf, or no neighbor has room for two
    /// entries, no entry moves, and the call returns `false`.
    pub(super) fn share(&mut self, at: usize) -> bool {
        let room = |child: Option<&Self>| child.map_or(0, |child| MOST - child.len());
        let before = at
            .checked_sub(1)
            .map_or(0, |before| room(self.children.get(before)));
        let after = room(self.children.get(at + 1));
        let count = before.max(after) / 2;
        if count < 1 || !self.children[at].is_leaf() {
            return false;
        }
        let middle = if before < after { at } else { at - 1 };
        let (upper, lower) = self.children.split_at_mut(middle + 1);
        let (left, right) = (&mut upper[middle], &mut lower[0]);
        // The entry between the two leaves moves to the leaf that gets entries, and an entry of the
        // other leaf takes its place.
        let between = &mut self.entries[middle];
        if middle == at {
            right.entries.insert(0, *between);
            let from = left.len() - count;
            left.pass(from + 1..left.len(), right, 0);
            *between = left.entries.remove(from);
        } else {
            left.entries.push(*between);
            let end = left.len();
            right.pass(0..count - 1, left, end);
            *between = right.entries.remove(0);
        }
        true
    }

    /// Splits a child that is full, so that the key can be inserted in it. This node must not be
    /// full. If the allocation fails, no entry moves.
    pub(super) fn split(
        &mut self,
        at: usize,
        sought: &Sought<'_>,
        alloc: &dyn Allocator,
    ) -> Result<(), AllocError> {
        let is_last = at == self.len();
        let child = &mut self.children[at];
        let mut next = Node::new(child.is_leaf(), alloc)?;
        // If the keys seem to be inserted in ascending order, the child keeps nearly all entries,
        // because then probably no more keys are inserted in it.
        let last = child.entries.last();
        let is_ascending = is_last && last.is_some_and(|e| sought.order(*e).is_lt());
        let middle = if is_ascending { MOST - 2 } else { MOST / 2 };
        child.pass(middle + 1..MOST, &mut next, 0);
        if !child.is_leaf() {
            next.children.extend(child.children.drain(middle + 1..));
        }
        let between = child.entries.remove(middle);
        self.entries.insert(at, between);
        self.children.insert(at + 1, next);
        Ok(())
    }

    /// Merges the children before and after an entry with that entry if together they fill at most
    /// half a node, or if one of them is empty and the other has room for the entry.
    fn merge(&mut self, at: usize, alloc: &dyn Allocator) {
        let (before, after) = (self.children[at].len(), self.children[at + 1].len());
        let most = if before.min(after) == 0 {
            MOST
        } else {
            MOST / 2
        };
        if before + 1 + after > most {
            return;
        }
        let between = self.entries.remove(at);
        let mut next = self.children.remove(at + 1);
        let child = &mut self.children[at];
        child.entries.push(between);
        next.pass(0..after, child, before + 1);
        child.children.append(&mut next.children);
        next.leave(alloc);
    }

    /// Merges a child with its neighbors if they are small.
    fn tidy(&mut self, at: usize, alloc: &dyn Allocator) {
        if at < self.len() {
            self.merge(at, alloc);
        }
        if at > 0 {
            self.merge(at - 1, alloc);
        }
    }

    /// Removes and returns the entry with the greatest key in this node and the nodes below it, or
    /// returns `None` if they have no entries.
    fn pop(&mut self, alloc: &dyn Allocator) -> Option<Entry> {
        if let Some(last) = self.children.last_mut() {
            if let Some(entry) = last.pop(alloc) {
                self.tidy(self.len(), alloc);
                return Some(entry);
            }
            if self.entries.is_empty() {
                return None;
            }
            self.children.pop()?.leave(alloc);
        }
        self.entries.pop()
    }

    /// Removes and returns the only child of a node that has no entries. Returns `None` if the node
    /// has entries or no child.
    pub(super) fn only_child(&mut self) -> Option<Node> {
        if self.entries.is_empty() {
            self.children.pop()
        } else {
            None
        }
    }

    /// Removes the entry at an index of a node that is not a leaf. If the child before the entry,
    /// or a node below that child, has entries, the last of them takes its place.
    fn take_between(&mut self, at: usize, alloc: &dyn Allocator) -> Entry {
        if let Some(entry) = self.children[at].pop(alloc) {
            return mem::replace(&mut self.entries[at], entry);
        }
        self.children.remove(at).leave(alloc);
        self.entries.remove(at)
    }

    /// Removes a key and returns its row, or returns `None` if neither this node nor a node below
    /// it has the key.
    pub(super) fn remove(&mut self, sought: &Sought<'_>, alloc: &dyn Allocator) -> Option<usize> {
        let (at, row) = match self.search(sought) {
            Ok(at) if self.is_leaf() => return Some(self.entries.remove(at).row),
            Ok(at) => (at, self.take_between(at, alloc).row),
            Err(at) => (at, self.children.get_mut(at)?.remove(sought, alloc)?),
        };
        self.tidy(at, alloc);
        Some(row)
    }

    /// Sets the row of a key that is in this node or in a node below it.
    pub(super) fn renumber(&mut self, sought: &Sought<'_>, row: usize) {
        let mut node = self;
        loop {
            match node.search(sought) {
                Ok(at) => {
                    node.entries[at].row = row;
                    return;
                }
                Err(at) => match node.children.get_mut(at) {
                    Some(child) => node = child,
                    None => return,
                },
            }
        }
    }

    /// Calls `change` with the row of each entry, in no particular order.
    pub(super) fn renumber_all(&mut self, change: &mut dyn FnMut(usize) -> usize) {
        for entry in &mut self.entries {
            entry.row = change(entry.row);
        }
        for child in &mut self.children {
            child.renumber_all(change);
        }
    }

    /// Retains only the entries for whose rows `condition` returns `true`. The function is called
    /// in the order of the keys.
    pub(super) fn retain(
        &mut self,
        condition: &mut dyn FnMut(usize) -> bool,
        alloc: &dyn Allocator,
    ) {
        if self.is_leaf() {
            self.entries.retain(|entry| condition(entry.row));
            return;
        }
        let mut is_kept = [true; MOST];
        for (at, child) in self.children.iter_mut().enumerate() {
            child.retain(condition, alloc);
            if let Some(entry) = self.entries.get(at) {
                is_kept[at] = condition(entry.row);
            }
        }
        for at in (0..self.len()).rev() {
            if !is_kept[at] {
                self.take_between(at, alloc);
            }
            if at < self.len() {
                self.merge(at, alloc);
            }
        }
    }
}
