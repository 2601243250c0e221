//! Ordered maps and sets whose growth can fail.
//!
//! The standard `BTreeMap` aborts the program if an allocation fails. So this module has a B-tree
//! of its own, which allocates memory before any entry moves. The entries are in a list, and the
//! row of an entry is its number in this list. A node of the tree has only the rows of entries and
//! the first bits of their keys. So maps of all types share the code of the tree, and most
//! comparisons do not look at the keys themselves.

mod entries;
mod key;
mod node;
mod rows;
#[cfg(test)]
mod tests;
mod tree;

use super::alloc::{AllocError, AllocFailed, Allocator, Global};
use core::borrow::Borrow;
use core::ops::{Bound, RangeBounds, RangeFrom};
use core::{fmt, mem};
use entries::Entries;
pub use key::Key;
use node::{Sought, Spot};
use rows::Rows;
use tree::Tree;

/// Like the standard `BTreeMap`, but with an allocator that is asked before the map grows.
pub struct BTreeMap<K: Key, V, A: Allocator = Global> {
    tree: Tree,
    rows: Rows<K, V>,
    alloc: A,
}

impl<K: Key, V, A: Allocator> BTreeMap<K, V, A> {
    /// Creates an empty map. This does not allocate.
    pub const fn new(alloc: A) -> Self {
        BTreeMap {
            tree: Tree::new(),
            rows: Rows::new(),
            alloc,
        }
    }

    /// Returns the number of entries.
    pub fn len(&self) -> usize {
        self.rows.len()
    }

    /// Returns `true` if the map has no entries.
    pub fn is_empty(&self) -> bool {
        self.len() == 0
    }

    /// Returns a reference to the value of a key.
    pub fn get<Q: Key + ?Sized>(&self, key: &Q) -> Option<&V>
    where
        K: Borrow<Q>,
    {
        if let Some((_, (_, value))) = self.recent(key) {
            return Some(value);
        }
        let order = |row| Ord::cmp(self.rows.get(row).0.borrow(), key);
        let row = self.tree.find(&Sought::new(key, &order))?;
        Some(&self.rows.get(row).1)
    }

    /// Returns the recent row and its entry, or `None` if the entry does not have this key. The row
    /// is read only once, because another thread may change the recent row at any time.
    fn recent<Q: Key + ?Sized>(&self, key: &Q) -> Option<(usize, &(K, V))>
    where
        K: Borrow<Q>,
    {
        let row = self.tree.recent();
        let entry = self.rows.find(row)?;
        (entry.0.borrow() == key).then_some((row, entry))
    }

    /// Returns the entry with the least key.
    pub fn first_key_value(&self) -> Option<(&K, &V)> {
        self.iter().next()
    }

    /// Returns a mutable reference to the value of a key.
    pub fn get_mut<Q: Key + ?Sized>(&mut self, key: &Q) -> Option<&mut V>
    where
        K: Borrow<Q>,
    {
        let row = if let Some((row, _)) = self.recent(key) {
            row
        } else {
            let order = |row| Ord::cmp(self.rows.get(row).0.borrow(), key);
            self.tree.visit(&Sought::new(key, &order))?
        };
        Some(&mut self.rows.get_mut(row).1)
    }

    /// Returns `true` if the map has this key.
    pub fn contains_key<Q: Key + ?Sized>(&self, key: &Q) -> bool
    where
        K: Borrow<Q>,
    {
        self.get(key).is_some()
    }

    /// Inserts a value and returns the previous value of the key, if there was one. The stored key
    /// is not replaced. If an allocation fails, the error returns the key and the value.
    pub fn insert(&mut self, key: K, value: V) -> Result<Option<V>, AllocFailed<(K, V)>> {
        match self.enter(&key) {
            Ok(Some(row)) => Ok(Some(mem::replace(&mut self.rows.get_mut(row).1, value))),
            Ok(None) => {
                self.rows.push(key, value);
                Ok(None)
            }
            Err(AllocError) => Err(AllocFailed {
                value: (key, value),
            }),
        }
    }

    /// Returns the row of a key that is in the map. For a new key, allocates memory for the next
    /// row if necessary, inserts the key in the tree with this row, and returns `None`.
    fn enter(&mut self, key: &K) -> Result<Option<usize>, AllocError> {
        let order = |row| self.rows.get(row).0.cmp(key);
        let sought = Sought::new(key, &order);
        if self.rows.is_full() && self.tree.find(&sought).is_none() {
            self.rows.grow(&self.alloc)?;
        }
        let order = |row| self.rows.get(row).0.cmp(key);
        let sought = Sought::new(key, &order);
        self.tree.enter(&sought, self.rows.len(), &self.alloc)
    }

    /// Removes a key and returns its entry. This does not allocate.
    pub fn remove_entry<Q: Key + ?Sized>(&mut self, key: &Q) -> Option<(K, V)>
    where
        K: Borrow<Q>,
    {
        let order = |row| Ord::cmp(self.rows.get(row).0.borrow(), key);
        let row = self.tree.remove(&Sought::new(key, &order), &self.alloc)?;
        Some(self.take(row))
    }

    /// Removes a key and returns its value. This does not allocate.
    pub fn remove<Q: Key + ?Sized>(&mut self, key: &Q) -> Option<V>
    where
        K: Borrow<Q>,
    {
        self.remove_entry(key).map(|(_, value)| value)
    }

    /// Removes the entry with the least key and returns it. This does not allocate.
    pub fn pop_first(&mut self) -> Option<(K, V)> {
        let first = self.tree.seek(Bound::Unbounded).0?.row();
        let key = &self.rows.get(first).0;
        let order = |row| self.rows.get(row).0.cmp(key);
        let row = self.tree.remove(&Sought::new(key, &order), &self.alloc)?;
        Some(self.take(row))
    }

    /// Removes the entry in a row that is no longer in the tree.
    fn take(&mut self, row: usize) -> (K, V) {
        let last = self.rows.len() - 1;
        if row != last {
            // The last entry is moved to the row that is free now.
            let moved = &self.rows.get(last).0;
            let order = |row| self.rows.get(row).0.cmp(moved);
            self.tree.renumber(&Sought::new(moved, &order), row);
        }
        self.rows.swap_remove(row, &self.alloc)
    }

    /// Retains only the entries for which `condition` returns `true`. The function is called in the
    /// order of the keys. This does not allocate.
    pub fn retain(&mut self, mut condition: impl FnMut(&K, &mut V) -> bool) {
        let (rows, mut len) = (&mut self.rows, 0);
        let mut is_kept = |row| {
            let (key, value) = rows.get_mut(row);
            let is_kept = condition(key, value);
            if is_kept {
                len += 1;
            } else {
                rows.dismiss(row);
            }
            is_kept
        };
        self.tree.retain(&mut is_kept, &self.alloc);
        if len == self.rows.len() {
            return;
        }
        let mut free = 0;
        self.tree.renumber_all(&mut |row| {
            if row < len {
                return row;
            }
            let settled = self.rows.settle(row, free);
            free = settled + 1;
            settled
        });
        self.rows.cut(len, &self.alloc);
    }

    /// Returns an iterator over the entries, in the order of their keys.
    pub fn iter(&self) -> impl Iterator<Item = (&K, &V)> {
        let first = self.tree.seek(Bound::Unbounded).0;
        Entries::new(&self.tree, &self.rows, first)
    }

    /// Returns an iterator over the entries whose keys are in a range, in the order of their keys.
    pub fn range<R: RangeBounds<K>>(&self, range: R) -> impl Iterator<Item = (&K, &V)> {
        let has_end = !matches!(range.end_bound(), Bound::Unbounded);
        let entries = Entries::new(&self.tree, &self.rows, self.seek(range.start_bound()));
        // The iterator begins at the start of the range, and needs only the end from now on. A
        // range without an end is dropped, because moving it into the iterator would take longer
        // than one step.
        let range = has_end.then_some(range);
        entries.take_while(move |(key, _)| match range.as_ref().map(R::end_bound) {
            Some(Bound::Included(end)) => *key <= end,
            Some(Bound::Excluded(end)) => *key < end,
            _ => true,
        })
    }

    /// Returns the first entry whose key is not before `start`.
    fn seek(&self, start: Bound<&K>) -> Option<Spot<'_>> {
        let (Bound::Included(key) | Bound::Excluded(key)) = start else {
            return self.tree.seek(Bound::Unbounded).0;
        };
        if matches!(start, Bound::Excluded(_)) {
            let recent = self.recent(key);
            let next = recent.and_then(|(row, _)| self.tree.next_recent(row));
            if next.is_some() {
                return next;
            }
        }
        let order = |row| self.rows.get(row).0.cmp(key);
        let sought = Sought::new(key, &order);
        self.tree.walk(start.map(|_| &sought))
    }
}

impl<K: Key, V, A: Allocator> Drop for BTreeMap<K, V, A> {
    fn drop(&mut self) {
        self.tree.leave(&self.alloc);
        self.rows.leave(&self.alloc);
    }
}

impl<K: Key + fmt::Debug, V: fmt::Debug, A: Allocator> fmt::Debug for BTreeMap<K, V, A> {
    fn fmt(&self, f: &mut fmt::Formatter<'_>) -> fmt::Result {
        f.debug_map().entries(self.iter()).finish()
    }
}

/// Like the standard `BTreeSet`, but with an allocator that is asked before the set grows.
pub struct BTreeSet<K: Key, A: Allocator = Global> {
    map: BTreeMap<K, (), A>,
}

impl<K: Key, A: Allocator> BTreeSet<K, A> {
    /// Creates an empty set. This does not allocate.
    pub const fn new(alloc: A) -> Self {
        BTreeSet {
            map: BTreeMap::new(alloc),
        }
    }

    /// Returns the number of items.
    pub fn len(&self) -> usize {
        self.map.len()
    }

    /// Returns `true` if the set has no items.
    pub fn is_empty(&self) -> bool {
        self.map.is_empty()
    }

    /// Returns `true` if the set contains this item.
    pub fn contains(&self, item: &K) -> bool {
        self.map.contains_key(item)
    }

    /// Inserts an item and returns `true` if it is new. If an allocation fails, the error returns
    /// the item.
    pub fn insert(&mut self, item: K) -> Result<bool, AllocFailed<K>> {
        match self.map.insert(item, ()) {
            Ok(before) => Ok(before.is_none()),
            Err(AllocFailed { value: (item, ()) }) => Err(AllocFailed { value: item }),
        }
    }

    /// Removes an item and returns `true` if the set contained it. This does not allocate.
    pub fn remove(&mut self, item: &K) -> bool {
        self.map.remove(item).is_some()
    }

    /// Removes the least item and returns it. This does not allocate.
    pub fn pop_first(&mut self) -> Option<K> {
        self.map.pop_first().map(|(item, ())| item)
    }

    /// Returns an iterator over the items in their order.
    pub fn iter(&self) -> impl Iterator<Item = &K> {
        self.map.iter().map(|(item, ())| item)
    }

    /// Returns an iterator over the items that are not less than the start of `range`, in their
    /// order.
    pub fn range(&self, range: RangeFrom<K>) -> impl Iterator<Item = &K> {
        self.map.range(range).map(|(item, ())| item)
    }
}

impl<K: Key + fmt::Debug, A: Allocator> fmt::Debug for BTreeSet<K, A> {
    fn fmt(&self, f: &mut fmt::Formatter<'_>) -> fmt::Result {
        f.debug_set().entries(self.iter()).finish()
    }
}
