//! A B-tree over the rows of a map.

use super::node::{Node, Sought, Spot, Way};
use crate::kit::alloc::{AllocError, Allocator};
use core::mem;
use core::ops::Bound;
use core::sync::atomic::{AtomicUsize, Ordering};

/// The rows of a map in the order of their keys.
pub(super) struct Tree {
    // It has no memory until the first entry is inserted.
    root: Node,
    // The recent entry: its row, and the path to it. This is the entry that was last inserted,
    // replaced or borrowed mutably, or with which a range with an excluded start began. Successive
    // calls are often about one key, or about a key and the next one. Since then, another entry may
    // have been moved to the row, and the path may lead to another row, so the caller must check
    // both.
    recent: AtomicUsize,
    way: AtomicUsize,
}

impl Tree {
    /// Creates an empty tree. This does not allocate.
    pub(super) const fn new() -> Self {
        Tree {
            root: Node::none(),
            recent: AtomicUsize::new(0),
            way: AtomicUsize::new(0),
        }
    }

    /// Returns the recent row, to which another entry may have been moved since.
    pub(super) fn recent(&self) -> usize {
        self.recent.load(Ordering::Relaxed)
    }

    /// Returns the row of a key, or `None` if the tree does not have it.
    pub(super) fn find(&self, sought: &Sought<'_>) -> Option<usize> {
        self.root.find(sought).map(|(row, _)| row)
    }

    /// Returns the row of a key, and makes its entry the recent one. Returns `None` if the tree
    /// does not have the key.
    pub(super) fn visit(&mut self, sought: &Sought<'_>) -> Option<usize> {
        let (row, way) = self.root.find(sought)?;
        *self.recent.get_mut() = row;
        *self.way.get_mut() = way.indices;
        Some(row)
    }

    /// Returns the row of a key that is in the tree. Inserts a new key with the given row, and
    /// returns `None`. If the leaf for a new key is full, each full node on the path to it is
    /// split, so that there is room in each. A full leaf whose neighbor has room moves entries to
    /// this neighbor instead.
    pub(super) fn enter(
        &mut self,
        sought: &Sought<'_>,
        row: usize,
        alloc: &dyn Allocator,
    ) -> Result<Option<usize>, AllocError> {
        if !self.root.has_memory() {
            self.root = Node::new(true, alloc)?;
        }
        let mut has_room = self.root.is_full() && self.root.has_room(sought);
        if self.root.is_full() && !has_room {
            let root = Node::new(false, alloc)?;
            let child = mem::replace(&mut self.root, root);
            self.root.adopt(child);
        }
        let mut node = &mut self.root;
        let mut way = Way::ROOT;
        loop {
            let place = node.search(sought);
            let (Err(at), false) = (place, node.is_leaf()) else {
                way.push(place.unwrap_or_else(|at| at));
                let found = node.row_or_put(place, sought, row);
                *self.recent.get_mut() = found.unwrap_or(row);
                *self.way.get_mut() = way.indices;
                return Ok(found);
            };
            let is_full = node.child(at).is_full();
            has_room = has_room || (is_full && node.child(at).has_room(sought));
            if !is_full || has_room {
                way.push(at);
                node = node.child(at);
            } else if !node.share(at) {
                node.split(at, sought, alloc)?;
            }
        }
    }

    /// Removes a key and returns its row. This does not allocate.
    pub(super) fn remove(&mut self, sought: &Sought<'_>, alloc: &dyn Allocator) -> Option<usize> {
        let row = self.root.remove(sought, alloc)?;
        self.lower(alloc);
        Some(row)
    }

    /// Removes nodes at the root that have a single child.
    fn lower(&mut self, alloc: &dyn Allocator) {
        while let Some(child) = self.root.only_child() {
            mem::replace(&mut self.root, child).leave(alloc);
        }
    }

    /// Sets the row of a key that is in the tree.
    pub(super) fn renumber(&mut self, sought: &Sought<'_>, row: usize) {
        self.root.renumber(sought, row);
    }

    /// Sets each row to what `change` returns for it. The calls are not in the order of the keys.
    pub(super) fn renumber_all(&mut self, change: &mut dyn FnMut(usize) -> usize) {
        self.root.renumber_all(change);
    }

    /// Retains only the rows for which `condition` returns `true`. The function is called in the
    /// order of the keys. This does not allocate.
    pub(super) fn retain(
        &mut self,
        condition: &mut dyn FnMut(usize) -> bool,
        alloc: &dyn Allocator,
    ) {
        self.root.retain(condition, alloc);
        self.lower(alloc);
    }

    /// Returns the first entry whose key is not before `start`, and the path to it.
    pub(super) fn seek(&self, start: Bound<&Sought<'_>>) -> (Option<Spot<'_>>, Way) {
        self.root.seek(start)
    }

    /// Returns the next entry after the entry of this row, and makes it the recent one. Returns
    /// `None` if the entry of this row is not the recent one, or if the next entry is not in the
    /// same leaf.
    pub(super) fn next_recent(&self, row: usize) -> Option<Spot<'_>> {
        let (spot, next) = self.root.follow(self.way.load(Ordering::Relaxed), row)?;
        let spot = spot.next_in_leaf()?;
        self.recent.store(spot.row(), Ordering::Relaxed);
        self.way.store(next, Ordering::Relaxed);
        Some(spot)
    }

    /// Returns the first entry whose key is not before `start`. If the start is excluded, also
    /// makes this entry the recent one, because the caller walks over the map key by key.
    pub(super) fn walk(&self, start: Bound<&Sought<'_>>) -> Option<Spot<'_>> {
        let (spot, way) = self.seek(start);
        if let (Bound::Excluded(_), Some(spot)) = (start, spot) {
            self.recent.store(spot.row(), Ordering::Relaxed);
            self.way.store(way.indices, Ordering::Relaxed);
        }
        spot
    }

    /// Tells the allocator that the memory is no longer used.
    pub(super) fn leave(&self, alloc: &dyn Allocator) {
        self.root.leave(alloc);
    }
}
