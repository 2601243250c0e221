//! The entries of a map in the order of their keys.

use super::key::Key;
use super::node::{Sought, Spot};
use super::rows::Rows;
use super::tree::Tree;
use core::ops::Bound;

/// An iterator over the entries of a map from a given one on, in the order of their keys.
pub(super) struct Entries<'a, K, V> {
    tree: &'a Tree,
    rows: &'a Rows<K, V>,
    spot: Option<Spot<'a>>,
    // If true, the entry of `spot` was returned, and the next entry is the one after it.
    is_past: bool,
}

impl<'a, K: Key, V> Entries<'a, K, V> {
    /// Creates an iterator that begins at an entry of the map, or that is empty if `spot` is
    /// `None`.
    pub(super) fn new(tree: &'a Tree, rows: &'a Rows<K, V>, spot: Option<Spot<'a>>) -> Self {
        Entries {
            tree,
            rows,
            spot,
            is_past: false,
        }
    }
}

impl<'a, K: Key, V> Iterator for Entries<'a, K, V> {
    type Item = (&'a K, &'a V);

    fn next(&mut self) -> Option<Self::Item> {
        let mut spot = self.spot?;
        if self.is_past {
            self.spot = spot.next_in_leaf();
            if self.spot.is_none() {
                let (key, _) = self.rows.get(spot.row());
                let order = |row| self.rows.get(row).0.cmp(key);
                let sought = Sought::new(key, &order);
                self.spot = self.tree.seek(Bound::Excluded(&sought)).0;
            }
            spot = self.spot?;
        }
        self.is_past = true;
        let (key, value) = self.rows.get(spot.row());
        Some((key, value))
    }
}
