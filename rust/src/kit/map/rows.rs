//! The entries of a map, in no order.

use crate::kit::alloc::{AllocError, Allocator, change, grown, leave};
use ::alloc::vec::Vec;
use core::mem;

/// The number of entries of a block of memory.
const MOST: usize = 32;

/// The last block is freed if the blocks before it have room for this many entries.
const SPARE: usize = MOST / 2;

/// A block of memory with the capacity for `MOST` entries. The first block may have a smaller
/// capacity, or no memory.
struct Block<K, V> {
    entries: Vec<(K, V)>,
    // A bit for each entry that was dismissed.
    dismissed: u32,
}

impl<K, V> Block<K, V> {
    const NONE: Self = Block {
        entries: Vec::new(),
        dismissed: 0,
    };

    /// Allocates the memory of a block.
    fn new(alloc: &impl Allocator) -> Result<Self, AllocError> {
        let mut block = Block::NONE;
        change::<(K, V), _>(alloc, 0, MOST, || block.entries.try_reserve_exact(MOST))?;
        Ok(block)
    }
}

/// The entries of a map. Each entry has a number, its row. The rows are 0, 1, 2 and so on, so only
/// blocks at the end can have room.
pub(super) struct Rows<K, V> {
    // A map of few entries has no list of blocks.
    first: Block<K, V>,
    more: Vec<Block<K, V>>,
    len: usize,
}

impl<K, V> Rows<K, V> {
    /// Creates an empty list without memory.
    pub(super) const fn new() -> Self {
        Rows {
            first: Block::NONE,
            more: Vec::new(),
            len: 0,
        }
    }

    pub(super) fn len(&self) -> usize {
        self.len
    }

    /// Returns the block of a row. The row must have an entry, or memory for an entry.
    fn block_mut(&mut self, row: usize) -> &mut Block<K, V> {
        match (row / MOST).checked_sub(1) {
            None => &mut self.first,
            Some(at) => &mut self.more[at],
        }
    }

    /// Returns the entry in this row, or `None` if there is none.
    pub(super) fn find(&self, row: usize) -> Option<&(K, V)> {
        let block = match (row / MOST).checked_sub(1) {
            None => &self.first,
            Some(at) => self.more.get(at)?,
        };
        block.entries.get(row % MOST)
    }

    pub(super) fn get(&self, row: usize) -> &(K, V) {
        let block = match (row / MOST).checked_sub(1) {
            None => &self.first,
            Some(at) => &self.more[at],
        };
        &block.entries[row % MOST]
    }

    pub(super) fn get_mut(&mut self, row: usize) -> &mut (K, V) {
        &mut self.block_mut(row).entries[row % MOST]
    }

    /// Returns `true` if the memory of all blocks is used.
    pub(super) fn is_full(&self) -> bool {
        self.len == self.first.entries.capacity() + self.more.len() * MOST
    }

    /// Makes room for another entry. The first block grows to the capacity of `MOST` entries, so
    /// that a map of few entries is small. After that, another block is allocated.
    #[inline(never)]
    pub(super) fn grow(&mut self, alloc: &impl Allocator) -> Result<(), AllocError> {
        let before = self.first.entries.capacity();
        if before < MOST {
            let after = grown(before, before + 1).min(MOST);
            let entries = &mut self.first.entries;
            let reserve = || entries.try_reserve_exact(after - entries.len());
            return change::<(K, V), _>(alloc, before, after, reserve);
        }
        let (blocks, before) = (self.more.len(), self.more.capacity());
        if blocks == before {
            let after = grown(before, blocks + 1);
            change::<Block<K, V>, _>(alloc, before, after, || {
                self.more.try_reserve_exact(after - blocks)
            })?;
        }
        self.more.push(Block::new(alloc)?);
        Ok(())
    }

    /// Appends an entry. There must be room for it.
    pub(super) fn push(&mut self, key: K, value: V) {
        self.block_mut(self.len).entries.push((key, value));
        self.len += 1;
    }

    /// Removes an entry, and moves the last entry to its row.
    pub(super) fn swap_remove(&mut self, row: usize, alloc: &impl Allocator) -> (K, V) {
        self.len -= 1;
        let last = self.len % MOST;
        let moved = self.block_mut(self.len).entries.swap_remove(last);
        let entry = if row == self.len {
            moved
        } else {
            mem::replace(self.get_mut(row), moved)
        };
        self.shrink(alloc);
        entry
    }

    /// Frees the empty blocks at the end, but leaves one of them if the block before it is more
    /// than half full.
    fn shrink(&mut self, alloc: &impl Allocator) {
        while self.more.len() * MOST >= self.len + SPARE {
            self.more.pop();
            leave::<(K, V)>(alloc, MOST);
        }
        if self.more.is_empty() {
            leave::<Block<K, V>>(alloc, self.more.capacity());
            self.more = Vec::new();
        }
    }

    /// Marks an entry that `settle` and `cut` then remove.
    pub(super) fn dismiss(&mut self, row: usize) {
        self.block_mut(row).dismissed |= 1 << (row % MOST);
    }

    /// Moves an entry to the first row at or after `free` whose entry was dismissed, and returns
    /// that row, which is before the row of the entry.
    pub(super) fn settle(&mut self, row: usize, mut free: usize) -> usize {
        while self.block_mut(free).dismissed & 1 << (free % MOST) == 0 {
            free += 1;
        }
        let (to, from) = (free % MOST, row % MOST);
        match (free / MOST, row / MOST) {
            (one, other) if one == other => self.block_mut(row).entries.swap(to, from),
            (0, other) => mem::swap(
                &mut self.first.entries[to],
                &mut self.more[other - 1].entries[from],
            ),
            (one, other) => {
                let (front, back) = self.more.split_at_mut(other - 1);
                mem::swap(&mut front[one - 1].entries[to], &mut back[0].entries[from]);
            }
        }
        free
    }

    /// Removes all entries but the first `len`, none of which are dismissed.
    pub(super) fn cut(&mut self, len: usize, alloc: &impl Allocator) {
        let blocks = [&mut self.first].into_iter().chain(&mut self.more);
        for (at, block) in blocks.enumerate() {
            block.dismissed = 0;
            block.entries.truncate(len.saturating_sub(at * MOST));
        }
        self.len = len;
        self.shrink(alloc);
    }

    /// Tells the allocator that the memory is no longer used.
    pub(super) fn leave(&self, alloc: &impl Allocator) {
        let blocks = [&self.first].into_iter().chain(&self.more);
        blocks.for_each(|block| leave::<(K, V)>(alloc, block.entries.capacity()));
        leave::<Block<K, V>>(alloc, self.more.capacity());
    }
}
