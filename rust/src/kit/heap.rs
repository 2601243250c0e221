//! A priority queue whose growth can fail.

use super::alloc::{AllocError, AllocFailed, Allocator, Global, change, grown, leave};
use ::alloc::collections;
use core::fmt;

/// Like the standard `BinaryHeap`, but with an allocator that is asked before the heap grows.
pub struct BinaryHeap<T: Ord, A: Allocator = Global> {
    items: collections::BinaryHeap<T>,
    alloc: A,
}

impl<T: Ord, A: Allocator> BinaryHeap<T, A> {
    /// Creates an empty heap. This does not allocate.
    pub const fn new(alloc: A) -> Self {
        BinaryHeap {
            items: collections::BinaryHeap::new(),
            alloc,
        }
    }

    /// Reserves capacity for at least `additional` more items.
    pub fn reserve(&mut self, additional: usize) -> Result<(), AllocError> {
        let (len, before) = (self.items.len(), self.items.capacity());
        let least = len.checked_add(additional).ok_or(AllocError)?;
        if least <= before {
            return Ok(());
        }
        let after = grown(before, least);
        change::<T, _>(&self.alloc, before, after, || {
            self.items.try_reserve_exact(after - len)
        })
    }

    /// Inserts an item. If an allocation fails, the error returns the item.
    pub fn push(&mut self, item: T) -> Result<(), AllocFailed<T>> {
        if self.reserve(1).is_err() {
            return Err(AllocFailed { value: item });
        }
        self.items.push(item);
        Ok(())
    }

    /// Removes the greatest item and returns it.
    pub fn pop(&mut self) -> Option<T> {
        self.items.pop()
    }
}

impl<T: Ord, A: Allocator> Drop for BinaryHeap<T, A> {
    fn drop(&mut self) {
        leave::<T>(&self.alloc, self.items.capacity());
    }
}

impl<T: Ord + fmt::Debug, A: Allocator> fmt::Debug for BinaryHeap<T, A> {
    fn fmt(&self, f: &mut fmt::Formatter<'_>) -> fmt::Result {
        self.items.fmt(f)
    }
}
