//! An allocator for tests, which refuses one allocation that the test chooses, and counts the
//! blocks that are allocated and freed.

use crate::host::Fail;
use crate::kit::alloc::{AllocError, Allocator};
use std::cell::Cell;

/// An upper bound on the allocations of a run of a test.
const MOST_ALLOCATIONS: u64 = 400;

/// Grants every allocation, except for the one that it should refuse.
///
/// Collections take it as `&heap`, so all collections of a test share its counts.
#[derive(Default)]
pub struct RefusingAllocator {
    /// The number of allocations up to and including the one to refuse, or 0 if none should be
    /// refused.
    until_refusal: Cell<u64>,
    allocations: Cell<u64>,
    deallocations: Cell<u64>,
}

impl RefusingAllocator {
    /// Creates an allocator that refuses nothing until `refuse` is called.
    pub fn new() -> RefusingAllocator {
        RefusingAllocator::default()
    }

    /// Refuses the nth allocation from now on, where 1 is the next one. 0 refuses none.
    pub fn refuse(&self, nth: u64) {
        self.until_refusal.set(nth);
    }

    /// Returns `true` if the allocation to refuse has not been requested yet.
    pub fn is_waiting(&self) -> bool {
        self.until_refusal.get() != 0
    }

    /// Ends the refusals. Returns `true` if the allocation to refuse was not requested.
    pub fn met_none(&self) -> bool {
        let is_waiting = self.is_waiting();
        self.refuse(0);
        is_waiting
    }

    /// Returns how many allocations were requested and granted.
    pub fn allocations(&self) -> u64 {
        self.allocations.get()
    }

    /// Returns how many blocks were freed.
    pub fn deallocations(&self) -> u64 {
        self.deallocations.get()
    }

    /// Returns how many blocks were allocated and not freed.
    pub fn live(&self) -> u64 {
        self.allocations() - self.deallocations()
    }

    /// Makes a run for each number from 1 on, until no allocation of a run was refused. In the
    /// first run, an allocation must be refused.
    ///
    /// A run refuses the allocation with its number, and frees what it allocates.
    pub fn each_refusal(&self, mut run: impl FnMut(u64) -> Result<bool, Fail>) -> Result<(), Fail> {
        let live = self.live();
        for nth in 1..MOST_ALLOCATIONS {
            let is_last = run(nth)?;
            if self.live() != live {
                return Err(Fail::from("a run does not give back what it allocates"));
            }
            match (is_last, nth) {
                (true, 1) => return Err(Fail::from("no run met a refusal")),
                (true, _) => return Ok(()),
                (false, _) => {}
            }
        }
        Err(Fail::from("each run met a refusal"))
    }
}

impl Allocator for RefusingAllocator {
    fn allocate(&self, _size: usize, _align: usize) -> Result<(), AllocError> {
        let until_refusal = self.until_refusal.get();
        self.until_refusal.set(until_refusal.saturating_sub(1));
        if until_refusal == 1 {
            return Err(AllocError);
        }
        self.allocations.set(self.allocations() + 1);
        Ok(())
    }

    fn deallocate(&self, _size: usize, _align: usize) {
        self.deallocations.set(self.deallocations() + 1);
    }
}
