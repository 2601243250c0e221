//! Collections whose growth can fail.

pub use super::heap::BinaryHeap;
pub use super::map::{BTreeMap, BTreeSet, Key};
