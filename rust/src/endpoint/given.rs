//! The secrets with which users were added to a table, by name. They are stored here because the
//! core returns neither names nor keys.

use crate::copies::granted;
use crate::kit::alloc::{AllocError, Global};
use crate::kit::collections::BTreeMap;
use crate::kit::prelude::String as KitString;

/// The secret of each user, in the order of the names. The names are the same as in the core, as
/// long as each change of a user goes through [`add`](Self::add) and [`remove`](Self::remove).
pub(super) struct Given<S>(BTreeMap<KitString, S>);

impl<S> Given<S> {
    pub(super) const fn new() -> Given<S> {
        Given(BTreeMap::new(Global))
    }

    pub(super) fn len(&self) -> usize {
        self.0.len()
    }

    pub(super) fn get(&self, name: &str) -> Option<&S> {
        self.0.get(name)
    }

    pub(super) fn contains(&self, name: &str) -> bool {
        self.0.contains_key(name)
    }

    pub(super) fn iter(&self) -> impl Iterator<Item = (&str, &S)> {
        self.0.iter().map(|(name, secret)| (name.as_str(), secret))
    }

    /// Stores the secret of a user whom the core adds. If an allocation fails, here or in the core,
    /// nothing has changed.
    pub(super) fn add(
        &mut self,
        name: &str,
        secret: S,
        add: impl FnOnce() -> Result<(), AllocError>,
    ) -> Result<(), AllocError> {
        let before = self.0.insert(KitString::from_str(Global, name)?, secret);
        let before = before.map_err(|_| AllocError)?;
        let added = add();
        if added.is_err() {
            match (before, self.0.get_mut(name)) {
                (Some(before), Some(stored)) => *stored = before,
                _ => drop(self.0.remove(name)),
            }
        }
        added
    }

    /// Removes a user, and returns whether there was a user of that name.
    pub(super) fn remove(&mut self, name: &str) -> bool {
        self.0.remove(name).is_some()
    }
}

/// Returns a copy of a text for the core.
pub(super) fn text_of(text: &str) -> KitString {
    granted(KitString::from_str(Global, text))
}
