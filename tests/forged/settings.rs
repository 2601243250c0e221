//! The settings of a client and of its server that differ between runs.

use crate::strict::Strictness;
use seatcrane_stun::auth::Feature;
use seatcrane_stun::types::message::IntegrityAlgorithm;

/// The algorithms that a side supports.
pub const ALGORITHMS: [&[IntegrityAlgorithm]; 3] = [
    &[IntegrityAlgorithm::Sha1, IntegrityAlgorithm::Sha256],
    &[IntegrityAlgorithm::Sha1],
    &[IntegrityAlgorithm::Sha256],
];

/// The place of HMAC-SHA1 alone.
const SHA1: usize = 1;

#[derive(Clone, Copy, Debug)]
pub struct Settings {
    /// What the client and the server support, by their places in `ALGORITHMS`.
    pub client: usize,
    pub server: usize,
    /// Whether the client names its user by a hash, and whether the server allows it.
    pub naming: Feature,
    pub user_hashes: bool,
    pub accepts_unsigned: bool,
    /// The server is a strict one, and not a `Server` of this library.
    pub strict: Option<Strictness>,
}

impl Settings {
    /// All in which client and server have an algorithm and a form of the name in common.
    pub fn all() -> Vec<Settings> {
        let mut all = Vec::new();
        let bits = [false, true];
        for (client, server) in (0..9).map(|pair| (pair / 3, pair % 3)) {
            for naming in [Feature::Auto, Feature::Required, Feature::Disabled] {
                for (user_hashes, accepts_unsigned) in pairs(bits) {
                    let strict = None;
                    let some = Settings {
                        client,
                        server,
                        naming,
                        user_hashes,
                        accepts_unsigned,
                        strict,
                    };
                    all.push(some);
                    if server == SHA1 && !user_hashes {
                        all.extend(pairs(bits).map(|(allocates, renews)| {
                            let strict = Some(Strictness { allocates, renews });
                            Settings { strict, ..some }
                        }));
                    }
                }
            }
        }
        all.retain(|some| some.strongest().is_some() && some.has_name());
        all
    }

    /// The strongest algorithm that both support.
    pub fn strongest(self) -> Option<IntegrityAlgorithm> {
        let sides = [self.client, self.server];
        let both = |one: &IntegrityAlgorithm| sides.iter().all(|at| ALGORITHMS[*at].contains(one));
        [IntegrityAlgorithm::Sha256, IntegrityAlgorithm::Sha1]
            .into_iter()
            .find(both)
    }

    fn has_name(self) -> bool {
        self.user_hashes || self.naming != Feature::Required
    }

    /// Whether both can hash the name.
    pub fn hides_name(self) -> bool {
        self.user_hashes && self.naming != Feature::Disabled
    }
}

fn pairs(bits: [bool; 2]) -> impl Iterator<Item = (bool, bool)> {
    bits.into_iter()
        .flat_map(move |one| bits.into_iter().map(move |other| (one, other)))
}
