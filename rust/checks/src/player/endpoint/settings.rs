//! Plays the settings of a server, one by one.

use crate::exported::stun_endpoint::server::LongTerm;
use crate::exported::stun_judging::algorithm_set::AlgorithmSet;
use crate::exported::stun_types::attribute::AttributeType;
use crate::kit::alloc::Global;
use crate::kit::prelude::{String as HeapString, Vec as HeapVec};
use crate::player::Heap;
use crate::player::stage::Stage;
use crate::player::words::{drawn, secret, span, text, types, yes};

/// Plays a setting: `realm REALM`, which resets all settings and sets the secret to the byte 1
/// followed by zeros; `secret HEX`, `previous-secret HEX`, `algorithms sha1,sha256`, `hashes yes`,
/// `lifetime SPAN`, `understands TYPE,TYPE`, `software TEXT`, `binding yes` or
/// `requires-fingerprint yes`.
pub fn set(settings: &mut LongTerm, name: &str, word: &str) -> Option<()> {
    let owned = |word| HeapString::from(text(word));
    match name {
        "realm" => *settings = LongTerm::new(Global, owned(word), drawn(1)),
        "secret" => settings.secret = secret(word)?,
        "previous-secret" => settings.previous_secret = Some(secret(word)?),
        "algorithms" => settings.algorithms = algorithms(word)?,
        "hashes" => settings.user_hashes = yes(word)?,
        "lifetime" => settings.nonce_lifetime = span(word)?.as_secs(),
        "understands" => {
            let types: Vec<AttributeType> =
                types(word)?.into_iter().map(AttributeType::new).collect();
            settings.understood = HeapVec::from_slice(Global, &types).ok()?;
        }
        "software" => settings.software = Some(owned(word)),
        "binding" => settings.answers_binding = yes(word)?,
        "requires-fingerprint" => settings.requires_fingerprint = yes(word)?,
        _ => return None,
    }
    Some(())
}

/// Returns the set of the algorithms of a list.
fn algorithms(word: &str) -> Option<AlgorithmSet> {
    match word {
        "sha1" => Some(AlgorithmSet::OnlySha1),
        "sha256" => Some(AlgorithmSet::OnlySha256),
        "sha1,sha256" | "sha256,sha1" => Some(AlgorithmSet::Both),
        _ => None,
    }
}

/// Copies settings to the heap.
pub fn on_heap<'a>(stage: &Stage<'a>, settings: &LongTerm) -> Option<LongTerm<&'a Heap>> {
    let realm = stage.on_heap(&settings.realm)?;
    let mut copy = LongTerm::new(stage.heap, realm, settings.secret);
    copy.previous_secret = settings.previous_secret;
    copy.algorithms = settings.algorithms;
    copy.user_hashes = settings.user_hashes;
    copy.nonce_lifetime = settings.nonce_lifetime;
    copy.answers_binding = settings.answers_binding;
    copy.requires_fingerprint = settings.requires_fingerprint;
    copy.understood = HeapVec::from_slice(stage.heap, &settings.understood).ok()?;
    if let Some(software) = &settings.software {
        copy.software = Some(stage.on_heap(software)?);
    }
    Some(copy)
}
