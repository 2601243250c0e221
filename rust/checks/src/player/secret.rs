//! Plays the calls on keys, credentials and bytes: `secret NAME WORD ..`.

use super::stage::Stage;
use super::values::{algorithm, phrase};
use super::words::{hex, unhex};
use super::{Answer, Heap, OUT_OF_MEMORY};
use crate::exported::stun_types::data::{Data, OwnedBytes};
use crate::exported::stun_types::message::{
    IntegrityKey, LongTermCredentials, LongTermKeyCredentials, ShortTermCredentials, long_term_key,
};
use crate::kit::alloc::AllocError;
use crate::kit::prelude::{TryClone, Vec as HeapVec};

/// The key, the short-term credentials and the long-term credentials that were set.
#[derive(Default)]
pub struct Secrets<'a> {
    key: Option<IntegrityKey<&'a Heap>>,
    password: Option<ShortTermCredentials<&'a Heap>>,
    user: Option<LongTermCredentials<&'a Heap>>,
    /// The long-term credentials in a realm.
    settled: Option<LongTermKeyCredentials<&'a Heap>>,
}

/// Plays `secret NAME WORD ..`.
pub fn call(stage: &mut Stage<'_>, words: &[&str]) -> Answer {
    match words {
        ["key" | "password" | "user" | "settled"] => tell(stage, words[0]),
        ["copy", name] => {
            stage.begin();
            copy(stage, name)
        }
        ["make-key"] => {
            stage.begin();
            let password = stage.secrets.password.as_ref();
            shown(password, |password| {
                Ok(hex(password.make_key()?.as_bytes()))
            })
        }
        ["key-of", word] => {
            let algorithm = algorithm(word)?;
            stage.begin();
            let settled = stage.secrets.settled.as_ref();
            shown(settled, |user| Ok(hex(user.make_key(algorithm).as_bytes())))
        }
        ["long-term-key", word, user, realm, password] => {
            let algorithm = algorithm(word)?;
            stage.begin();
            let key = long_term_key(stage.heap, algorithm, user, realm, password);
            Some(hex(key.as_bytes()))
        }
        ["owned", digits] => {
            let bytes = unhex(digits)?;
            stage.begin();
            owned(stage, Data::Borrowed(&bytes))
        }
        ["owned-again", digits] => {
            let bytes = HeapVec::from_slice(stage.heap, &unhex(digits)?).ok()?;
            stage.begin();
            owned(stage, Data::Owned(bytes))
        }
        words => set(stage, words),
    }
}

/// Plays the calls that set one of the secrets.
fn set(stage: &mut Stage<'_>, words: &[&str]) -> Answer {
    match words {
        ["key", digits] => {
            let bytes = unhex(digits)?;
            stage.begin();
            match IntegrityKey::from_bytes(stage.heap, &bytes) {
                Ok(key) => stage.secrets.key = Some(key),
                Err(_) => return Some(OUT_OF_MEMORY.to_string()),
            }
        }
        ["password", words @ ..] if !words.is_empty() => {
            let password = stage.on_heap(&phrase(words))?;
            stage.secrets.password = Some(ShortTermCredentials::new(password));
        }
        ["user", name, password] => {
            let (name, password) = (stage.on_heap(name)?, stage.on_heap(password)?);
            stage.secrets.user = Some(LongTermCredentials::new(name, password));
        }
        // Combines the long-term credentials with a realm.
        ["settle", realm] => {
            let realm = stage.on_heap(realm)?;
            stage.begin();
            let Some(user) = &stage.secrets.user else {
                return Some("none".to_string());
            };
            match user.to_key(realm) {
                Ok(settled) => stage.secrets.settled = Some(settled),
                Err(_) => return Some(OUT_OF_MEMORY.to_string()),
            }
        }
        _ => return None,
    }
    Some(String::new())
}

/// Returns the text that is printed of a secret: `none` if it was not set, and `OutOfMemory` if an
/// allocation failed.
fn shown<T>(secret: Option<&T>, show: impl FnOnce(&T) -> Result<String, AllocError>) -> Answer {
    Some(match secret.map(show) {
        None => "none".to_string(),
        Some(Ok(text)) => text,
        Some(Err(_)) => OUT_OF_MEMORY.to_string(),
    })
}

fn user_text(user: &LongTermCredentials<&Heap>) -> String {
    format!("{} {}", user.username(), user.password())
}

fn settled_text(user: &LongTermKeyCredentials<&Heap>) -> String {
    format!("{} {} {}", user.username(), user.realm(), user.password())
}

/// Plays `secret key`, `secret password`, `secret user` or `secret settled`.
fn tell(stage: &Stage<'_>, name: &str) -> Answer {
    let secrets = &stage.secrets;
    match name {
        "key" => shown(secrets.key.as_ref(), |key| Ok(hex(key.as_bytes()))),
        "password" => shown(secrets.password.as_ref(), |one| {
            Ok(one.password().to_string())
        }),
        "user" => shown(secrets.user.as_ref(), |user| Ok(user_text(user))),
        _ => shown(secrets.settled.as_ref(), |user| Ok(settled_text(user))),
    }
}

/// Plays `secret copy key`, `secret copy password`, `secret copy user` or `secret copy settled`:
/// prints a copy.
fn copy(stage: &Stage<'_>, name: &str) -> Answer {
    let secrets = &stage.secrets;
    match name {
        "key" => shown(secrets.key.as_ref(), |key| {
            Ok(hex(key.try_clone()?.as_bytes()))
        }),
        "password" => shown(secrets.password.as_ref(), |one| {
            Ok(one.try_clone()?.password().to_string())
        }),
        "user" => shown(secrets.user.as_ref(), |user| {
            Ok(user_text(&user.try_clone()?))
        }),
        "settled" => shown(secrets.settled.as_ref(), |user| {
            Ok(settled_text(&user.try_clone()?))
        }),
        _ => None,
    }
}

/// Converts data to owned data, and returns its bytes.
fn owned<'a>(stage: &Stage<'a>, data: Data<'_, &'a Heap>) -> Answer {
    match data.into_owned(stage.heap) {
        Ok(owned) => Some(hex(owned.bytes())),
        Err(_) => Some(OUT_OF_MEMORY.to_string()),
    }
}
