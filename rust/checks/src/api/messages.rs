//! Tests of times, algorithms and credentials alone: their differences, their order, and their
//! equality.
use crate::api::run;
use crate::exported::stun_base::instant::Instant;
use crate::exported::stun_types::message::{
    IntegrityAlgorithm, LongTermCredentials, ShortTermCredentials,
};
use crate::host::Fail;
use crate::kit::alloc::Global;
use crate::kit::prelude::String;
use std::time::Duration;

fn at(millis: u64) -> Instant {
    Instant::ZERO + Duration::from_millis(millis)
}

#[test]
fn moments_apart() {
    assert_eq!(at(1500) - at(500), Duration::from_millis(1000));
    assert_eq!(at(500) - at(1500), Duration::ZERO);
}

/// RFC 8489, section 9.2.2: HMAC-SHA256 is the stronger.
#[test]
fn algorithms_by_their_strength() {
    assert!(IntegrityAlgorithm::Sha1 < IntegrityAlgorithm::Sha256);
}

fn password(alloc: Global, text: &str) -> Result<ShortTermCredentials, Fail> {
    Ok(ShortTermCredentials::new(String::from_str(alloc, text)?))
}

fn user(alloc: Global, name: &str, password: &str) -> Result<LongTermCredentials, Fail> {
    Ok(LongTermCredentials::new(
        String::from_str(alloc, name)?,
        String::from_str(alloc, password)?,
    ))
}

#[test]
fn credentials_are_equal_by_their_texts() {
    run(|rt| {
        const USERS: &[(&str, &str, bool)] = &[
            ("user", "pass", true),
            ("users", "pass", false),
            ("user", "Pass", false),
        ];
        const PASSWORDS: &[(&str, bool)] = &[("pass", true), ("pas", false)];
        let alloc = rt.alloc();
        for (name, word, are_equal) in USERS {
            let is_equal = user(alloc, "user", "pass")? == user(alloc, name, word)?;
            assert_eq!(is_equal, *are_equal);
        }
        for (word, are_equal) in PASSWORDS {
            let is_equal = password(alloc, "pass")? == password(alloc, word)?;
            assert_eq!(is_equal, *are_equal);
        }
        Ok(())
    });
}

#[test]
fn credentials_give_their_texts() {
    run(|rt| {
        let (name, word) = user(rt.alloc(), "user", "pass")?.into_parts();
        assert_eq!((name.as_str(), word.as_str()), ("user", "pass"));
        Ok(())
    });
}
