//! Tests of the heaps of texts and keys: each text of a user stays on the heap on which it was
//! allocated, and a key takes as many bytes as it has.

use crate::exported::stun_types::message::{
    IntegrityAlgorithm, IntegrityKey, LongTermCredentials, LongTermKeyCredentials,
};
use crate::host::{Abort, Fail, HostRuntime, LocalHeap};
use crate::kit::alloc::{AllocError, Allocator, Global};
use crate::kit::prelude::{String, TryClone};
use crate::refusing::RefusingAllocator;
use crate::test_support::parts::MD5_KEY;

type Heap = RefusingAllocator;

/// The heaps of the name, the password and the realm of a user.
#[derive(Clone, Copy)]
struct Heaps<'a> {
    names: &'a Heap,
    passwords: &'a Heap,
    realms: &'a Heap,
}

/// Checks how many names, passwords and realms are allocated now.
fn expect_live(rt: &impl Abort, heaps: Heaps<'_>, names: u64, passwords: u64, realms: u64) {
    assert_eq!(heaps.names.live(), names);
    assert_eq!(heaps.passwords.live(), passwords);
    assert_eq!(heaps.realms.live(), realms);
}

/// Checks that a copy of a user in a realm has each text on the heap of the original.
fn copy_at_realm(
    rt: &impl Abort,
    heaps: Heaps<'_>,
    at_realm: &LongTermKeyCredentials<&Heap>,
) -> Result<(), AllocError> {
    let _again = at_realm.try_clone()?;
    expect_live(rt, heaps, 4, 4, 2);
    Ok(())
}

/// Checks the key of a user in a realm.
fn expect_key(rt: &impl Abort, at_realm: &LongTermKeyCredentials<&Heap>) {
    let key = at_realm.make_key(IntegrityAlgorithm::Sha1);
    assert_eq!(key.as_bytes(), MD5_KEY.as_slice());
}

/// Combines a user with a realm, and checks that the result has copies of the user's texts.
fn bring_to_realm<'a>(
    rt: &impl Abort,
    heaps: Heaps<'a>,
    user: LongTermCredentials<&'a Heap>,
) -> Result<(), AllocError> {
    let at_realm = user.to_key(String::from_str(heaps.realms, "realm")?)?;
    expect_live(rt, heaps, 3, 3, 1);
    copy_at_realm(rt, heaps, &at_realm)?;
    drop(user);
    expect_live(rt, heaps, 2, 2, 1);
    expect_key(rt, &at_realm);
    Ok(())
}

/// Checks that the copy of the name is freed if the password cannot be copied.
fn refuse_copy(rt: &impl Abort, heaps: Heaps<'_>, user: &LongTermCredentials<&Heap>) {
    heaps.passwords.refuse(1);
    assert!(user.try_clone().is_err());
    assert!(!heaps.passwords.is_waiting());
    expect_live(rt, heaps, 1, 1, 0);
}

/// Checks that a copy of a user, and a user in a realm, have each text on the same heap as the
/// user, and free it there.
fn copy_texts(rt: &impl Abort, heaps: Heaps<'_>) -> Result<(), AllocError> {
    let name = String::from_str(heaps.names, "user")?;
    let user = LongTermCredentials::new(name, String::from_str(heaps.passwords, "pass")?);
    expect_live(rt, heaps, 1, 1, 0);
    let copy = user.try_clone()?;
    expect_live(rt, heaps, 2, 2, 0);
    bring_to_realm(rt, heaps, user)?;
    expect_live(rt, heaps, 1, 1, 0);
    refuse_copy(rt, heaps, &copy);
    Ok(())
}

/// Checks how many names, passwords and realms have been allocated in total.
fn expect_allocated(rt: &impl Abort, heaps: Heaps<'_>, names: u64, passwords: u64, realms: u64) {
    assert_eq!(heaps.names.allocations(), names);
    assert_eq!(heaps.passwords.allocations(), passwords);
    assert_eq!(heaps.realms.allocations(), realms);
}

#[test]
fn each_text_stays_at_its_heap() {
    crate::host::run(|rt: HostRuntime| -> Result<(), Fail> {
        let names = RefusingAllocator::new();
        let passwords = RefusingAllocator::new();
        let realms = RefusingAllocator::new();
        let heaps = Heaps {
            names: &names,
            passwords: &passwords,
            realms: &realms,
        };
        copy_texts(&rt, heaps)?;
        expect_live(&rt, heaps, 0, 0, 0);
        expect_allocated(&rt, heaps, 5, 4, 2);
        Ok(())
    });
}

/// Checks that a key and its copy have these bytes.
fn expect_bytes<A: Allocator + Copy>(
    rt: &impl Abort,
    key: &IntegrityKey<A>,
    bytes: &[u8],
) -> Result<(), Fail> {
    assert_eq!(key.as_bytes(), bytes);
    assert_eq!(key.try_clone()?.as_bytes(), bytes);
    Ok(())
}

/// A key and its copy take as many bytes as they have, in blocks of 16.
#[test]
fn keys_in_a_small_heap() {
    crate::host::run(|rt: HostRuntime| -> Result<(), Fail> {
        let heap = LocalHeap::new(rt.alloc(), 512)?;
        let key = IntegrityKey::from_bytes(&heap, &[5; 33])?;
        assert_eq!(heap.used(), 48);
        let copy = key.try_clone()?;
        assert_eq!(heap.used(), 96);
        let longer = IntegrityKey::from_bytes(&heap, &[5; 128])?;
        expect_bytes(&rt, &longer, &[5; 128])?;
        assert_eq!(heap.used(), 224);
        assert_eq!(copy.as_bytes(), key.as_bytes());
        Ok(())
    });
}
