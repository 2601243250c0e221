//! Tests of messages in a writer that the test defines, and of the memory that a vector takes.

use crate::api::array_writer::ArrayWriter;
use crate::api::run;
use crate::exported::stun_types::attribute::{AttributeType, RawAttribute, Username};
use crate::exported::stun_types::data::OwnedBytes;
use crate::exported::stun_types::message::{
    IntegrityAlgorithm, MessageClass, MessageWriteVec, StunWriteError,
};
use crate::exported::stun_types::prelude::*;
use crate::host::Abort;
use crate::host::Fail;
use crate::test_support::parts::begin;
use crate::test_support::spelled::bytes_of;

/// A Binding request with id 1 and USERNAME `a:b`.
const REQUEST: &str = "00010008 2112a442 000000000000000000000001 00060003 613a6200";

/// `REQUEST` with MESSAGE-INTEGRITY, signed with `password`. Python's `hmac` computed the digest.
const SIGNED_BY_SHA1: &str = "00010020 2112a442 000000000000000000000001 00060003 613a6200
    00080014 fb93fa0884e55c50463cf2ebd61fcd00b8b7b6bd";

/// `REQUEST` with MESSAGE-INTEGRITY-SHA256, signed with `password`. Python's `hmac` computed the
/// digest.
const SIGNED_BY_SHA256: &str = "0001002c 2112a442 000000000000000000000001 00060003 613a6200
    001c0020 47bf2c9f81f3e66f459a0995abb1b1e5ca9c651a6804efe45d53a0aae7675636";

/// Adds an attribute after a header.
fn add<W: MessageWrite, A: Attribute>(writer: &mut W, attribute: &A) -> Result<(), StunWriteError> {
    if writer.data().len() < 20 {
        return Err(StunWriteError::IntegrityFailed);
    }
    writer.add_attribute(attribute)
}

/// Signs with `password` after a header.
fn sign<W: MessageWrite>(
    writer: &mut W,
    algorithm: IntegrityAlgorithm,
) -> Result<(), StunWriteError> {
    if writer.data().len() < 20 {
        return Err(StunWriteError::IntegrityFailed);
    }
    writer.add_message_integrity_with_key_bytes(b"password", algorithm)
}

/// Another writer accepts only one name, no integrity attribute or FINGERPRINT, and only as much as
/// it has room for.
#[test]
fn another_writer_takes_attributes() {
    run(|rt| {
        let mut writer = begin(MessageClass::Request, ArrayWriter::<28>::new())?;
        add(&mut writer, &Username::new("a:b")?)?;
        let again = add(&mut writer, &Username::new("c")?);
        assert_eq!(
            again,
            Err(StunWriteError::AttributeExists(AttributeType::USERNAME))
        );
        for kind in [0x0008, 0x001c, 0x8028] {
            let attribute = RawAttribute::new(AttributeType::new(kind), b"abcd");
            assert_eq!(
                add(&mut writer, &attribute),
                Err(StunWriteError::NotAllowed)
            );
        }
        let other = RawAttribute::new(AttributeType::new(0x8022), b"abcd");
        assert_eq!(add(&mut writer, &other), Err(StunWriteError::TooSmall));
        let expected = bytes_of(rt.alloc(), REQUEST)?;
        assert_eq!(writer.finish().bytes(), expected.as_slice());
        Ok(())
    });
}

/// Checks that a message can be signed in another writer, and that nothing can be added after the
/// signature.
fn expect_signed(
    rt: &impl Abort,
    algorithm: IntegrityAlgorithm,
    expected: &[u8],
) -> Result<(), Fail> {
    let mut writer = begin(MessageClass::Request, ArrayWriter::<128>::new())?;
    add(&mut writer, &Username::new("a:b")?)?;
    sign(&mut writer, algorithm)?;
    let exists = Err(StunWriteError::MessageIntegrityExists);
    assert_eq!(add(&mut writer, &Username::new("a:b")?), exists);
    assert_eq!(sign(&mut writer, IntegrityAlgorithm::Sha1), exists);
    assert_eq!(sign(&mut writer, IntegrityAlgorithm::Sha256), exists);
    assert_eq!(writer.finish().bytes(), expected);
    Ok(())
}

#[test]
fn another_writer_is_signed() {
    run(|rt| {
        for (algorithm, digits) in [
            (IntegrityAlgorithm::Sha1, SIGNED_BY_SHA1),
            (IntegrityAlgorithm::Sha256, SIGNED_BY_SHA256),
        ] {
            expect_signed(&rt, algorithm, bytes_of(rt.alloc(), digits)?.as_slice())?;
        }
        Ok(())
    });
}

#[test]
fn a_vector_takes_little_more() {
    run(|rt| {
        let mut writer = begin(MessageClass::Request, MessageWriteVec::new(rt.alloc()))?;
        add(&mut writer, &Username::new("a:b")?)?;
        assert!(add(&mut writer, &Username::new("c")?).is_err());
        let message = writer.finish();
        assert_eq!(
            message.as_slice(),
            bytes_of(rt.alloc(), REQUEST)?.as_slice()
        );
        assert!(message.capacity() < 100);
        Ok(())
    });
}
