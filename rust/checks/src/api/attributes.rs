//! Tests of the texts of errors of parsing, validating and writing, of the text of a type, and of
//! the equality of attributes, which compares their values.
use crate::api::run;
use crate::exported::stun_base::attribute_type::AttributeType;
use crate::exported::stun_base::error::{StunParseError, StunWriteError, ValidateError};
use crate::exported::stun_types::attribute::{RawAttribute, Userhash};
use crate::exported::stun_types::prelude::*;
use crate::host::Abort;
use crate::host::Fail;
use crate::kit::alloc::Global;
use std::fmt::Display;

fn expect_text<T: Display>(
    rt: &impl Abort,
    alloc: Global,
    value: &T,
    text: &str,
) -> Result<(), Fail> {
    assert_eq!(crate::host::format_in!(alloc; "{value}")?.as_str(), text);
    Ok(())
}

const MISSING: StunParseError = StunParseError::MissingAttribute(AttributeType::MESSAGE_INTEGRITY);

#[test]
fn of_reading() {
    run(|rt| {
        const TEXTS: &[(StunParseError, &str)] = &[
            (StunParseError::Truncated, "the bytes end too early"),
            (StunParseError::NotStun, "the bytes are not a STUN message"),
            (StunParseError::TooLarge, "bytes follow the message"),
            (MISSING, "attribute 0x0008 is missing"),
            (
                StunParseError::InvalidAttributeData,
                "an attribute is malformed",
            ),
        ];
        for (error, text) in TEXTS {
            expect_text(&rt, rt.alloc(), error, text)?;
        }
        Ok(())
    });
}

/// No option of the formatter changes the text of a type.
#[test]
fn of_a_type() {
    run(|rt| {
        let alloc = rt.alloc();
        let kind = AttributeType::MESSAGE_INTEGRITY;
        assert_eq!(
            crate::host::format_in!(alloc;
                "{kind:#>12} {kind:#} {kind:+} {kind:<12} {kind:012} {kind:.3}"
            )?
            .as_str(),
            "0x0008 0x0008 0x0008 0x0008 0x0008 0x0008"
        );
        Ok(())
    });
}

#[test]
fn of_checking() {
    run(|rt| {
        const MALFORMED: StunParseError = StunParseError::InvalidAttributeData;
        const TEXTS: &[(ValidateError, &str)] = &[
            (ValidateError::Parse(MISSING), "attribute 0x0008 is missing"),
            (ValidateError::Parse(MALFORMED), "an attribute is malformed"),
            (
                ValidateError::IntegrityFailed,
                "the digest is not that of the message",
            ),
        ];
        for (error, text) in TEXTS {
            expect_text(&rt, rt.alloc(), error, text)?;
        }
        Ok(())
    });
}

#[test]
fn of_writing() {
    run(|rt| {
        const TWICE: StunWriteError = StunWriteError::AttributeExists(AttributeType::NONCE);
        const SIGNED: StunWriteError = StunWriteError::MessageIntegrityExists;
        const TEXTS: &[(StunWriteError, &str)] = &[
            (
                StunWriteError::NotAllowed,
                "the attribute is not written by this call",
            ),
            (SIGNED, "the message has its integrity attribute already"),
            (TWICE, "attribute 0x0015 is in the message already"),
            (
                StunWriteError::TooLarge,
                "the value or the message would be too large",
            ),
            (StunWriteError::TooSmall, "the writer has too little room"),
            (
                StunWriteError::IntegrityFailed,
                "there is no key for the integrity attribute",
            ),
            (StunWriteError::OutOfMemory, "out of memory"),
        ];
        for (error, text) in TEXTS {
            expect_text(&rt, rt.alloc(), error, text)?;
        }
        Ok(())
    });
}

#[test]
fn attributes_are_equal_by_their_values() {
    run(|rt| {
        const HASH: [u8; 32] = [0x61; 32];
        let raw = RawAttribute::new(AttributeType::USERHASH, &HASH);
        assert_eq!(Userhash::from_raw(raw)?, Userhash::new(HASH));
        Ok(())
    });
}
