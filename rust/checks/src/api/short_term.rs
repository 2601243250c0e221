//! Tests of short-term credentials that sign in a writer that the test defines.

use crate::api::array_writer::ArrayWriter;
use crate::api::run;
use crate::exported::stun_auth::auth::ShortTermAuth;
use crate::exported::stun_types::data::OwnedBytes;
use crate::exported::stun_types::message::{
    IntegrityAlgorithm, MessageClass, ShortTermCredentials,
};
use crate::exported::stun_types::prelude::*;
use crate::kit::alloc::{AllocError, Global};
use crate::kit::prelude::String;
use crate::test_support::parts::begin;
use crate::test_support::spelled::bytes_of;

/// A Binding request with MESSAGE-INTEGRITY-SHA256.
const SIGNED_BY_SHA256: &str = "00010024 2112a442 000000000000000000000001
    001c0020 5f4ff406377effa517968a8441aa342a7efa5c9b2c4ebb40d33900f6f1b4fd43";

/// Returns an authenticator with the password `password`.
fn authenticator(
    alloc: Global,
    algorithm: IntegrityAlgorithm,
) -> Result<ShortTermAuth, AllocError> {
    let mut auth = ShortTermAuth::new(alloc);
    let credentials = ShortTermCredentials::new(String::from_str(alloc, "password")?);
    auth.set_credentials(credentials, algorithm)?;
    Ok(auth)
}

#[test]
fn another_writer_takes_the_signed_message() {
    run(|rt| {
        let mut auth = authenticator(rt.alloc(), IntegrityAlgorithm::Sha256)?;
        let writer = begin(MessageClass::Request, ArrayWriter::<192>::new())?;
        assert!(writer.data().len() == 20);
        let written = auth.sign_outgoing_message(writer)?.finish();
        let expected = bytes_of(rt.alloc(), SIGNED_BY_SHA256)?;
        assert_eq!(written.bytes(), expected.as_slice());
        Ok(())
    });
}
