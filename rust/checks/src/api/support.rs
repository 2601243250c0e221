//! Functions that these tests share, in addition to those in `test_support`.
use crate::exported::stun_auth::auth::{LongTermClientAuth, LongTermServerAuth};
use crate::exported::stun_judging::feature::Feature;
use crate::exported::stun_types::message::{MessageHeader, StunWriteError};
use crate::exported::stun_types::prelude::*;
use crate::host::Fail;
use crate::kit::alloc::{Allocator, Global};
use crate::test_support::server::{ZEROS, address, knocked, sha1_server};

/// Signs the message in a writer.
pub fn signed_by<A: Allocator, W: MessageWrite>(
    client: &mut LongTermClientAuth<A>,
    writer: W,
) -> Result<W, StunWriteError> {
    if MessageHeader::from_bytes(writer.data()).is_err() {
        return Err(StunWriteError::NotAllowed);
    }
    client.sign_outgoing_message(writer)
}

/// Returns a success with XOR-MAPPED-ADDRESS.
pub fn mapped(id: u8) -> [u8; 32] {
    [
        0x01, 0x01, 0, 12, 0x21, 0x12, 0xa4, 0x42, 0, 0, 0, 0, 0, 0, 0, 0, 0, 0, 0, id, 0x00, 0x20,
        0, 8, 0, 1, 0x11, 0x2b, 0x2b, 0x12, 0xa4, 0x43,
    ]
}

/// Random numbers from which a nonce with sixteen letters `B` is made.
pub const ONES: [u32; 16] = [1; 16];

/// Returns a server with HMAC-SHA1 and plain names that has made a nonce for the first address.
pub fn plain_server<A: Allocator + Copy>(
    alloc: Global,
    heap: A,
) -> Result<LongTermServerAuth<A>, Fail> {
    let mut server = sha1_server(heap, Feature::Disabled)?;
    let _challenged = knocked(alloc, &mut server, address(1), ZEROS)?;
    Ok(server)
}
