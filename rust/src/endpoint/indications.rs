//! The indications of a client.

use super::Body;
use crate::exported::stun_extra::attribute::Software;
use crate::exported::stun_extra::fingerprint::finish_with_fingerprint;
use crate::exported::stun_types::attribute::Username;
use crate::exported::stun_types::message::{
    self as proved, IntegrityAlgorithm, MessageClass, MessageType, MessageWriteVec, Method,
    StunWriteError, hmac_sha256,
};
use crate::exported::stun_types::prelude::{MessageWrite, MessageWriteExt};
use crate::kit::alloc::Global;
use crate::kit::prelude::Vec as KitVec;
use crate::transaction::TransactionId;
use alloc::string::String;
use alloc::vec::Vec;

/// The transaction ID of an indication is derived from this text, the seed and the number of the
/// indication. The IDs of requests are derived with HMAC-SHA1 instead.
const LABEL: &[u8] = b"indication";

/// The settings with which a client writes its indications, and the number of the next indication.
pub(super) struct Indications {
    pub seed: [u8; 32],
    pub next: u64,
    pub software: Option<String>,
    pub has_fingerprint: bool,
    /// The name, the password and the algorithm of short-term credentials.
    pub signer: Option<(String, String, IntegrityAlgorithm)>,
}

impl Indications {
    /// Writes the next indication.
    pub(super) fn write(
        &mut self,
        method: Method,
        body: &Body,
    ) -> Result<Vec<u8>, StunWriteError> {
        let kind = MessageType::from_class_method(MessageClass::Indication, method);
        let id = self.next_id();
        let mut page = proved::Message::builder(kind, id.0, MessageWriteVec::new(Global))?;
        body.core.write(id.0, &mut page)?;
        Ok(self.completed(page)?.into_std())
    }

    /// Adds SOFTWARE, the signature and FINGERPRINT.
    fn completed(&self, mut page: MessageWriteVec<Global>) -> Result<KitVec<u8>, StunWriteError> {
        if let Some(text) = &self.software {
            page.add_attribute(&Software::new(text)?)?;
        }
        if let Some((name, password, algorithm)) = &self.signer {
            page.add_attribute(&Username::new(name)?)?;
            page.add_message_integrity_with_key_bytes(password.as_bytes(), *algorithm)?;
        }
        if self.has_fingerprint {
            finish_with_fingerprint(page)
        } else {
            Ok(page.finish())
        }
    }

    /// Returns the transaction ID of the next indication.
    fn next_id(&mut self) -> TransactionId {
        let digest = hmac_sha256(&self.seed, &[LABEL, &self.next.to_be_bytes()]);
        self.next = self.next.wrapping_add(1);
        let mut id = [0; 12];
        id.copy_from_slice(&digest[..12]);
        TransactionId::from(id)
    }
}
