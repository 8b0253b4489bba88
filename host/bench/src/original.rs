//! The original's calls. Sealing is `protect_opaque_payload`, which does not look at the message: the codec is not at hand, and with it
//! sealing takes longer. Opening is `unprotect_raw`, with the oracle's stand-in for the codec, which copies the octets.
use crate::jobs::End;
use oxirush_nas::common::NasError;
use oxirush_nas::nas_5gs::{CipheringAlgorithm, Direction, IntegrityAlgorithm, KAmf, Nas5gsSecurityHeaderType, NasSecurityContext};
use oxirush_security::{BackEnd, choose};

pub struct Original(NasSecurityContext);
impl Original {
    pub fn new(back_end: BackEnd, code: u8, keys: &[[u8; 16]; 2]) -> Self {
        choose(back_end);
        let (integrity, ciphering) = (IntegrityAlgorithm::of(code), CipheringAlgorithm::of(code));
        // the shim's KAMF is the two keys one behind the other
        let kamf = KAmf::new(keys.as_flattened().try_into().unwrap());
        Self(NasSecurityContext::from_fresh_kamf(&kamf, integrity.unwrap(), ciphering.unwrap()).unwrap())
    }
}
impl End for Original {
    fn seal(&mut self, header_type: u8, inner: &[u8], out: &mut Vec<u8>) -> usize {
        let header_type = Nas5gsSecurityHeaderType::try_from(header_type).unwrap();
        *out = self.0.protect_opaque_payload(inner.to_vec(), header_type, Direction::Downlink).unwrap();
        out.len()
    }
    fn open(&mut self, message: &[u8], out: &mut Vec<u8>) -> Option<usize> {
        *out = match self.0.unprotect_raw(message, Direction::Downlink) {
            Ok(verified) => verified.message,
            Err(NasError::AuthenticMessageRefused { plain, .. }) => plain,
            Err(_) => return None,
        };
        Some(out.len())
    }
}

/// What the original's calls begin with: the octets that are lent, in a new Vec.
pub struct Copying;
impl End for Copying {
    fn seal(&mut self, _: u8, inner: &[u8], out: &mut Vec<u8>) -> usize {
        *out = inner.to_vec();
        out.len()
    }
    fn open(&mut self, message: &[u8], out: &mut Vec<u8>) -> Option<usize> {
        *out = message.to_vec();
        Some(out.len())
    }
}
