//! Keys and connections of 5GS. host/bench has this file too.
use crate::*;

macro_rules! key {
    ($name:ident, $n:literal) => {
        #[derive(Clone)]
        pub struct $name(pub [u8; $n]);
        impl $name {
            pub fn new(k: &[u8; $n]) -> Self {
                Self(*k)
            }
        }
    };
}
key!(KAmf, 32);
key!(KNasInt, 16);
key!(KNasEnc, 16);
impl IntegrityKey for KNasInt {
    fn octets(&self) -> &[u8; 16] {
        &self.0
    }
}
impl CipheringKey for KNasEnc {
    fn octets(&self) -> &[u8; 16] {
        &self.0
    }
}
#[derive(Debug, Clone, Copy, PartialEq, Eq)]
pub enum NasConnection {
    ThreeGpp = 1,
    Non3Gpp = 2,
}
impl From<NasConnection> for u8 {
    fn from(c: NasConnection) -> u8 {
        c as u8
    }
}
impl From<NasConnection> for Bearer {
    fn from(c: NasConnection) -> Bearer {
        Bearer(c as u8)
    }
}
/// Not TS 33.501 Annex A: a KAMF here is KNASint then KNASenc, so that restore and reselection, which the text
/// has for a KAMF alone, can be driven with two keys.
pub fn derive_knas_int(k: &KAmf, _: IntegrityAlgorithm) -> KNasInt {
    KNasInt(k.0[..16].try_into().unwrap())
}
pub fn derive_knas_enc(k: &KAmf, _: CipheringAlgorithm) -> KNasEnc {
    KNasEnc(k.0[16..].try_into().unwrap())
}
pub fn derive_mapped_kamf_idle(_: &nas_eps::KAsme, _: NasCount) -> KAmf {
    unimplemented!()
}
pub fn derive_mapped_kamf_handover(_: &nas_eps::KAsme, _: &nas_eps::Nh) -> KAmf {
    unimplemented!()
}
