//! SHIM for the crate `oxirush_security`, which is not at hand: the names that the given text uses, no more.
//! What they do is our reading of document 01 and TS 33.501 Annex D. AES, CMAC and counter mode are OpenSSL's.
mod numbers;
mod openssl;
pub mod nas_5gs;
pub use numbers::*;

macro_rules! algorithm {
    ($name:ident) => {
        #[derive(Debug, Clone, Copy, PartialEq, Eq)]
        pub enum $name {
            Null = 0,
            Aes = 2,
        }
        impl TryFrom<u8> for $name {
            type Error = SecurityError;
            fn try_from(v: u8) -> Result<Self, SecurityError> {
                match v {
                    0 => Ok(Self::Null),
                    2 => Ok(Self::Aes),
                    _ => Err(SecurityError("not built")),
                }
            }
        }
    };
}
algorithm!(IntegrityAlgorithm);
algorithm!(CipheringAlgorithm);

pub trait IntegrityKey {
    fn octets(&self) -> &[u8; 16];
}
pub trait CipheringKey {
    fn octets(&self) -> &[u8; 16];
}

/// The 8 octets that both algorithms begin with.
fn first_octets(count: u32, bearer: Bearer, direction: Direction) -> [u8; 8] {
    let c = count.to_be_bytes();
    [c[0], c[1], c[2], c[3], bearer.0 << 3 | (direction as u8) << 2, 0, 0, 0]
}

#[derive(Clone)]
pub struct IntegrityContext(Option<[u8; 16]>);
impl IntegrityContext {
    pub fn new(key: &impl IntegrityKey, algorithm: IntegrityAlgorithm) -> Self {
        Self((algorithm == IntegrityAlgorithm::Aes).then(|| *key.octets()))
    }
    pub fn mac(&self, count: impl Into<u32>, bearer: Bearer, direction: Direction, m: &[u8]) -> u32 {
        let Some(key) = &self.0 else { return 0 };
        let input = [&first_octets(count.into(), bearer, direction)[..], m].concat();
        let tag = openssl::cmac(key, &input);
        u32::from_be_bytes([tag[0], tag[1], tag[2], tag[3]])
    }
}

#[derive(Clone)]
pub struct CipheringContext(Option<[u8; 16]>);
impl CipheringContext {
    pub fn new(key: &impl CipheringKey, algorithm: CipheringAlgorithm) -> Self {
        Self((algorithm == CipheringAlgorithm::Aes).then(|| *key.octets()))
    }
    pub fn cipher(&self, count: impl Into<u32>, bearer: Bearer, direction: Direction, m: &mut [u8]) {
        let Some(key) = &self.0 else { return };
        let mut start = [0; 16];
        start[..8].copy_from_slice(&first_octets(count.into(), bearer, direction));
        openssl::ctr(key, &start, m);
    }
}

pub fn constant_time_eq(a: &[u8], b: &[u8]) -> bool {
    a == b
}

pub mod nas_eps {
    pub struct KAsme;
    pub struct Nh;
}
