//! SHIM for the crate `oxirush_security`, which is not at hand: the names that the original's text uses, no more, as differential/oracle
//! has them; numbers and nas_5gs are its files. Unlike there a key is expanded once, as the text says of its `Held`, and the algorithms are those of the back end in use.
mod algorithms;
mod chained;
mod ipsec_mb;
pub mod nas_5gs;
mod numbers;
mod openssl;
pub use algorithms::{BackEnd, CipheringContext, Input, IntegrityContext, choose};
pub use numbers::*;

macro_rules! algorithm {
    ($name:ident) => {
        #[derive(Debug, Clone, Copy, PartialEq, Eq)]
        pub enum $name {
            Null = 0,
            Snow3g = 1,
            Aes = 2,
            Zuc = 3,
        }
        impl TryFrom<u8> for $name {
            type Error = SecurityError;
            fn try_from(v: u8) -> Result<Self, SecurityError> {
                let built = [Self::Null, Self::Snow3g, Self::Aes, Self::Zuc];
                built.get(usize::from(v)).copied().ok_or(SecurityError("not built"))
            }
        }
    };
}
algorithm!(IntegrityAlgorithm);
algorithm!(CipheringAlgorithm);

pub trait IntegrityKey {
    fn octets(&self) -> &[u8; 16];
}
pub trait CipheringKey {
    fn octets(&self) -> &[u8; 16];
}

/// In a time that does not depend on where they differ.
pub fn constant_time_eq(a: &[u8], b: &[u8]) -> bool {
    a.len() == b.len() && core::hint::black_box(a.iter().zip(b).fold(0, |d, (x, y)| d | x ^ y)) == 0
}

pub mod nas_eps {
    pub struct KAsme;
    pub struct Nh;
}
