//! The two contexts of the shim: what a back end keeps of a key, and what it does with it. The back end is chosen while the program
//! runs, so that all are timed in one process; that costs each call one branch, which goes the same way every time.
use crate::chained::{Chained, counter_mode};
use crate::{Bearer, CipheringAlgorithm, CipheringKey, Direction, IntegrityAlgorithm, IntegrityKey, ipsec_mb, openssl};
use cmac::{Cmac, Mac};
use core::cell::Cell;

/// Of code 2. Codes 1 and 3 are libipsec-mb's with each.
#[derive(Debug, Clone, Copy, PartialEq, Eq)]
pub enum BackEnd {
    /// crate aes with AES instructions, crate ctr, CMAC by `Chained`
    Chained,
    /// crates aes with AES instructions, ctr and cmac
    Crates,
    /// as `Chained`, by the crate's own code without AES instructions
    Soft,
    /// OpenSSL's libcrypto
    OpenSsl,
}

thread_local!(static CHOSEN: Cell<BackEnd> = const { Cell::new(BackEnd::Chained) });

/// Keys that this thread expands from now on are of this back end.
pub fn choose(back_end: BackEnd) {
    CHOSEN.set(back_end);
}

/// What an algorithm takes beside key and message.
#[derive(Clone, Copy)]
pub struct Input {
    pub count: u32,
    pub bearer: u8,
    pub direction: u8,
}
impl Input {
    fn new(count: impl Into<u32>, bearer: Bearer, direction: Direction) -> Self {
        Self { count: count.into(), bearer: bearer.0, direction: direction as u8 }
    }
    /// The 8 octets that the code of AES begins with.
    fn head(self) -> [u8; 8] {
        let c = self.count.to_be_bytes();
        [c[0], c[1], c[2], c[3], self.bearer << 3 | self.direction << 2, 0, 0, 0]
    }
    /// The first counter block.
    fn start(self) -> [u8; 16] {
        let mut block = [0; 16];
        block[..8].copy_from_slice(&self.head());
        block
    }
}

fn aes(key: &[u8; 16]) -> aes::Aes128 {
    cipher::KeyInit::new(key.into())
}
fn soft(key: &[u8; 16]) -> aes_soft::Aes128 {
    cipher::KeyInit::new(key.into())
}

#[derive(Clone)]
enum Integrity {
    Null,
    Chained(Chained<aes::Aes128>),
    Crates(Cmac<aes::Aes128>),
    Soft(Chained<aes_soft::Aes128>),
    OpenSsl(openssl::Cmac),
    Snow3g(ipsec_mb::Snow),
    Zuc(ipsec_mb::Zuc),
}

#[derive(Clone)]
pub struct IntegrityContext(Integrity);
impl IntegrityContext {
    pub fn new(key: &impl IntegrityKey, algorithm: IntegrityAlgorithm) -> Self {
        let key = key.octets();
        Self(match (algorithm, CHOSEN.get()) {
            (IntegrityAlgorithm::Null, _) => Integrity::Null,
            (IntegrityAlgorithm::Snow3g, _) => Integrity::Snow3g(ipsec_mb::Snow::new(key)),
            (IntegrityAlgorithm::Zuc, _) => Integrity::Zuc(ipsec_mb::Zuc::new(key)),
            (_, BackEnd::Chained) => Integrity::Chained(Chained::new(aes(key))),
            (_, BackEnd::Crates) => Integrity::Crates(cmac::digest::KeyInit::new(key.into())),
            (_, BackEnd::Soft) => Integrity::Soft(Chained::new(soft(key))),
            (_, BackEnd::OpenSsl) => Integrity::OpenSsl(openssl::Cmac::new(key)),
        })
    }
    pub fn mac(&self, count: impl Into<u32>, bearer: Bearer, direction: Direction, m: &[u8]) -> u32 {
        let input = Input::new(count, bearer, direction);
        match &self.0 {
            Integrity::Null => 0,
            Integrity::Chained(k) => k.code(input.head(), m),
            Integrity::Crates(k) => by_crate(k, input.head(), m),
            Integrity::Soft(k) => k.code(input.head(), m),
            Integrity::OpenSsl(k) => k.code(input.head(), m),
            Integrity::Snow3g(k) => k.code(input, m),
            Integrity::Zuc(k) => k.code(input, m),
        }
    }
}

/// A `Cmac` is used up by its code, so a message takes a copy of the one with the expanded key.
fn by_crate(key: &Cmac<aes::Aes128>, head: [u8; 8], m: &[u8]) -> u32 {
    let mut chain = key.clone();
    chain.update(&head);
    chain.update(m);
    let tag = chain.finalize().into_bytes();
    u32::from_be_bytes([tag[0], tag[1], tag[2], tag[3]])
}

#[derive(Clone)]
enum Ciphering {
    Null,
    Crates(aes::Aes128),
    Soft(aes_soft::Aes128),
    OpenSsl(openssl::Counter),
    Snow3g(ipsec_mb::Snow),
    Zuc(ipsec_mb::Zuc),
}

#[derive(Clone)]
pub struct CipheringContext(Ciphering);
impl CipheringContext {
    pub fn new(key: &impl CipheringKey, algorithm: CipheringAlgorithm) -> Self {
        let key = key.octets();
        Self(match (algorithm, CHOSEN.get()) {
            (CipheringAlgorithm::Null, _) => Ciphering::Null,
            (CipheringAlgorithm::Snow3g, _) => Ciphering::Snow3g(ipsec_mb::Snow::new(key)),
            (CipheringAlgorithm::Zuc, _) => Ciphering::Zuc(ipsec_mb::Zuc::new(key)),
            (_, BackEnd::Chained | BackEnd::Crates) => Ciphering::Crates(aes(key)),
            (_, BackEnd::Soft) => Ciphering::Soft(soft(key)),
            (_, BackEnd::OpenSsl) => Ciphering::OpenSsl(openssl::Counter::new(key)),
        })
    }
    pub fn cipher(&self, count: impl Into<u32>, bearer: Bearer, direction: Direction, m: &mut [u8]) {
        let input = Input::new(count, bearer, direction);
        match &self.0 {
            Ciphering::Null => {}
            Ciphering::Crates(k) => counter_mode(k, &input.start(), m),
            Ciphering::Soft(k) => counter_mode(k, &input.start(), m),
            Ciphering::OpenSsl(k) => k.cipher(&input.start(), m),
            Ciphering::Snow3g(k) => k.cipher(input, m),
            Ciphering::Zuc(k) => k.cipher(input, m),
        }
    }
}
