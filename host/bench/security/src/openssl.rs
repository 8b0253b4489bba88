//! AES-128 by OpenSSL 3 (Debian: libssl3): counter mode, and CMAC as CBC over the padded message, which is quicker than its own CMAC.
use crate::chained::{Subkeys, xor};
use core::ffi::{c_int, c_void};
use core::ptr::null;

#[link(name = "libcrypto.so.3", kind = "dylib", modifiers = "+verbatim")]
unsafe extern "C" {
    fn EVP_CIPHER_CTX_new() -> *mut c_void;
    fn EVP_CIPHER_CTX_free(context: *mut c_void);
    fn EVP_CIPHER_CTX_copy(to: *mut c_void, from: *const c_void) -> c_int;
    fn EVP_CIPHER_CTX_set_padding(context: *mut c_void, padding: c_int) -> c_int;
    fn EVP_aes_128_ctr() -> *const c_void;
    fn EVP_aes_128_cbc() -> *const c_void;
    fn EVP_EncryptInit_ex(context: *mut c_void, cipher: *const c_void, engine: *const c_void, key: *const u8, iv: *const u8) -> c_int;
    fn EVP_EncryptUpdate(context: *mut c_void, out: *mut u8, wrote: *mut c_int, data: *const u8, length: c_int) -> c_int;
}

/// An expanded key in one mode. A context of OpenSSL changes while it works; ours is used by one thread, one call at a time.
struct Mode(*mut c_void);
impl Mode {
    fn new(mode: *const c_void, key: &[u8; 16]) -> Self {
        unsafe {
            let context = EVP_CIPHER_CTX_new();
            assert_eq!(EVP_EncryptInit_ex(context, mode, null(), key.as_ptr(), [0; 16].as_ptr()), 1);
            EVP_CIPHER_CTX_set_padding(context, 0);
            Self(context)
        }
    }
    /// Whole blocks, or any octets in counter mode, from the starting block on, in place.
    fn run(&self, start: &[u8; 16], m: &mut [u8]) {
        let (n, mut wrote) = (m.len() as c_int, 0);
        unsafe {
            assert_eq!(EVP_EncryptInit_ex(self.0, null(), null(), null(), start.as_ptr()), 1);
            assert_eq!(EVP_EncryptUpdate(self.0, m.as_mut_ptr(), &mut wrote, m.as_ptr(), n), 1);
        }
        assert_eq!(wrote, n);
    }
}
impl Clone for Mode {
    fn clone(&self) -> Self {
        let copy = unsafe { EVP_CIPHER_CTX_new() };
        assert_eq!(unsafe { EVP_CIPHER_CTX_copy(copy, self.0) }, 1);
        Self(copy)
    }
}
impl Drop for Mode {
    fn drop(&mut self) {
        unsafe { EVP_CIPHER_CTX_free(self.0) }
    }
}

#[derive(Clone)]
pub struct Counter(Mode);
impl Counter {
    pub fn new(key: &[u8; 16]) -> Self {
        Self(Mode::new(unsafe { EVP_aes_128_ctr() }, key))
    }
    pub fn cipher(&self, start: &[u8; 16], m: &mut [u8]) {
        self.0.run(start, m);
    }
}

#[derive(Clone)]
pub struct Cmac {
    chain: Mode,
    subkeys: Subkeys,
}
impl Cmac {
    pub fn new(key: &[u8; 16]) -> Self {
        let chain = Mode::new(unsafe { EVP_aes_128_cbc() }, key);
        let mut zero = [0; 16];
        chain.run(&[0; 16], &mut zero);
        Self { chain, subkeys: Subkeys::of(zero) }
    }
    pub fn code(&self, head: [u8; 8], m: &[u8]) -> u32 {
        let filled = 8 + m.len();
        let length = filled.next_multiple_of(16);
        let mut blocks = Vec::with_capacity(length);
        blocks.extend_from_slice(&head);
        blocks.extend_from_slice(m);
        blocks.resize(length, 0);
        if filled < length {
            blocks[filled] = 0x80;
        }
        xor(&mut blocks[length - 16..], self.subkeys.last(filled == length));
        self.chain.run(&[0; 16], &mut blocks);
        u32::from_be_bytes(blocks[length - 16..length - 12].try_into().unwrap())
    }
}
