//! CMAC and counter mode over AES-128 from OpenSSL 3 (Debian package libssl3).
use core::ffi::{CStr, c_char, c_int, c_void};
use core::ptr::{null, null_mut};

#[link(name = "libcrypto.so.3", kind = "dylib", modifiers = "+verbatim")]
unsafe extern "C" {
    fn EVP_Q_mac(
        library: *mut c_void, name: *const c_char, properties: *const c_char, sub: *const c_char, params: *const c_void,
        key: *const u8, key_length: usize, data: *const u8, length: usize, out: *mut u8, room: usize, wrote: *mut usize,
    ) -> *mut u8;
    fn EVP_aes_128_ctr() -> *const c_void;
    fn EVP_CIPHER_CTX_new() -> *mut c_void;
    fn EVP_CIPHER_CTX_free(context: *mut c_void);
    fn EVP_EncryptInit_ex(
        context: *mut c_void, cipher: *const c_void, engine: *mut c_void, key: *const u8, iv: *const u8,
    ) -> c_int;
    fn EVP_EncryptUpdate(context: *mut c_void, out: *mut u8, wrote: *mut c_int, data: *const u8, length: c_int) -> c_int;
}

pub fn cmac(key: &[u8; 16], data: &[u8]) -> [u8; 16] {
    const CMAC: &CStr = c"CMAC";
    const CBC: &CStr = c"AES-128-CBC";
    let (mut tag, mut wrote) = ([0; 16], 0);
    let made = unsafe {
        EVP_Q_mac(
            null_mut(), CMAC.as_ptr(), null(), CBC.as_ptr(), null(),
            key.as_ptr(), 16, data.as_ptr(), data.len(), tag.as_mut_ptr(), 16, &mut wrote,
        )
    };
    assert!(!made.is_null() && wrote == 16);
    tag
}

pub fn ctr(key: &[u8; 16], start: &[u8; 16], m: &mut [u8]) {
    let (data, mut wrote) = (m.to_vec(), 0);
    unsafe {
        let context = EVP_CIPHER_CTX_new();
        assert_eq!(EVP_EncryptInit_ex(context, EVP_aes_128_ctr(), null_mut(), key.as_ptr(), start.as_ptr()), 1);
        assert_eq!(EVP_EncryptUpdate(context, m.as_mut_ptr(), &mut wrote, data.as_ptr(), data.len() as c_int), 1);
        EVP_CIPHER_CTX_free(context);
    }
    assert_eq!(wrote as usize, m.len());
}
