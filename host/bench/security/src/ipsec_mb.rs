//! SNOW 3G and ZUC by libipsec-mb (Debian: libipsec-mb-dev). It takes no empty message, and for ZUC at most 8,188 octets.
use crate::Input;
use core::ffi::c_void;

unsafe extern "C" {
    fn streams_start();
    fn snow_size() -> usize;
    fn snow_schedule(key: *const u8, schedule: *mut c_void);
    fn snow_cipher(schedule: *const c_void, count: u32, bearer: u8, direction: u8, m: *mut u8, n: usize);
    fn snow_code(schedule: *const c_void, count: u32, bearer: u8, direction: u8, m: *const u8, n: usize, code: *mut u8);
    fn zuc_cipher(key: *const u8, count: u32, bearer: u8, direction: u8, m: *mut u8, n: usize);
    fn zuc_code(key: *const u8, count: u32, bearer: u8, direction: u8, m: *const u8, n: usize, code: *mut u32);
}

/// SNOW 3G's key as the library keeps it; u64 for its alignment.
#[derive(Clone)]
pub struct Snow(Vec<u64>);
impl Snow {
    pub fn new(key: &[u8; 16]) -> Self {
        unsafe {
            streams_start();
            let mut schedule = vec![0; snow_size().div_ceil(8)];
            snow_schedule(key.as_ptr(), schedule.as_mut_ptr().cast());
            Self(schedule)
        }
    }
    pub fn cipher(&self, i: Input, m: &mut [u8]) {
        unsafe { snow_cipher(self.0.as_ptr().cast(), i.count, i.bearer, i.direction, m.as_mut_ptr(), m.len()) }
    }
    pub fn code(&self, i: Input, m: &[u8]) -> u32 {
        let mut code = [0; 4];
        unsafe { snow_code(self.0.as_ptr().cast(), i.count, i.bearer, i.direction, m.as_ptr(), m.len(), code.as_mut_ptr()) }
        u32::from_be_bytes(code)
    }
}

/// ZUC has nothing to prepare of a key.
#[derive(Clone)]
pub struct Zuc([u8; 16]);
impl Zuc {
    pub fn new(key: &[u8; 16]) -> Self {
        unsafe { streams_start() }
        Self(*key)
    }
    pub fn cipher(&self, i: Input, m: &mut [u8]) {
        unsafe { zuc_cipher(self.0.as_ptr(), i.count, i.bearer, i.direction, m.as_mut_ptr(), m.len()) }
    }
    pub fn code(&self, i: Input, m: &[u8]) -> u32 {
        let mut code = 0u32;
        unsafe { zuc_code(self.0.as_ptr(), i.count, i.bearer, i.direction, m.as_ptr(), m.len(), &mut code) }
        u32::from_be_bytes(code.to_ne_bytes())
    }
}
