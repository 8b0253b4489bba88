//! The library's functions as ../include/saihdelu.h declares them. What is proved ends here.
//!
//! Every call of them in this crate is sound for one reason: pointers and lengths are those of slices, arrays and contexts that the
//! caller of the crate or the method itself holds, none is null, and what is written is borrowed mutably, so that nothing overlaps.

// By value only size and alignment count, so the words are opaque.
#[repr(C)]
#[derive(Clone, Copy)]
pub struct Context {
    w: [u64; 65],
}

#[repr(C)]
#[derive(Clone, Copy)]
pub struct EpsContext {
    w: [u64; 61],
}

#[repr(C)]
#[derive(Clone, Copy)]
pub struct Answer {
    pub number: u8,
    pub carried: u8,
    pub header_type: u8,
    pub octet: u8,
    pub connection: u8,
    pub count: u32,
    pub distance: u32,
    pub wrote: usize,
    pub second: usize,
}

#[repr(C)]
pub struct Left {
    pub answer: Answer,
    pub context: Context,
}

#[repr(C)]
pub struct EpsLeft {
    pub answer: Answer,
    pub context: EpsContext,
}

pub type Key = [u8; 16];

/// Both opens in place have this form.
pub type OpenInPlace = unsafe extern "C" fn(*mut Context, u8, u8, *const u8, usize, *mut u8, usize, *mut u8, usize) -> Answer;

// Slices are no C types: pointer and length are written out.
extern "C" {
    pub fn saihdelu_context_size() -> usize;
    pub fn saihdelu_eps_context_size() -> usize;

    pub fn saihdelu_new(integrity: u8, ciphering: u8, integrity_key: *const Key, ciphering_key: *const Key) -> Left;
    pub fn saihdelu_restore(
        integrity: u8,
        ciphering: u8,
        integrity_key: *const Key,
        ciphering_key: *const Key,
        next_uplink_3gpp: u32,
        next_downlink_3gpp: u32,
        next_uplink_non_3gpp: u32,
        next_downlink_non_3gpp: u32,
    ) -> Left;
    pub fn saihdelu_reselect(context: Context, integrity: u8, ciphering: u8, integrity_key: *const Key, ciphering_key: *const Key) -> Left;
    #[cfg(test)]
    pub fn saihdelu_set_window(context: Context, size: u8) -> Left;
    pub fn saihdelu_set_window_in_place(context: *mut Context, size: u8) -> Answer;

    #[cfg(test)]
    pub fn saihdelu_seal(
        context: Context,
        header_type: u8,
        direction: u8,
        connection: u8,
        inner: *const u8,
        inner_len: usize,
        out: *mut u8,
        out_len: usize,
    ) -> Left;
    pub fn saihdelu_seal_in_place(
        context: *mut Context,
        header_type: u8,
        direction: u8,
        connection: u8,
        inner: *const u8,
        inner_len: usize,
        out: *mut u8,
        out_len: usize,
    ) -> Answer;
    pub fn saihdelu_seal_opaque(
        context: Context,
        header_type: u8,
        direction: u8,
        connection: u8,
        inner: *const u8,
        inner_len: usize,
        out: *mut u8,
        out_len: usize,
    ) -> Left;
    pub fn saihdelu_initial(context: Context, connection: u8, whole: *const u8, whole_len: usize, out: *mut u8, out_len: usize) -> Left;
    #[cfg(test)]
    pub fn saihdelu_open(
        context: Context,
        direction: u8,
        connection: u8,
        message: *const u8,
        message_len: usize,
        out: *mut u8,
        out_len: usize,
        out2: *mut u8,
        out2_len: usize,
    ) -> Left;
    pub fn saihdelu_open_in_place(
        context: *mut Context,
        direction: u8,
        connection: u8,
        message: *const u8,
        message_len: usize,
        out: *mut u8,
        out_len: usize,
        out2: *mut u8,
        out2_len: usize,
    ) -> Answer;
    #[cfg(test)]
    pub fn saihdelu_open_across(
        context: Context,
        direction: u8,
        connection: u8,
        message: *const u8,
        message_len: usize,
        out: *mut u8,
        out_len: usize,
        out2: *mut u8,
        out2_len: usize,
    ) -> Left;
    pub fn saihdelu_open_across_in_place(
        context: *mut Context,
        direction: u8,
        connection: u8,
        message: *const u8,
        message_len: usize,
        out: *mut u8,
        out_len: usize,
        out2: *mut u8,
        out2_len: usize,
    ) -> Answer;
    pub fn saihdelu_seal_eps_message(context: Context, inner: *const u8, inner_len: usize, out: *mut u8, out_len: usize) -> Left;
    pub fn saihdelu_open_eps_message(context: Context, message: *const u8, message_len: usize, out: *mut u8, out_len: usize) -> Left;

    pub fn saihdelu_n1_to_s1(context: Context) -> Left;
    pub fn saihdelu_verify_n1_to_s1(context: Context, octet: u8) -> Left;
    pub fn saihdelu_s1_to_n1(context: Context, ncc: u8, ngksi: u8, out: *mut u8, out_len: usize) -> Left;
    pub fn saihdelu_verify_s1_to_n1(context: Context, value: *const u8, value_len: usize) -> Left;

    pub fn saihdelu_next_count(context: Context, direction: u8, connection: u8) -> u32;
    pub fn saihdelu_window(context: Context) -> u8;
    pub fn saihdelu_integrity(context: Context) -> u8;
    pub fn saihdelu_ciphering(context: Context) -> u8;

    pub fn saihdelu_eps_new(integrity: u8, ciphering: u8, integrity_key: *const Key, ciphering_key: *const Key) -> EpsLeft;
    pub fn saihdelu_eps_restore(
        integrity: u8,
        ciphering: u8,
        integrity_key: *const Key,
        ciphering_key: *const Key,
        next_uplink: u32,
        next_downlink: u32,
    ) -> EpsLeft;
    pub fn saihdelu_eps_reselect(
        context: EpsContext,
        integrity: u8,
        ciphering: u8,
        integrity_key: *const Key,
        ciphering_key: *const Key,
    ) -> EpsLeft;
    pub fn saihdelu_eps_set_window(context: EpsContext, size: u8) -> EpsLeft;
    pub fn saihdelu_eps_seal(
        context: EpsContext,
        header_type: u8,
        direction: u8,
        inner: *const u8,
        inner_len: usize,
        out: *mut u8,
        out_len: usize,
    ) -> EpsLeft;
    pub fn saihdelu_eps_service_request(context: EpsContext, identifier: u8, out: *mut u8, out_len: usize) -> EpsLeft;
    pub fn saihdelu_eps_open(
        context: EpsContext,
        direction: u8,
        message: *const u8,
        message_len: usize,
        out: *mut u8,
        out_len: usize,
    ) -> EpsLeft;
    pub fn saihdelu_eps_next_count(context: EpsContext, direction: u8) -> u32;
    pub fn saihdelu_eps_window(context: EpsContext) -> u8;
    pub fn saihdelu_eps_integrity(context: EpsContext) -> u8;
    pub fn saihdelu_eps_ciphering(context: EpsContext) -> u8;

    pub fn saihdelu_journal(kind: u8, bytes: *const u8, bytes_len: usize, out: *mut u8, out_len: usize) -> Answer;
}

#[cfg(test)]
mod tests {
    use super::*;
    use std::mem::{align_of, size_of};

    /// The layouts that saihdelu.h asserts for C.
    #[test]
    fn layouts() {
        assert_eq!((size_of::<Context>(), size_of::<EpsContext>(), size_of::<Answer>()), (520, 488, 32));
        assert_eq!((size_of::<Left>(), size_of::<EpsLeft>()), (552, 520));
        assert_eq!((align_of::<Context>(), align_of::<EpsContext>(), align_of::<Answer>()), (8, 8, 8));
        assert_eq!(unsafe { (saihdelu_context_size(), saihdelu_eps_context_size()) }, (520, 488));
    }
}
