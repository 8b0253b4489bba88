//! This library's calls through its C face, declared as in host/include/saihdelu.h.
use crate::jobs::End;

#[repr(C)]
#[derive(Clone, Copy)]
struct Context([u64; 65]);

#[repr(C)]
struct Answer {
    number: u8,
    carried: u8,
    header_type: u8,
    octet: u8,
    connection: u8,
    count: u32,
    distance: u32,
    wrote: usize,
    second: usize,
}

#[repr(C)]
struct Left {
    answer: Answer,
    context: Context,
}

const DOWNLINK: u8 = 1;
const THREE_GPP: u8 = 1;

unsafe extern "C" {
    fn saihdelu_context_size() -> usize;
    fn saihdelu_new(integrity: u8, ciphering: u8, integrity_key: &[u8; 16], ciphering_key: &[u8; 16]) -> Left;
    fn saihdelu_seal(
        context: Context, header_type: u8, direction: u8, connection: u8,
        inner: *const u8, length: usize, out: *mut u8, room: usize,
    ) -> Left;
    fn saihdelu_seal_opaque(
        context: Context, header_type: u8, direction: u8, connection: u8,
        inner: *const u8, length: usize, out: *mut u8, room: usize,
    ) -> Left;
    fn saihdelu_open(
        context: Context, direction: u8, connection: u8,
        message: *const u8, length: usize, out: *mut u8, room: usize, second: *mut u8, second_room: usize,
    ) -> Left;
    fn saihdelu_seal_in_place(
        context: &mut Context, header_type: u8, direction: u8, connection: u8,
        inner: *const u8, length: usize, out: *mut u8, room: usize,
    ) -> Answer;
    fn saihdelu_open_in_place(
        context: &mut Context, direction: u8, connection: u8,
        message: *const u8, length: usize, out: *mut u8, room: usize, second: *mut u8, second_room: usize,
    ) -> Answer;
}

fn new(code: u8, [integrity, ciphering]: &[[u8; 16]; 2]) -> Context {
    assert_eq!(unsafe { saihdelu_context_size() }, size_of::<Context>());
    let made = unsafe { saihdelu_new(code, code, integrity, ciphering) };
    assert_eq!(made.answer.number, 0);
    made.context
}

fn sealed(answer: &Answer) -> usize {
    assert_eq!(answer.number, 0);
    answer.wrote
}

/// Refusal 8 hands the octets over, as the original's `AuthenticMessageRefused` does.
fn opened(answer: &Answer) -> Option<usize> {
    matches!(answer.number, 0 | 8).then_some(answer.wrote)
}

/// A context that goes in and comes back with each call, and room for the second output, which these messages do not use.
pub struct ByValue(Context, Vec<u8>);
impl ByValue {
    pub fn new(code: u8, keys: &[[u8; 16]; 2], room: usize) -> Self {
        Self(new(code, keys), vec![0; room])
    }
}
impl End for ByValue {
    fn seal(&mut self, header_type: u8, inner: &[u8], out: &mut Vec<u8>) -> usize {
        // fewer octets are no message, and the call that looks refuses them
        let call = if inner.len() < 3 { saihdelu_seal_opaque } else { saihdelu_seal };
        let left = unsafe {
            call(self.0, header_type, DOWNLINK, THREE_GPP, inner.as_ptr(), inner.len(), out.as_mut_ptr(), out.len())
        };
        self.0 = left.context;
        sealed(&left.answer)
    }
    fn open(&mut self, message: &[u8], out: &mut Vec<u8>) -> Option<usize> {
        let (second, room) = (self.1.as_mut_ptr(), self.1.len());
        let left = unsafe {
            saihdelu_open(self.0, DOWNLINK, THREE_GPP, message.as_ptr(), message.len(), out.as_mut_ptr(), out.len(), second, room)
        };
        self.0 = left.context;
        opened(&left.answer)
    }
}

/// A context that is changed where it lies.
pub struct InPlace(Context, Vec<u8>);
impl InPlace {
    pub fn new(code: u8, keys: &[[u8; 16]; 2], room: usize) -> Self {
        Self(new(code, keys), vec![0; room])
    }
}
impl End for InPlace {
    fn seal(&mut self, header_type: u8, inner: &[u8], out: &mut Vec<u8>) -> usize {
        let context = &mut self.0;
        sealed(&unsafe {
            saihdelu_seal_in_place(context, header_type, DOWNLINK, THREE_GPP, inner.as_ptr(), inner.len(), out.as_mut_ptr(), out.len())
        })
    }
    fn open(&mut self, message: &[u8], out: &mut Vec<u8>) -> Option<usize> {
        let (context, second, room) = (&mut self.0, self.1.as_mut_ptr(), self.1.len());
        opened(&unsafe {
            saihdelu_open_in_place(context, DOWNLINK, THREE_GPP, message.as_ptr(), message.len(), out.as_mut_ptr(), out.len(), second, room)
        })
    }
}
