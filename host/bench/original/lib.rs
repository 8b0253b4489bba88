//! The original's text, read from where it lies, under the shims of differential/oracle for what it lacks.
#[macro_use]
extern crate alloc;

// as the text's own lib.rs has it
mod prelude {
    #![allow(unused_imports)]
    pub(crate) use alloc::borrow::ToOwned;
    pub(crate) use alloc::boxed::Box;
    pub(crate) use alloc::string::{String, ToString};
    pub(crate) use alloc::vec::Vec;
}
pub mod common;
pub mod nas_5gs;
