//! The given Rust text, read from where it lies, over shims for what is missing.
#[macro_use]
extern crate alloc;

// as the text's own lib.rs has it
mod prelude {
    #![allow(unused_imports)]
    pub(crate) use alloc::borrow::ToOwned;
    pub(crate) use alloc::boxed::Box;
    pub(crate) use alloc::string::{String, ToString};
    pub(crate) use alloc::vec::Vec;
}
pub mod common;
pub mod lines;
pub mod nas_5gs;
