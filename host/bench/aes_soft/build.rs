//! The crate's own switch to its code without AES instructions.
fn main() {
    println!("cargo:rustc-cfg=aes_force_soft");
}
