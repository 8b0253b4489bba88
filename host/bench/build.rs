//! SAIHDELU is the folder of libnas_c.a, which `rt lib` in crates/nas_c writes.
fn main() {
    let folder = std::env::var("SAIHDELU").expect("SAIHDELU: the folder of libnas_c.a");
    println!("cargo:rerun-if-env-changed=SAIHDELU");
    println!("cargo:rerun-if-changed={folder}/libnas_c.a");
    println!("cargo:rustc-link-search=native={folder}");
    println!("cargo:rustc-link-lib=static=nas_c");
}
