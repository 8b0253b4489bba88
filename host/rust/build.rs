// SAIHDELU_LIB is the folder of libnas_c.a, which `rt lib` in crates/nas_c writes; without it, crates/nas_c/out of this repository.
use std::path::PathBuf;

fn main() {
    let here = PathBuf::from(std::env::var("CARGO_MANIFEST_DIR").expect("set by cargo"));
    let folder = match std::env::var("SAIHDELU_LIB") {
        Ok(folder) => PathBuf::from(folder),
        Err(_) => here.join("../../crates/nas_c/out"),
    };
    let library = folder.join("libnas_c.a");
    assert!(library.exists(), "{} is not there: `rt lib` in crates/nas_c writes it, SAIHDELU_LIB names its folder", library.display());
    println!("cargo:rustc-link-search=native={}", folder.display());
    println!("cargo:rustc-link-lib=static=nas_c");
    println!("cargo:rerun-if-env-changed=SAIHDELU_LIB");
    println!("cargo:rerun-if-changed={}", library.display());
}
