//! Compiles ipsec_mb.c, whose library offers its calls to C alone (macros over a table of functions).
use std::{env, process::Command};

fn run(program: &str, arguments: &[&str]) {
    assert!(Command::new(program).args(arguments).status().unwrap().success(), "{program} {arguments:?}");
}

fn main() {
    let out = env::var("OUT_DIR").unwrap();
    let (object, archive) = (format!("{out}/ipsec_mb.o"), format!("{out}/libipsec_mb_calls.a"));
    run("gcc", &["-O2", "-Wall", "-c", "ipsec_mb.c", "-o", &object]);
    run("ar", &["crs", &archive, &object]);
    println!("cargo:rerun-if-changed=ipsec_mb.c");
    println!("cargo:rustc-link-search=native={out}");
    println!("cargo:rustc-link-lib=static=ipsec_mb_calls");
    println!("cargo:rustc-link-lib=dylib=IPSec_MB");
}
