//! Links libexports.a, from FORTIZEMBO_LIB or else from where `rt lib` in crates/exports writes it.
use std::env;

fn main() {
    println!("cargo:rerun-if-env-changed=FORTIZEMBO_LIB");
    let built =
        || format!("{}/../../crates/exports/out", env::var("CARGO_MANIFEST_DIR").expect("cargo names the folder"));
    let folder = env::var("FORTIZEMBO_LIB").unwrap_or_else(|_| built());
    println!("cargo:rerun-if-changed={folder}/libexports.a");
    println!("cargo:rustc-link-search=native={folder}");
    println!("cargo:rustc-link-lib=static=exports");
}
