//! With the feature `first`, tells the linker where the first implementation's library is: libc_abi.a, which src/ffi.rs names.
use std::env;

fn main() {
    println!("cargo:rerun-if-env-changed=LTD_LIB_DIR");
    if env::var_os("CARGO_FEATURE_FIRST").is_some() {
        let dir = env::var("LTD_LIB_DIR").expect("LTD_LIB_DIR must name the directory of libc_abi.a");
        println!("cargo:rerun-if-changed={dir}/libc_abi.a");
        println!("cargo:rustc-link-search=native={dir}");
    }
}
