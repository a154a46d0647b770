//! Links the static library when it is the server under test.

use std::env;

fn main() {
    println!("cargo:rerun-if-env-changed=DINGHY_LIB_DIR");
    if env::var_os("CARGO_FEATURE_LIBRARY").is_some() {
        let folder = env::var("DINGHY_LIB_DIR")
            .expect("DINGHY_LIB_DIR names the folder that holds libdinghy.a");
        println!("cargo:rerun-if-changed={folder}/libdinghy.a");
        println!("cargo:rustc-link-search=native={folder}");
        println!("cargo:rustc-link-lib=static=dinghy");
    }
}
