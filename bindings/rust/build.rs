//! Links the library that `./sandbox-lib FOLDER` puts into a folder, which `SANDBOX_BROKER_LIB` names.
use std::env;

fn main() {
    println!("cargo:rerun-if-env-changed=SANDBOX_BROKER_LIB");
    let folder = env::var("SANDBOX_BROKER_LIB")
        .expect("SANDBOX_BROKER_LIB names the folder of `./sandbox-lib FOLDER`");
    println!("cargo:rustc-link-search=native={folder}");
    println!("cargo:rustc-link-lib=static=sb_c");
    println!("cargo:rustc-link-lib=static=libc_c");
}
