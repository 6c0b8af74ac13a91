//! Names the static library to the linker: `tools/staticlib.sh` writes it to `target/staticlib` of the repository.
//! `POKCHREI_STATICLIB` names another folder.

use std::env;
use std::path::PathBuf;

fn main() {
    println!("cargo:rerun-if-env-changed=POKCHREI_STATICLIB");
    let folder = match env::var_os("POKCHREI_STATICLIB") {
        Some(folder) => PathBuf::from(folder),
        None => PathBuf::from(env!("CARGO_MANIFEST_DIR")).join("../target/staticlib"),
    };
    println!(
        "cargo:rerun-if-changed={}",
        folder.join("libcapi.a").display()
    );
    println!("cargo:rustc-link-search=native={}", folder.display());
    println!("cargo:rustc-link-lib=static=capi");
}
