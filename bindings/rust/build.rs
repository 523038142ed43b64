//! Links the static library: in `DOMIRELASH_LIB_DIR` if that is set, else in `bindings/out`.

use std::env;
use std::path::PathBuf;

fn main() {
    let manifest = PathBuf::from(env::var_os("CARGO_MANIFEST_DIR").expect("cargo sets it"));
    let folder = env::var_os("DOMIRELASH_LIB_DIR").map_or_else(|| manifest.join("../out"), PathBuf::from);
    println!("cargo:rerun-if-env-changed=DOMIRELASH_LIB_DIR");
    println!("cargo:rerun-if-changed={}", folder.join("libdomirelash.a").display());
    println!("cargo:rustc-link-search=native={}", folder.display());
    println!("cargo:rustc-link-lib=static=domirelash");
}
