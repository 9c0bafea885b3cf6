//! Links the static library that `host/library.sh` writes; `SONGPIGEON_LIB` names another folder than
//! `target/staticlib`.

use std::env;
use std::path::PathBuf;

fn main() {
    let here = PathBuf::from(env::var("CARGO_MANIFEST_DIR").expect("cargo sets it"));
    let folder = env::var_os("SONGPIGEON_LIB").map_or_else(|| here.join("../../target/staticlib"), PathBuf::from);
    println!("cargo:rerun-if-env-changed=SONGPIGEON_LIB");
    println!("cargo:rerun-if-changed={}", folder.join("libsongpigeon.a").display());
    println!("cargo:rustc-link-search=native={}", folder.display());
    println!("cargo:rustc-link-lib=static=songpigeon");
}
