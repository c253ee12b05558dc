//! Links the static library: MAXELTU_LIB names it, else target/staticlib/libmaxeltu.a of the repository.

use std::path::PathBuf;

fn main() {
    let default = PathBuf::from(env!("CARGO_MANIFEST_DIR")).join("../../target/staticlib/libmaxeltu.a");
    let archive = std::env::var_os("MAXELTU_LIB").map_or(default, PathBuf::from);
    // It is linked by its folder: another name would link another library that lies beside it.
    assert!(archive.ends_with("libmaxeltu.a"), "{} is not named libmaxeltu.a", archive.display());
    let folder = archive.parent().expect("a folder that holds libmaxeltu.a");
    println!("cargo:rerun-if-env-changed=MAXELTU_LIB");
    println!("cargo:rerun-if-changed={}", archive.display());
    println!("cargo:rustc-link-search=native={}", folder.display());
    println!("cargo:rustc-link-lib=static=maxeltu");
}
