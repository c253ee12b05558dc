//! Links the static library (MAXELTU_LIB, else target/staticlib/libmaxeltu.a of the repository) and the plain C version
//! (MAXELTU_PLAIN, which bench/run builds).

use std::path::{Path, PathBuf};

fn link(archive: &Path, name: &str) {
    // It is linked by its folder: another name would link another library that lies beside it.
    assert!(archive.ends_with(format!("lib{name}.a")), "{} is not named lib{name}.a", archive.display());
    let folder = archive.parent().expect("a folder that holds the archive");
    println!("cargo:rerun-if-changed={}", archive.display());
    println!("cargo:rustc-link-search=native={}", folder.display());
    println!("cargo:rustc-link-lib=static={name}");
}

fn main() {
    let default = PathBuf::from(env!("CARGO_MANIFEST_DIR")).join("../target/staticlib/libmaxeltu.a");
    println!("cargo:rerun-if-env-changed=MAXELTU_LIB");
    println!("cargo:rerun-if-env-changed=MAXELTU_PLAIN");
    link(&std::env::var_os("MAXELTU_LIB").map_or(default, PathBuf::from), "maxeltu");
    link(&PathBuf::from(std::env::var_os("MAXELTU_PLAIN").expect("MAXELTU_PLAIN: run bench/run")), "plain");
}
