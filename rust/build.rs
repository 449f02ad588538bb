//! Links libembed.a, which `tests/archive.sh` makes. QPACK_TABLE_LIB names its folder where it is another one.
use std::{env, path::PathBuf};

fn main() {
    println!("cargo:rerun-if-env-changed=QPACK_TABLE_LIB");
    let here = PathBuf::from(env::var_os("CARGO_MANIFEST_DIR").expect("cargo sets it"));
    let folder = match env::var_os("QPACK_TABLE_LIB") {
        Some(folder) => PathBuf::from(folder),
        None => here.join("../target/staticlib"),
    };
    let target = env::var("TARGET").expect("cargo sets it");
    assert!(
        target.starts_with("x86_64-") && target.contains("linux"),
        "libembed.a is for x86-64 Linux, not for {target}"
    );
    let archive = folder.join("libembed.a");
    assert!(
        archive.is_file(),
        "{} is missing: run `tests/archive.sh`",
        archive.display()
    );
    println!("cargo:rerun-if-changed={}", archive.display());
    println!("cargo:rustc-link-search=native={}", folder.display());
    println!("cargo:rustc-link-lib=static=embed");
}
