//! Links the archive that `bin/staticlib` makes. Where there is none the crate compiles without it, and says so.
use std::env;
use std::path::PathBuf;

fn main() {
    println!("cargo:rerun-if-env-changed=THREADMOLAR_LIB_DIR");
    println!("cargo:rustc-check-cfg=cfg(threadmolar_archive)");
    if variable("CARGO_CFG_TARGET_ARCH") != "x86_64" || variable("CARGO_CFG_TARGET_OS") != "linux" {
        println!("cargo:warning=threadmolar: the archive is for x86-64 Linux, and this target is not; no call can be made here");
        return;
    }
    let folder = match env::var_os("THREADMOLAR_LIB_DIR") {
        Some(folder) => PathBuf::from(folder),
        None => PathBuf::from(variable("CARGO_MANIFEST_DIR")).join("../../target/staticlib"),
    };
    let archive = folder.join("libthreadmolar.a");
    println!("cargo:rerun-if-changed={}", archive.display());
    if !archive.exists() {
        println!("cargo:warning=threadmolar: {} is missing; `bin/staticlib` makes it", archive.display());
        return;
    }
    println!("cargo:rustc-cfg=threadmolar_archive");
    println!("cargo:rustc-link-search=native={}", folder.display());
    println!("cargo:rustc-link-lib=static=threadmolar");
}

fn variable(name: &str) -> String {
    env::var(name).unwrap_or_default()
}
