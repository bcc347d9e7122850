//! Links the static library of crate probes, which is for tests only. `VRF_LIBRARY` may name a folder that holds a ready `libprobes.a`;
//! without it the library is made here, which wants the toolchain (`rt`) on the path. libexports.a is host/rust's to link.
use std::path::PathBuf;
use std::process::Command;

fn main() {
    println!("cargo:rerun-if-env-changed=VRF_LIBRARY");
    let ready = std::env::var_os("VRF_LIBRARY")
        .map(PathBuf::from)
        .filter(|folder| folder.join("libprobes.a").is_file());
    let folder = ready.unwrap_or_else(made);
    println!("cargo:rerun-if-changed={}", folder.join("libprobes.a").display());
    println!("cargo:rustc-link-search=native={}", folder.display());
    println!("cargo:rustc-link-lib=static=probes");
}

/// The folder of the library that the repository's own script makes for this machine.
fn made() -> PathBuf {
    let root = PathBuf::from(env!("CARGO_MANIFEST_DIR")).join("../..");
    for source in ["crates.txt", "crates/bits", "crates/bitio", "crates/probes"] {
        println!("cargo:rerun-if-changed={}", root.join(source).display());
    }
    let status = Command::new(root.join("tools/staticlib")).arg("probes").status();
    assert!(
        status.is_ok_and(|s| s.success()),
        "tools/staticlib could not make the static library; is `rt` on the path?"
    );
    root.join("target/native")
}
