//! Links the static library of crate exports. `VRF_LIBRARY` names a folder that holds a ready `libexports.a`; without it the library
//! is made here, which proves what it needs first and wants the toolchain (`rt`) on the path.
use std::path::PathBuf;
use std::process::Command;

fn main() {
    println!("cargo:rerun-if-env-changed=VRF_LIBRARY");
    let folder = match std::env::var_os("VRF_LIBRARY") {
        Some(folder) => PathBuf::from(folder),
        None => made(),
    };
    let library = folder.join("libexports.a");
    assert!(library.is_file(), "no static library at {}", library.display());
    println!("cargo:rerun-if-changed={}", library.display());
    println!("cargo:rustc-link-search=native={}", folder.display());
    println!("cargo:rustc-link-lib=static=exports");
}

/// The folder of the library that the repository's own script makes for this machine.
fn made() -> PathBuf {
    let root = PathBuf::from(std::env::var_os("CARGO_MANIFEST_DIR").unwrap()).join("../..");
    for source in [
        "crates.txt",
        "crates/bits",
        "crates/bitio",
        "crates/schema",
        "crates/framing",
        "crates/outputs",
        "crates/steps",
        "crates/cycle",
        "crates/array",
        "crates/fastarray",
        "crates/floats",
        "crates/geometry",
        "crates/exports",
        "crates/exports_c",
    ] {
        println!("cargo:rerun-if-changed={}", root.join(source).display());
    }
    let status = Command::new(root.join("tools/staticlib")).status();
    assert!(
        status.is_ok_and(|s| s.success()),
        "tools/staticlib could not make the static library; is `rt` on the path?"
    );
    root.join("target/native")
}
