//! Links the verified library, which `make library` writes.

use std::path::PathBuf;

fn main() {
    let root = PathBuf::from(std::env::var_os("CARGO_MANIFEST_DIR").expect("cargo sets it"));
    let folder = root.join("../../crates/quagfeather/out");
    println!(
        "cargo:rerun-if-changed={}",
        folder.join("libquagfeather.a").display()
    );
    println!("cargo:rustc-link-search=native={}", folder.display());
    println!("cargo:rustc-link-lib=static=quagfeather");
}
