//! Links libvex.a: that of the folder in the environment variable LIBVEX_DIR, or of out/ of the repository.
use std::path::PathBuf;

fn main() {
    println!("cargo:rerun-if-env-changed=LIBVEX_DIR");
    let folder = std::env::var_os("LIBVEX_DIR").map_or_else(
        || PathBuf::from(std::env::var_os("CARGO_MANIFEST_DIR").expect("cargo sets it")).join("../../out"),
        PathBuf::from,
    );
    println!("cargo:rerun-if-changed={}", folder.join("libvex.a").display());
    println!("cargo:rustc-link-search=native={}", folder.display());
    println!("cargo:rustc-link-lib=static=vex");
}
