//! Links libboundary.a from the directory in YIKES_LIB_DIR, or from target/staticlib of the repository, where `tools/build.sh boundary` puts it.
use std::path::PathBuf;

fn main() {
    let here = PathBuf::from(std::env::var("CARGO_MANIFEST_DIR").expect("cargo sets CARGO_MANIFEST_DIR"));
    let dir = match std::env::var_os("YIKES_LIB_DIR") {
        Some(dir) => PathBuf::from(dir),
        None => here.join("../../target/staticlib"),
    };
    println!("cargo:rerun-if-env-changed=YIKES_LIB_DIR");
    println!("cargo:rerun-if-changed={}", dir.join("libboundary.a").display());
    println!("cargo:rustc-link-search=native={}", dir.display());
    println!("cargo:rustc-link-lib=static=boundary");
}
