//! Links libxosera.a from XOSERA_LIB_DIR, or from build/ of this repository.

use std::env;
use std::path::PathBuf;

fn main() {
    println!("cargo:rerun-if-env-changed=XOSERA_LIB_DIR");
    let here = PathBuf::from(env::var_os("CARGO_MANIFEST_DIR").expect("set by cargo"));
    let dir = match env::var_os("XOSERA_LIB_DIR") {
        Some(dir) => PathBuf::from(dir),
        None => here.join("../../../build"),
    };
    let library = dir.join("libxosera.a");
    // Without the library nothing links, but `cargo clippy` needs none.
    if !library.is_file() {
        println!(
            "cargo:warning={} is missing: run `make lib`, or set XOSERA_LIB_DIR",
            library.display()
        );
    }
    println!("cargo:rerun-if-changed={}", library.display());
    println!("cargo:rustc-link-search=native={}", dir.display());
    println!("cargo:rustc-link-lib=static=xosera");
}
