//! Links target/bindings/libloft.a, which `bindings/make` builds, or the one in
//! the folder that LOFT_LIB names.

use std::env;
use std::path::PathBuf;
use std::process::exit;

fn folder() -> PathBuf {
    let own = PathBuf::from(env!("CARGO_MANIFEST_DIR"));
    match env::var_os("LOFT_LIB") {
        Some(folder) => PathBuf::from(folder),
        None => own.join("../../target/bindings"),
    }
}

fn main() {
    let folder = folder();
    let library = folder.join("libloft.a");
    println!("cargo:rerun-if-env-changed=LOFT_LIB");
    println!("cargo:rerun-if-changed={}", library.display());
    if !library.is_file() {
        eprintln!(
            "there is no {}: run bindings/make, or name its folder in LOFT_LIB",
            library.display()
        );
        exit(1);
    }
    println!("cargo:rustc-link-search=native={}", folder.display());
    println!("cargo:rustc-link-lib=static=loft");
}
