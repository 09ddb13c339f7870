//! Links the static library that CERBERUS_LIBRARY names, and again whenever that file changes.

use std::path::Path;

fn main() {
    println!("cargo:rerun-if-env-changed=CERBERUS_LIBRARY");
    let Ok(library) = std::env::var("CERBERUS_LIBRARY") else {
        return;
    };
    let folder = Path::new(&library).parent().expect("CERBERUS_LIBRARY names a file in a folder");
    println!("cargo:rerun-if-changed={library}");
    println!("cargo:rustc-link-search=native={}", folder.display());
    println!("cargo:rustc-link-lib=static=cerberus");
}
