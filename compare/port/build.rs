//! Links the port's static library, libffi.a, from the folder that PORT_LIB names.

use std::path::Path;
use std::{env, fs};

fn main() {
    println!("cargo:rerun-if-env-changed=PORT_LIB");
    let Ok(named) = env::var("PORT_LIB") else {
        panic!("PORT_LIB has to name the folder that has the port's libffi.a in it");
    };
    let folder = fs::canonicalize(Path::new(&named)).unwrap_or_else(|e| panic!("PORT_LIB={named}: {e}"));
    let library = folder.join("libffi.a");
    assert!(library.exists(), "PORT_LIB={named}: no libffi.a in it");
    println!("cargo:rerun-if-changed={}", library.display());
    println!("cargo:rustc-link-search=native={}", folder.display());
    println!("cargo:rustc-link-lib=static=ffi");
}
