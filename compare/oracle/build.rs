//! Writes original.rs, which declares the original's seven files as modules of this crate, read from the folder that
//! ORACLE_SRC names. Their text is neither changed nor copied.

use std::path::{Path, PathBuf};
use std::{env, fs};

const FILES: [&str; 7] =
    ["byte_struct_common", "error", "memory_file", "misc", "random_access_file", "sub_file", "wear_leveling"];

fn main() {
    println!("cargo:rerun-if-env-changed=ORACLE_SRC");
    let Ok(named) = env::var("ORACLE_SRC") else {
        panic!("ORACLE_SRC has to name the folder of the original, which has libsave3ds/src in it");
    };
    // rustc reads the paths below from another folder, so they have to be whole.
    let src = fs::canonicalize(Path::new(&named).join("libsave3ds/src"))
        .unwrap_or_else(|e| panic!("ORACLE_SRC={named}: no libsave3ds/src in it: {e}"));
    let here = PathBuf::from(env::var_os("CARGO_MANIFEST_DIR").expect("cargo sets it"));
    let peek = here.join("src/peek.rs");

    let mut modules = String::new();
    for name in FILES {
        let file = src.join(name).with_extension("rs");
        assert!(file.exists(), "ORACLE_SRC={named}: no {name}.rs");
        println!("cargo:rerun-if-changed={}", file.display());
        modules += &if name == "wear_leveling" {
            // Beside the text stands a child module of ours: by Rust's rule of privacy it sees the private fields.
            format!("pub mod {name} {{ include!({file:?}); #[path = {peek:?}] pub mod peek; }}\n")
        } else {
            format!("#[path = {file:?}] pub mod {name};\n")
        };
    }
    let out = PathBuf::from(env::var_os("OUT_DIR").expect("cargo sets it"));
    fs::write(out.join("original.rs"), modules).expect("OUT_DIR can be written");
}
